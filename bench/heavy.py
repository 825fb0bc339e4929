#!/usr/bin/env python3
"""Writes the files that bench/compile measures to standard output, as frames of bench/compile.c: the heavy files of tests/cases for either edition, and
three families whose files have twice as many states each time, 2 to 512 where the limits of a program allow it."""
import pathlib
import sys

LETTERS = "abcdefgh"


def frame(family, edition, name, file):
    return bytes([family, edition, len(name)]) + name.encode() + len(file).to_bytes(2, "big") + file


def heavy():
    folder = pathlib.Path(__file__).resolve().parent.parent / "tests" / "cases" / "heavy"
    paths = sorted(folder.glob("*.cfg"))
    if not paths:
        sys.exit("heavy.py: no files in tests/cases/heavy/")
    for path in paths:
        for edition in (1, 0):
            yield frame(0, edition, path.stem, path.read_bytes())


def subsets():
    """2^k states: any of the k modules may have completed."""
    for k in range(1, 9):
        yield frame(1, 1, f"{k} modules", f"program [{'||'.join(LETTERS[:k])}].\n".encode())
    yield frame(1, 1, "8 modules and an event", f"fugitive E\nprogram [{'||'.join(LETTERS)}||1/E].\n".encode())


def pairs():
    """(p + 1) (q + 1) states, always two modules and a word of at most five units."""
    p, q = 1, 0
    while (p + 1) * (q + 1) <= 512:
        body = "a" * p + "||" * (q > 0) + "b" * q
        yield frame(2, 1, f"{p} and {q}", f"program [{body}].\n".encode())
        p, q = (2 * p + 1, q) if p == q else (p, 2 * q + 1)


def sequences():
    for n in (1, 3, 7, 15, 31, 63, 95):
        yield frame(3, 1, f"{n} letters", f"program {'a' * n}.\n".encode())


def main():
    for frames in (heavy(), subsets(), pairs(), sequences()):
        sys.stdout.buffer.write(b"".join(frames))


if __name__ == "__main__":
    main()
