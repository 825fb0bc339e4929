#!/usr/bin/env python3
"""Writes a stream of live runs to standard output.

For each file of tests/cases that runs live a walk of 300 letters and ten of 30, in a fixed order: letters of its program, and
now and then any byte. The other files have one letter, which is never read. A run is two frames, the file and its letters, each
two length bytes, high first, and as many bytes. Both programs answer the same stream, so that their answers can be compared
line by line. The number of lines that they print goes to standard error.
"""
import pathlib
import random
import sys

CASES = pathlib.Path(__file__).resolve().parent / "cases"


def files():
    """Each file with whether it runs live: Adaptive accepts it, or finds too many states only."""
    paths = sorted(CASES.glob("**/*.cfg"))
    if not paths:
        sys.exit(f"no files in {CASES.name}/")
    for path in paths:
        answer = path.with_suffix(".adaptive").read_text()
        yield path.read_bytes(), answer.startswith(("ok ", "refused 17 "))


def letters(file):
    """The letters of a program, ascending: modules, then events."""
    value = next(line[8:] for line in file.split(b"\n") if line.startswith(b"program "))
    return sorted({b for b in value if chr(b).islower()}) + sorted({b for b in value if chr(b).isupper()})


def walk(rng, choice, length):
    """Letters of the program, one byte in twenty any at all."""
    own = choice or [0]
    return bytes(rng.choice(own) if rng.randrange(20) else rng.randrange(256) for _ in range(length))


def frame(data):
    return bytes([len(data) // 256, len(data) % 256]) + data


def main():
    rng = random.Random(300)
    lines = 0
    out = sys.stdout.buffer
    for file, runs in files():
        if not runs:
            out.write(frame(file) + frame(b"a"))
            lines += 1
            continue
        for length in [300] + [30] * 10:
            taken = walk(rng, letters(file), length)
            out.write(frame(file) + frame(taken))
            lines += 1 + length + taken.count(10)
    print(f"{lines} lines", file=sys.stderr)


if __name__ == "__main__":
    main()
