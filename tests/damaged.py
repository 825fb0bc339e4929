#!/usr/bin/env python3
"""Writes a stream of damaged configuration files to standard output.

Each file of tests/cases as it is, and those of at most 300 bytes with every single byte deleted, doubled and changed, in a
fixed order: frames of two length bytes, high first, and as many bytes. Both programs answer the same stream, so that
their answers can be compared line by line. The number of frames goes to standard error.
"""
import pathlib
import sys

# what a byte is changed to: one of each kind, and some that are of none
OTHERS = b"aE1*./:[]{}|\n z\x00\xff"


def damaged(data, number):
    """The file itself, then each place deleted, doubled, and changed to one other byte."""
    yield data
    for at in range(len(data)):
        yield data[:at] + data[at + 1 :]
        yield data[: at + 1] + data[at:]
        other = OTHERS[(at + number) % len(OTHERS)]
        if other != data[at]:
            yield data[:at] + bytes([other]) + data[at + 1 :]


def main():
    cases = pathlib.Path(__file__).resolve().parent / "cases"
    files = sorted(cases.glob("**/*.cfg"))
    if not files:
        sys.exit(f"damaged.py: no files in {cases.name}/")
    count = 0
    out = sys.stdout.buffer
    for number, path in enumerate(files):
        data = path.read_bytes()
        for file in damaged(data, number) if len(data) <= 300 else [data]:
            out.write(bytes([len(file) // 256, len(file) % 256]) + file)
            count += 1
    print(f"{count} frames", file=sys.stderr)


if __name__ == "__main__":
    main()
