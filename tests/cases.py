#!/usr/bin/env python3
"""The files of a folder such as tests/cases, with the answers that lie beside them.

    cases.py frames FOLDER     the files NAME.cfg as a stream: two length bytes, high first, and the bytes
    cases.py answers FOLDER    for each of them NAME.basic and NAME.adaptive, what the two programs must print

Folders inside the folder count too. The number of frames goes to standard error.
"""
import pathlib
import sys


def main():
    if len(sys.argv) != 3 or sys.argv[1] not in ("frames", "answers"):
        sys.exit("usage: cases.py frames|answers FOLDER")
    files = sorted(pathlib.Path(sys.argv[2]).glob("**/*.cfg"))
    if not files:
        sys.exit(f"cases.py: no files in {sys.argv[2]}")
    out = sys.stdout.buffer
    for path in files:
        if sys.argv[1] == "frames":
            data = path.read_bytes()
            out.write(bytes([len(data) // 256, len(data) % 256]) + data)
        else:
            out.write(path.with_suffix(".basic").read_bytes() + path.with_suffix(".adaptive").read_bytes())
    print(f"{len(files)} frames", file=sys.stderr)


if __name__ == "__main__":
    main()
