#!/usr/bin/env python3
"""Files at the border of each refusal from 2 to 16, with the answers that document 01 gives them.

    borders.py frames    the files as a stream: two length bytes, high first, and the bytes
    borders.py answers   two lines for each file, for Basic and for Adaptive: its refusal, or `read`

The answers are written here by hand, from document 01, and are none of the programs'. The number of files goes to standard error.
"""
import sys


def longest_line(n):
    """A file of n bytes whose one line has an unknown key."""
    return b"x" * (n - 2) + b" \n"


def deep(n, pair=b"[]"):
    """n brackets or braces inside each other, of 96 tokens at most."""
    if pair == b"[]":
        return b"program " + b"[" * n + b"a" + b"]" * n + b".\n"
    return b"standard E\nprogram a/" + b"{" * n + b"E" + b"|E}" * n + b".\n"


# file, what Basic answers, what Adaptive answers; `read` where it is accepted
CASES = [
    # No. 2: 1,024 bytes are looked at, 1,025 are not
    (longest_line(1024), "refused 3 at 0", "refused 3 at 0"),
    (longest_line(1025), "refused 2 at 0", "refused 2 at 0"),
    (b"program a.\n" + b"\n" * 1013, "refused 3 at 11", "refused 3 at 11"),
    (b"program a.\n" + b"\n" * 1014, "refused 2 at 0", "refused 2 at 0"),
    # No. 3: its end, a space, something after it
    (b"program a.", "refused 3 at 0", "refused 3 at 0"),
    (b"program a.\n", "read", "read"),
    (b"program\n", "refused 3 at 0", "refused 3 at 0"),
    (b"program \n", "refused 3 at 0", "refused 3 at 0"),
    (b"program a.\n\n", "refused 3 at 11", "refused 3 at 11"),
    # No. 4: an unknown key, an empty one too
    (b"standard E\nfugitve F\nprogram a/{E|F}.\n", "refused 4 at 11", "refused 4 at 11"),
    (b" E\nprogram a.\n", "refused 4 at 0", "refused 4 at 0"),
    (b"Program a.\n", "refused 4 at 0", "refused 4 at 0"),
    # No. 5: a key a second time
    (b"program a.\nprogram a.\n", "refused 5 at 11", "refused 5 at 11"),
    (b"standard E\nstandard F\nprogram a/{E|F}.\n", "refused 5 at 11", "refused 5 at 11"),
    # No. 6: a byte not A to Z; a letter twice on one line and across lines
    (b"standard Ee\nprogram a/E.\n", "refused 6 at 10", "refused 6 at 10"),
    (b"standard E \nprogram a/E.\n", "refused 6 at 10", "refused 6 at 10"),
    (b"standard EE\nprogram a/E.\n", "refused 6 at 10", "refused 6 at 10"),
    (b"standard E\nfugitive E\nprogram a/E.\n", "refused 6 at 20", "refused 6 at 20"),
    (b"standard AZ\nprogram a/{A|Z}.\n", "read", "read"),
    (b"standard @\nprogram a.\n", "refused 6 at 9", "refused 6 at 9"),
    (b"standard [\nprogram a.\n", "refused 6 at 9", "refused 6 at 9"),
    # No. 7: no program line, at the file's length
    (b"", "refused 7 at 0", "refused 7 at 0"),
    (b"standard E\n", "refused 7 at 11", "refused 7 at 11"),
    # No. 8: the first byte that no program continues with
    (b"program a/.\n", "refused 8 at 10", "refused 8 at 10"),
    (b"standard EFG\nprogram a/{E|F||G}.\n", "refused 8 at 28", "refused 8 at 28"),
    (b"standard EFG\nprogram a/{E||F|G}.\n", "refused 8 at 29", "refused 8 at 29"),
    (b"program [a|b].\n", "refused 8 at 11", "refused 8 at 11"),
    (b"program a**.\n", "refused 8 at 10", "refused 8 at 10"),
    (b"standard E\nprogram a/{E}.\n", "refused 8 at 23", "refused 8 at 23"),
    (b"program a.b\n", "refused 8 at 10", "refused 8 at 10"),
    (b"program a\n", "refused 8 at 9", "refused 8 at 9"),
    (b"program .\n", "refused 8 at 8", "refused 8 at 8"),
    (b"program  a.\n", "refused 8 at 8", "refused 8 at 8"),
    # No. 9: 96 and 97 tokens; 16 and 17 deep, in brackets and in braces; 3 and 4 stars, one of them through a treatment
    (b"program " + b"a" * 95 + b".\n", "read", "read"),
    (b"program " + b"a" * 96 + b".\n", "refused 9 at 104", "refused 9 at 104"),
    (b"program [" + b"a" * 91 + b"||b].\n", "read", "read"),
    (b"program [" + b"a" * 92 + b"||b].\n", "refused 9 at 105", "refused 9 at 105"),
    (deep(16), "read", "read"),
    (deep(17), "refused 9 at 24", "refused 9 at 24"),
    (deep(16, b"{}"), "read", "read"),
    (deep(17, b"{}"), "refused 9 at 37", "refused 9 at 37"),
    (b"program [[a*]*]*.\n", "read", "read"),
    (b"program [[[a*]*]*]*.\n", "refused 9 at 18", "refused 9 at 18"),
    (b"standard E\nprogram [a/E:[[b*]*]*]*.\n", "refused 9 at 33", "refused 9 at 33"),
    (b"standard E\nprogram [a/E:[b*]*]*.\n", "read", "read"),
    # No. 10 and 11: an event not listed, a listed one not used
    (b"program a/E.\n", "refused 10 at 10", "refused 10 at 10"),
    (b"standard E\nprogram a/{E|F}.\n", "refused 10 at 24", "refused 10 at 24"),
    (b"standard EF\nprogram a/E.\n", "refused 11 at 10", "refused 11 at 10"),
    (b"fugitive F\nprogram a.\nstandard E\n", "refused 11 at 9", "refused 11 at 9"),
    # No. 12: a ninth module, a ninth event
    (b"program abcdefgh.\n", "read", "read"),
    (b"program abcdefghi.\n", "refused 12 at 16", "refused 12 at 16"),
    (b"standard ABCDEFGH\nprogram 1/{A|B|C|D|E|F|G|H}.\n", "read", "read"),
    (b"standard ABCDEFGHI\nprogram 1/{A|B|C|D|E|F|G|H|I}.\n", "refused 12 at 46", "refused 12 at 46"),
    # No. 13 and 14: a module, a standard event on both sides; in braces too; a fugitive event may
    (b"program [a||b].\n", "read", "read"),
    (b"program [a||ba].\n", "refused 13 at 10", "refused 13 at 10"),
    (b"standard EF\nprogram 1/{E:a||F:a}.\n", "refused 13 at 26", "refused 13 at 26"),
    (b"standard E\nprogram [a/E||b/E].\n", "refused 14 at 23", "refused 14 at 23"),
    (b"standard E\nprogram 1/{E||E:b}.\n", "refused 14 at 23", "refused 14 at 23"),
    (b"fugitive E\nprogram [a/E||b/E].\n", "refused 15 at 0", "read"),
    (b"fugitive E\nprogram 1/{E||E:b}.\n", "refused 15 at 0", "read"),
    # No. 15 and 16: Basic alone
    (b"program a/E.\nfugitive E\n", "refused 15 at 13", "read"),
    (b"standard E\nprogram a/E.\n", "read", "read"),
    (b"standard EF\nprogram 1/{E||F}.\n", "refused 16 at 24", "read"),
    (b"standard EF\nprogram 1/{E|F}.\n", "read", "read"),
]


def main():
    out = sys.stdout.buffer
    for file, basic, adaptive in CASES:
        if sys.argv[1:] == ["frames"]:
            out.write(len(file).to_bytes(2, "big") + file)
        elif sys.argv[1:] == ["answers"]:
            out.write(f"{basic}\n{adaptive}\n".encode())
        else:
            sys.exit(__doc__)
    print(f"{len(CASES)} frames", file=sys.stderr)


if __name__ == "__main__":
    main()
