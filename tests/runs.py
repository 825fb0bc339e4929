#!/usr/bin/env python3
"""The runs of document 01, "Runs to check", by the programs themselves: `./run basic`, `./run adaptive` and `./run trace`.

For each file what either edition prints, and what a run of it does: letter by letter, with `+` for start, `~` for resume and `-`
for stop before a module, as `trace` prints it. The same run is done on each table that was printed, which is read here. What
document 01 does not give (how many states, how many bytes) was worked out by hand from its rules. The last line is
`N passed, M failed`.
"""
import pathlib
import subprocess
import sys

RUN = pathlib.Path(__file__).resolve().parent.parent / "run"
EIGHT = "a||b||c||d||e||f||g||h"

# file, what Basic prints, what Adaptive prints (`ok STATES BYTES` without the table), the start, and a line for each letter
RUNS = [
    ("standard E\nprogram a/E.\n", "ok 2 11", "ok 2 11", "start a", ["E -a"]),
    ("program ab.\n", "ok 3 15", "ok 3 15", "start a", ["a +b"]),
    ("program [a||b]*.\n", "ok 3 15", "ok 3 15", "start a b", ["a", "b +a +b"]),
    ("program [a*||b].\n", "ok 2 12", "ok 2 12", "start a b", ["a +a"]),
    ("standard EF\nprogram ab/{E:c|F:d}.\n", "ok 27 372", "ok 27 372", "start a", ["F", "E", "a +d"]),
    ("fugitive E\nprogram ab/E:c.\n", "refused 15 at 0", "ok 4 38", "start a", ["E", "a +b", "E -b +c"]),
    ("standard EF\nprogram a/E:b/F:c.\n", "ok 15 157", "ok 15 157", "start a", ["F", "E -a +c"]),
    ("standard E\nprogram [a/E:b]*.\n", "ok 3 21", "ok 3 21", "start a", ["E -a +b", "b ~a"]),
    ("standard E\nprogram [a/E]*.\n", "ok 1 8", "ok 1 8", "start a", ["E"]),
    ("standard EF\nprogram 1/{E||F}.\n", "refused 16 at 24", "ok 6 20", "start", ["E", "F"]),
    ("standard E\nprogram [a/E:b]/E:c.\n", "ok 4 38", "ok 4 38", "start a", ["E -a +c"]),
    ("fugitive G\nprogram [a/G||b/G].\n", "refused 15 at 0", "ok 4 27", "start a b", ["G -a -b"]),
    ("standard G\nprogram [a/G||b/G].\n", "refused 14 at 23", "refused 14 at 23", None, []),
    (f"fugitive E\nprogram [{EIGHT}||1/E].\n", "refused 15 at 0", "ok 512 14986", "start a b c d e f g h", ["E", "c", "h"]),
    (f"fugitive E\nprogram [{EIGHT}||1/E1/E].\n", "refused 15 at 0", "refused 17 at 0", "start a b c d e f g h", ["E", "c"]),
    ("standard E\nfugitve F\n", "refused 4 at 11", "refused 4 at 11", None, []),
    ("program a/.\n", "refused 8 at 10", "refused 8 at 10", None, []),
    ("", "refused 7 at 0", "refused 7 at 0", None, []),
    # a file over 1,024 bytes is No. 2, whatever it holds
    ("x" * 1023 + "\n", "refused 3 at 0", "refused 3 at 0", None, []),
    ("program a.\n" + "\n" * 1014, "refused 2 at 0", "refused 2 at 0", None, []),
    ("program a.\n" * 455, "refused 2 at 0", "refused 2 at 0", None, []),
]

# the table that document 01 gives for the first of them
FIRST = "1110010118048070008040"

failures = []
checked = 0


def check(what, given, wanted):
    global checked
    checked += 1
    if given != wanted:
        failures.append(what)
        print(f"{what}\n  wanted {wanted}\n  given  {given}")


def printed(file, *words):
    """The lines that a program prints."""
    answer = subprocess.run([RUN, *words], input=file.encode(), capture_output=True)
    if answer.returncode != 0:
        sys.exit(f"runs.py: ./run {' '.join(words)} ended with {answer.returncode}: {answer.stderr.decode()}")
    return answer.stdout.decode().splitlines()


class Table:
    """A table of document 01, "The table", from its hex."""

    def __init__(self, text):
        self.bits = "".join(f"{int(digit, 16):04b}" for digit in text)
        self.at = 0
        _layout, modules, events, states = (self.take(width) for width in (4, 4, 4, 12))
        self.letters = [chr(97 + self.take(5)) for _ in range(modules)] + [chr(65 + self.take(5)) for _ in range(events)]
        self.modules = self.letters[:modules]
        self.at += events
        self.running = [name for name in self.modules if self.take(1)]
        # state by state, letter by letter: possible, the next state, an order for each module
        self.rows = [
            {letter: [self.take(width) for width in [1, 9] + [2] * modules] for letter in self.letters}
            for _ in range(states + 1)
        ]

    def take(self, width):
        self.at += width
        return int(self.bits[self.at - width : self.at], 2)

    def walk(self, letters):
        """The lines of a run, as `trace` prints them."""
        yield " ".join(["start"] + self.running)
        state = 0
        for letter in letters:
            _possible, state, *orders = self.rows[state][letter]
            yield " ".join([letter] + [" +~-"[order] + name for name, order in zip(self.modules, orders) if order])


def main():
    for file, basic, adaptive, start, steps in RUNS:
        named = repr(file if len(file) < 80 else file[:60] + "..")
        letters = "".join(step[0] for step in steps)
        for edition, wanted in (("basic", basic), ("adaptive", adaptive)):
            lines = printed(file, edition)
            check(f"{edition} {named}", lines[0], wanted)
            if wanted.startswith("ok "):
                check(f"{edition} {named}: bytes", len(lines[1]), 2 * int(wanted.split()[2]))
                check(f"{edition} {named}: {letters}", list(Table(lines[1]).walk(letters)), [start] + steps)
            check(f"{edition} {named}: lines", len(lines), 2 if wanted.startswith("ok ") else 1)
            if file == RUNS[0][0]:
                check(f"{edition} {named}: table", lines[1], FIRST)
        if start:
            check(f"trace {named}: {letters}", printed(file, "trace", letters), [start] + steps)
    print(f"{checked - len(failures)} passed, {len(failures)} failed")
    sys.exit(1 if failures else 0)


if __name__ == "__main__":
    main()
