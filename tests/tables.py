#!/usr/bin/env python3
"""Writes a stream of calls of tables to standard output.

Right tables and damaged ones, started and stepped, in a fixed order: the table of `a/E.` with every letter byte and each of its
bits changed; the tables of tests/cases and some made here, stepped, and with bits changed, bytes cut off and added; and each
condition of No. 19 broken alone. A frame is a byte, 0 for start and 1 for step, the state in two bytes, high first, the letter,
two length bytes, high first, and the table. Both programs answer the same stream, so that their answers can be compared line by
line. The number of frames goes to standard error.
"""
import pathlib
import random
import sys

# the table of `standard E`, `program a/E.`
FIRST = bytes.fromhex("1110010118048070008040")


class Table:
    """What a table says: names, fugitive bits, start bits, and for each state and letter (possible, next, orders)."""

    def __init__(self, rng, modules, events, states):
        self.layout = 1
        self.modules = sorted(rng.sample(range(26), modules))
        self.events = sorted(rng.sample(range(26), events))
        self.fugitive = [rng.randrange(2) for _ in range(events)]
        self.rows = [self.row(rng, states) for _ in range(states)]
        self.start = [entry[0] for entry in self.rows[0][:modules]]
        self.padding = 0

    def row(self, rng, states):
        entries = []
        for letter in range(len(self.modules) + len(self.events)):
            if letter < len(self.modules) and rng.randrange(2):
                entries.append((0, 0, [0] * len(self.modules)))
            else:
                orders = [rng.randrange(4) for _ in self.modules]
                entries.append((1, rng.randrange(min(states, 512)), orders))
        return entries

    def written(self):
        """Fields packed most significant bit first, and the padding."""
        fields = [(self.layout, 4), (len(self.modules), 4), (len(self.events), 4), (len(self.rows) - 1, 12)]
        fields += [(name, 5) for name in self.modules + self.events]
        fields += [(bit, 1) for bit in self.fugitive + self.start]
        for possible, following, orders in (entry for row in self.rows for entry in row):
            fields += [(possible, 1), (following, 9)] + [(order, 2) for order in orders]
        text = "".join(format(value, f"0{width}b") for value, width in fields)
        left = -len(text) % 8
        if left:
            text += format(self.padding, f"0{left}b")
        return int("1" + text, 2).to_bytes(len(text) // 8 + 1, "big")[1:]


def start(table):
    return 0, 0, 0, table


def step(table, state, letter):
    return 1, state, letter, table


def letters(table):
    """The bytes of the letters that a right table has."""
    bits = bin(int.from_bytes(b"\x01" + table, "big"))[3:]
    modules, events = int(bits[4:8], 2), int(bits[8:12], 2)
    names = [int(bits[at : at + 5], 2) for at in range(24, 24 + 5 * (modules + events), 5)]
    return [97 + name for name in names[:modules]] + [65 + name for name in names[modules:]]


def states(table):
    return (table[1] % 16 * 256 + table[2]) + 1


def flipped(table, bit):
    changed = bytearray(table)
    changed[bit // 8] ^= 128 >> bit % 8
    return bytes(changed)


def any_call(rng, table, base):
    """A start or a step of a table that may be damaged, by a state and a letter that mostly are those of the one it was made from."""
    if rng.randrange(3) == 0:
        return start(table)
    state = rng.randrange(states(base)) if rng.randrange(8) else rng.randrange(65536)
    known = letters(base)
    letter = rng.choice(known) if known and rng.randrange(8) else rng.randrange(256)
    return step(table, state, letter)


def first():
    """Document 01's table: every letter byte in some states, and each bit changed."""
    yield start(FIRST)
    for state in (0, 1, 2, 3, 255, 256, 511, 512, 65535):
        for letter in range(256):
            yield step(FIRST, state, letter)
    for bit in range(8 * len(FIRST)):
        changed = flipped(FIRST, bit)
        yield start(changed)
        for state, letter in ((0, 97), (0, 69), (1, 97), (1, 69)):
            yield step(changed, state, letter)
    for size in range(len(FIRST)):
        yield start(FIRST[:size])
        yield step(FIRST[:size], 0, 97)


def damaged(rng, table, count):
    """A right table in calls, then with bits changed, cut, and with bytes added or taken out."""
    yield start(table)
    for _ in range(count):
        yield any_call(rng, table, table)
    for _ in range(count):
        yield any_call(rng, flipped(table, rng.randrange(8 * len(table))), table)
    for _ in range(count // 4):
        at = rng.randrange(len(table))
        yield any_call(rng, table[:at], table)
        yield any_call(rng, table[:at] + table[at + 1 :], table)
        yield any_call(rng, table[:at] + bytes([rng.randrange(256)]) + table[at:], table)
    for more in (b"\x00", b"\xff", bytes(8)):
        yield any_call(rng, table + more, table)
        yield any_call(rng, more + table, table)


def cases():
    """The different tables of tests/cases."""
    folder = pathlib.Path(__file__).resolve().parent / "cases"
    lines = (path.read_bytes().split(b"\n") for path in sorted(folder.glob("**/*")) if path.suffix in (".basic", ".adaptive"))
    tables = {bytes.fromhex(line[1].decode()) for line in lines if line[0].startswith(b"ok ")}
    if not tables:
        sys.exit(f"tables.py: no tables in {folder.name}/")
    return sorted(tables)


def broken(rng):
    """Each condition of No. 19 broken alone, and its nearest right neighbour."""

    def made(modules=3, events=3, count=5):
        return Table(rng, modules, events, count)

    for layout in range(16):
        table = made()
        table.layout = layout
        yield table
    for count in (0, 1, 8, 9, 10, 15):
        yield made(modules=count)
        yield made(events=count)
    for count in (1, 2, 511, 512, 513, 1024):
        yield made(modules=2, events=1, count=count)
    for name in range(24, 32):
        for part in ("modules", "events"):
            table = made()
            getattr(table, part)[-1] = name
            yield table
    for part in ("modules", "events"):
        for at in (0, 1):
            table = made()
            names = getattr(table, part)
            names[at + 1] = names[at]
            yield table
            table = made()
            names = getattr(table, part)
            names[at], names[at + 1] = names[at + 1], names[at]
            yield table
    for entry in each_entry(made()):
        yield from entry(made())
    for at in range(3):
        table = made()
        table.start[at] = 1 - table.start[at]
        yield table
    for count in range(1, 9):
        table = made(modules=1, events=count, count=3)
        for bit in range(-(24 + 6 * (count + 1) + 3 * (count + 1) * 12) % 8):
            table.padding = 1 << bit
            yield table


def each_entry(shape):
    """For each place of a shape, what breaks the entry there: next state, zeros, event bit."""
    modules = len(shape.modules)
    for state in range(len(shape.rows)):
        for letter in range(modules + len(shape.events)):

            def breaks(table, state=state, letter=letter):
                row = table.rows[state]
                for following in (len(table.rows) - 1, len(table.rows), 511):
                    row[letter] = (1, following, [1] * modules)
                    table.start = [entry[0] for entry in table.rows[0][:modules]]
                    yield table
                for entry in [(0, 0, [0] * modules), (0, 1, [0] * modules)] + [
                    (0, 0, [order * (k == m) for k in range(modules)]) for m in range(modules) for order in (1, 2, 3)
                ]:
                    row[letter] = entry
                    table.start = [entry[0] for entry in table.rows[0][:modules]]
                    yield table

            yield breaks


def frames():
    rng = random.Random(19)
    yield from first()
    for table in cases():
        yield from damaged(rng, table, 40 if len(table) <= 2048 else 8)
    for _ in range(60):
        shape = rng.randrange(9), rng.randrange(9), rng.choice((1, 2, 3, 7, 40, 90))
        yield from damaged(rng, Table(rng, *shape).written(), 30)
    yield from damaged(rng, Table(rng, 8, 8, 512).written(), 40)
    for table in broken(rng):
        written = table.written()
        yield start(written)
        yield any_call(rng, written, written)


def main():
    count = 0
    out = sys.stdout.buffer
    for kind, state, letter, table in frames():
        head = bytes([kind, state // 256, state % 256, letter, len(table) // 256, len(table) % 256])
        out.write(head + table)
        count += 1
    print(f"{count} frames", file=sys.stderr)


if __name__ == "__main__":
    main()
