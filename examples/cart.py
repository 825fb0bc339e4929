#!/usr/bin/env python3
"""Cart dispatch from Python, by ctypes: the library as a shared object, made from libcart.a by a linker alone.

    ld -shared --whole-archive crates/cart/out/libcart.a -o libcart.so
    cart.py libcart.so FILE [LETTERS]

As a module: `Cart(path)` has `compile`, `table_start`, `table_step`, `live_start` and `live_step`; a refusal is raised as `Refused`. As a command it
prints what examples/dispatch.c prints.
"""
import ctypes
import pathlib
import sys

OUTPUT, WORK, LIVE, NAMES = 26640, 65536, 128, 8
MARKS = {1: "+", 2: "~", 3: "-"}
SIZE, BYTES, LETTER = ctypes.c_size_t, ctypes.c_void_p, ctypes.c_uint8


class Refused(Exception):
    """A refusal: its number, and the byte of the file that it is about, counted from 0."""

    def __init__(self, number, place):
        super().__init__(f"refused {number} at {place}")
        self.number, self.place = number, place


class Compiled(ctypes.Structure):
    _fields_ = [("number", SIZE), ("place", SIZE), ("states", SIZE), ("size", SIZE)]


class Stepped(ctypes.Structure):
    _fields_ = [("number", SIZE), ("place", SIZE), ("state", SIZE), ("orders", LETTER * NAMES)]


class Lived(ctypes.Structure):
    _fields_ = [("number", SIZE), ("place", SIZE), ("orders", LETTER * NAMES)]


def taken(answer):
    if answer.number:
        raise Refused(answer.number, answer.place)
    return answer


class Cart:
    """The six calls of a shared object. A file, a table and a live state are bytes; a letter is a byte, as `b"E"[0]`."""

    def __init__(self, path):
        self.library = ctypes.CDLL(str(path))
        self.declare("cart_compile_basic", Compiled, 3)
        self.declare("cart_compile_adaptive", Compiled, 3)
        self.declare("cart_table_start", Stepped, 1)
        self.declare("cart_table_step", Stepped, 1, SIZE, LETTER)
        self.declare("cart_live_start", Lived, 2)
        self.declare("cart_live_step", Lived, 2, LETTER)

    def declare(self, name, answer, slices, *more):
        call = getattr(self.library, name)
        call.restype, call.argtypes = answer, [BYTES, SIZE] * slices + list(more)

    def compile(self, file, basic=False):
        """The number of states and the table."""
        output, work = ctypes.create_string_buffer(OUTPUT), ctypes.create_string_buffer(WORK)
        call = self.library.cart_compile_basic if basic else self.library.cart_compile_adaptive
        made = taken(call(file, len(file), output, OUTPUT, work, WORK))
        return made.states, output.raw[: made.size]

    def table_start(self, table):
        """The state, 0, and one order for each module, zeros up to eight."""
        answer = taken(self.library.cart_table_start(table, len(table)))
        return answer.state, bytes(answer.orders)

    def table_step(self, table, state, letter):
        """The next state, and one order for each module, zeros up to eight."""
        answer = taken(self.library.cart_table_step(table, len(table), state, letter))
        return answer.state, bytes(answer.orders)

    def live_start(self, file):
        """The live state, and one order for each module, zeros up to eight."""
        live = ctypes.create_string_buffer(LIVE)
        answer = taken(self.library.cart_live_start(file, len(file), live, LIVE))
        return live.raw, bytes(answer.orders)

    def live_step(self, file, live, letter):
        """The next live state, and one order for each module, zeros up to eight."""
        after = ctypes.create_string_buffer(bytes(live), len(live))
        answer = taken(self.library.cart_live_step(file, len(file), after, len(live), letter))
        return after.raw, bytes(answer.orders)


def modules(file):
    """The modules of an accepted file, ascending."""
    values = b"".join(line.partition(b" ")[2] for line in file.split(b"\n"))
    return sorted({chr(byte) for byte in values if 97 <= byte <= 122})


def tried(step, given, state, letter):
    """The state after a step, its orders and 0; on refusal the state before, no orders and the number."""
    try:
        return (*step(given, state, letter), 0)
    except Refused as refused:
        return state, bytes(NAMES), refused.number


def shown(names, answers):
    """The answers of the live engine and of the table, if there is one, as a line: they are the same but for the state."""
    if len({answer[1:] for answer in answers}) != 1:
        print("DIFFERENT:", answers)
        sys.exit(3)
    state, orders, number = answers[-1]
    if number:
        return f"refused {number}"
    marks = "".join(f" {MARKS[order]}{name}" for name, order in zip(names, orders) if order)
    return ("live" if len(answers) == 1 else f"state {state}") + marks


def side_by_side(cart, file, table, letters):
    """A line for the start and for each letter."""
    names = modules(file)
    runs = [(cart.live_step, file)]
    answers = [(*cart.live_start(file), 0)]
    if table:
        runs.append((cart.table_step, table))
        answers.append((*cart.table_start(table), 0))
    print("start:", shown(names, answers))
    for letter in letters:
        answers = [tried(step, given, answer[0], letter) for (step, given), answer in zip(runs, answers)]
        print(f"{chr(letter)}:", shown(names, answers))


def main():
    if len(sys.argv) not in (3, 4):
        sys.exit("usage: cart.py LIBRARY FILE [LETTERS]")
    cart, file = Cart(sys.argv[1]), pathlib.Path(sys.argv[2]).read_bytes()
    table = None
    try:
        states, table = cart.compile(file)
        print(f"ok {states} {len(table)}")
    except Refused as refused:
        print(refused)
        if refused.number != 17:
            sys.exit(1)
    side_by_side(cart, file, table, sys.argv[3].encode() if len(sys.argv) == 4 else b"")


if __name__ == "__main__":
    main()
