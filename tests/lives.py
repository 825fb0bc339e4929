#!/usr/bin/env python3
"""Writes a stream of live calls to standard output. The argument is the second program, which walks to the states.

The start of each file of tests/cases; states along walks of those that run live, each with letters of the program and one more;
many of these states with every single bit changed; bytes made up of right units, and of anything; words at the border of the
weight; and live states that have not 128 bytes. A frame is a byte, 0 for start and 1 for step, the letter, a byte for the live
state's length, two length bytes, high first, and the file, then the live state. Both programs answer the same stream, so that
their answers can be compared line by line. The number of frames goes to standard error.
"""
import pathlib
import random
import subprocess
import sys

sys.dont_write_bytecode = True
sys.path.insert(0, str(pathlib.Path(__file__).resolve().parent))
from walks import files, frame, letters

ZEROS = bytes(128)
ROUNDS = 12
FLIPPED = 170
MADE = 60


def call(kind, letter, file, live):
    return bytes([kind, letter, len(live)]) + frame(file) + live


def answered(twin, frames):
    """The live state after each call."""
    done = subprocess.run([twin, "stream", "lives"], input=b"".join(frames), stdout=subprocess.PIPE, check=True)
    return [bytes.fromhex(line.split()[-1]) for line in done.stdout.decode().splitlines()]


def walked(rng, twin, running):
    """For each file the different states along a walk, the start first."""
    lives = answered(twin, [call(0, 0, file, ZEROS) for file in running])
    seen = [[live] for live in lives]
    for _ in range(ROUNDS):
        taken = [rng.choice(letters(file) or [0]) for file in running]
        lives = answered(twin, [call(1, *one) for one in zip(taken, running, lives)])
        for states, live in zip(seen, lives):
            if live not in states:
                states.append(live)
    return seen


def flips(live):
    for bit in range(8 * len(live)):
        changed = bytearray(live)
        changed[bit // 8] ^= 1 << bit % 8
        yield bytes(changed)


def units(live):
    """The units of a word."""
    return [live[i] + 256 * (live[96 + i // 4] >> 2 * (3 - i % 4) & 3) for i in range(live[120])]


def live_of(word):
    """The bytes of a word, with nothing stored and nothing stopped."""
    live = bytearray(128)
    for i, unit in enumerate(word):
        live[i] = unit % 256
        live[96 + i // 4] |= unit // 256 % 4 << 2 * (3 - i % 4)
    live[120] = len(word)
    return live


def heavy():
    """A file whose interruption, node 21, weighs 39, and words of all weights from there on: 96 is the most, where a is No. 21."""
    file = b"standard E\nprogram 1/E:[" + b"||".join([b"1"] * 20) + b"].\n"
    for more in range(96):
        for letter in b"Ea":
            yield call(1, letter, file, bytes(live_of([0] * more + [576 + 21])))


def made(rng, known):
    """A word of units that the file's states have, or others like them, as bytes."""
    word, open_parts = [], 1
    while open_parts and len(word) < 96:
        unit = rng.choice(known) + (rng.randrange(20) == 0)
        if open_parts > 8 and (unit < 576 or unit == 769):
            unit = 768
        word.append(unit)
        open_parts += 1 if unit == 769 else 0 if unit < 576 else -1
    live = live_of(word)
    if rng.randrange(2):
        live[121] = rng.randrange(256) & rng.randrange(256)
        live[122] = rng.randrange(10) * 16 + rng.randrange(10)
    return bytes(live)


def calls(rng, twin):
    """All of them, in a fixed order."""
    listed = list(files())
    for file, _ in listed:
        yield call(0, 0, file, ZEROS)
        yield call(1, 97, file, ZEROS)
    yield from heavy()
    running = [file for file, runs in listed if runs]
    seen = walked(rng, twin, running)
    for file, states in zip(running, seen):
        own = letters(file) or [0]
        for live in states:
            for letter in own + [rng.randrange(256)]:
                yield call(1, letter, file, live)
        known = [unit for live in states for unit in units(live)] + [768, 769]
        for _ in range(MADE):
            yield call(1, rng.choice(own), file, made(rng, known))
        yield call(1, own[0], file, rng.randbytes(128))
        for length in (0, 1, 127, 129, 255):
            yield call(rng.randrange(2), own[0], file, bytes(length))
    for k in rng.sample(range(len(running)), min(FLIPPED, len(running))):
        own = letters(running[k]) or [0]
        for live in flips(rng.choice(seen[k])):
            yield call(1, rng.choice(own), running[k], live)


def main():
    if len(sys.argv) != 2:
        sys.exit("usage: lives.py TWIN")
    count = 0
    for one in calls(random.Random(128), sys.argv[1]):
        sys.stdout.buffer.write(one)
        count += 1
    print(f"{count} frames", file=sys.stderr)


if __name__ == "__main__":
    main()
