#!/usr/bin/env python3
"""Writes a stream of random configuration files to standard output.

Programs over the grammar of document 01, from one item to 96 tokens: most keep every limit, some are a token, a bracket, a
star or a name over it, and a family of chains side by side has states by the hundred, about 512 of them too. A fixed seed makes
them, so that the stream is always the same: frames of two length bytes, high first, and as many bytes. Both programs answer
it, so that their answers can be compared line by line. The number of frames goes to standard error.

Nothing here reads a program or works out an answer: what a file is worth only the two programs say.
"""
import random
import sys
from dataclasses import dataclass, replace

MODULES = "abcdefghijklmnopqrstuvwxyz"
EVENTS = MODULES.upper()
TOKENS = 96


@dataclass(frozen=True)
class Taste:
    """What a program is made of, and how often: chances of 0 to 1."""

    modules: str  # the names it may use
    standard: str
    fugitive: str
    depth: int = 5  # brackets and braces left to open
    stars: int = 3  # stars left to nest
    group: float = 0.4  # a bracket where a module could stand
    sides: float = 0.5  # `||` inside the bracket
    star: float = 0.2
    slash: float = 0.4
    treat: float = 0.6  # a treatment behind an event
    braces: float = 0.4  # braces instead of one event
    bars: float = 0.4  # `||` between them
    one: float = 0.1  # `1` instead of a module
    shared: str = ""  # `modules` or `events` that the two sides of a `||` may share


def deal(rng, taste, count):
    """The taste of each side of a `||`: modules and standard events are dealt out, fugitive ones stand in all."""
    modules = dealt(rng, taste.modules, count, taste.shared == "modules")
    standard = dealt(rng, taste.standard, count, taste.shared == "events")
    return [replace(taste, modules=m, standard=s) for m, s in zip(modules, standard)]


def dealt(rng, names, count, shared):
    """So many hands, one name after the other to each in turn; or all names to all."""
    mixed = "".join(rng.sample(names, len(names)))
    return [mixed if shared else mixed[k::count] for k in range(count)]


def divide(rng, budget, count):
    """Tokens for each of so many parts, at least one for each."""
    cuts = sorted(rng.sample(range(1, budget), count - 1))
    return [end - start for start, end in zip([0] + cuts, cuts + [budget])]


def sequence(rng, taste, budget):
    """One or more items, of so many tokens at most."""
    tokens = []
    while budget > 0:
        part = budget if rng.random() < 0.3 else rng.randint(1, budget)
        tokens += item(rng, taste, part)
        budget -= part
    return tokens


def item(rng, taste, budget):
    heads = taste.standard + taste.fugitive
    if budget < 3 or not heads or rng.random() >= taste.slash:
        return starred(rng, taste, budget)
    left = rng.randint(1, budget - 2)
    return starred(rng, taste, left) + ["/"] + interruption(rng, taste, budget - 1 - left)


def starred(rng, taste, budget):
    if budget > 1 and taste.stars and rng.random() < taste.star:
        return atom(rng, replace(taste, stars=taste.stars - 1), budget - 1) + ["*"]
    return atom(rng, taste, budget)


def atom(rng, taste, budget):
    if budget > 2 and taste.depth and rng.random() < max(taste.group, 0.9 * (budget > 8)):
        return ["["] + body(rng, replace(taste, depth=taste.depth - 1), budget - 2) + ["]"]
    if not taste.modules or rng.random() < taste.one:
        return ["1"]
    return [rng.choice(taste.modules)]


def body(rng, taste, budget):
    if budget < 3 or rng.random() >= taste.sides:
        return sequence(rng, taste, budget)
    count = rng.randint(2, min(4, (budget + 1) // 2, max(2, len(taste.modules))))
    hands = deal(rng, taste, count)
    parts = [sequence(rng, hand, size) for hand, size in zip(hands, divide(rng, budget - count + 1, count))]
    return joined(parts, "||")


def joined(parts, mark):
    tokens = list(parts[0])
    for part in parts[1:]:
        tokens += [mark] + part
    return tokens


def interruption(rng, taste, budget):
    if budget > 4 and taste.depth and rng.random() < taste.braces:
        return braces(rng, replace(taste, depth=taste.depth - 1), budget)
    head = [rng.choice(taste.standard + taste.fugitive)]
    if budget > 2 and rng.random() < taste.treat:
        return head + [":"] + item(rng, taste, budget - 2)
    return head


def braces(rng, taste, budget):
    """Two or more interruptions, each side of `||` with its own names; `|` where the names do not reach."""
    count = rng.randint(2, min(4, (budget - 1) // 2))
    mark, hands = "|", [taste] * count
    if rng.random() < taste.bars:
        dealt = deal(rng, taste, count)
        if all(hand.standard + hand.fugitive for hand in dealt):
            mark, hands = "||", dealt
    sizes = divide(rng, budget - 1 - count, count)
    parts = [interruption(rng, hand, size) for hand, size in zip(hands, sizes)]
    return ["{"] + joined(parts, mark) + ["}"]


def random_taste(rng):
    """Every habit at random; few standard events more often than many, since each order in which they are stored is a state."""
    own = "".join(rng.sample(MODULES, rng.choice([0, 1, 2, 3, 4, 5, 6, 7, 8])))
    heads = "".join(rng.sample(EVENTS, rng.choice([0, 1, 2, 2, 3, 4, 5, 8])))
    cut = rng.choice([0, 0, len(heads), rng.randint(0, len(heads))])

    def chance():
        return rng.choice([0.1, 0.3, 0.5, 0.7])

    habits = {name: chance() for name in ("group", "sides", "slash", "treat", "braces", "bars")}
    habits |= {"depth": rng.choice([2, 4, 8, 16]), "stars": rng.randint(0, 3), "star": chance() / 2, "one": chance() / 4}
    return Taste(own, heads[cut:], heads[:cut], **habits)


def any_program(rng):
    """Any program of the grammar; a quarter of them small."""
    taste = random_taste(rng)
    budget = rng.choice([rng.randint(1, 8), rng.randint(8, 24), rng.randint(24, 60), rng.randint(60, TOKENS - 1)])
    return sequence(rng, taste, budget), taste


def chains(rng):
    """Chains side by side, each with its own modules: as many states as the product of their lengths, and more by events."""
    count = rng.randint(2, 5)
    own = rng.sample(MODULES, rng.randint(count, 8))
    heads = "".join(rng.sample(EVENTS, rng.choice([0, 1, 1, 2, 2, 3])))
    cut = rng.randint(0, len(heads))
    fugitive, standard = heads[:cut], heads[cut:]
    parts = []
    for k in range(count):
        mine = own[k::count]
        tokens = [rng.choice(mine) for _ in range(rng.randint(1, 6))]
        if rng.random() < 0.3:
            tokens = ["["] + tokens + ["]", "*"]
        if fugitive and rng.random() < 0.6:
            tokens = ["["] + tokens + ["]", "/", rng.choice(fugitive), ":", rng.choice(mine)]
        parts.append(tokens)
    tokens = ["["] + joined(parts, "||") + ["]"]
    if standard:
        tokens += ["/", standard[0]] + [":", rng.choice(own)] * rng.randint(0, 1)
        for name in standard[1:]:
            tokens = tokens + ["1", "/", name]
    return tokens, Taste("", standard, fugitive)


def long(rng):
    """96 or 97 tokens, the last one `.`."""
    tokens, taste = any_program(rng)
    room = TOKENS - rng.randint(0, 1) - len(tokens)
    return tokens + [rng.choice(taste.modules or "1") for _ in range(room)], taste


def deep(rng):
    """16 or 17 brackets inside each other, around a program that may have some itself."""
    taste = random_taste(rng)
    inside = rng.choice([["a"], ["a", "b"], sequence(rng, taste, rng.randint(1, 20))])
    count = rng.randint(16, 17)
    return ["["] * count + inside + ["]"] * count, taste


def starry(rng):
    """Three or four stars inside each other, around a program that may have some itself."""
    tokens, taste = any_program(rng)
    if rng.randrange(2):
        tokens = [token for token in tokens if token != "*"]
    for _ in range(rng.randint(3, 4)):
        tokens = ["["] + tokens + ["]", "*"]
    return tokens, taste


def crowded(rng):
    """Eight or nine modules, and eight or nine events."""
    own = rng.sample(MODULES, rng.randint(8, 9))
    heads = rng.sample(EVENTS, rng.randint(8, 9))
    fugitive = heads[rng.randint(0, 2) :]
    tokens = joined([[name] for name in own], "||") if rng.randrange(3) == 0 else own
    return ["["] + tokens + ["]", "/", "{"] + joined([[head] for head in heads], "|") + ["}"], Taste("", "", "".join(fugitive))


def shared(rng):
    """Modules, or standard events, that may stand on both sides of a `||`."""
    which = rng.choice(["modules", "events"])
    taste = replace(random_taste(rng), modules="abcdefgh"[: rng.randint(1, 8)], standard="EF", shared=which, sides=0.7, slash=0.6)
    return sequence(rng, taste, rng.randint(5, 40)), taste


def slip(rng):
    """A token dropped, doubled or changed."""
    tokens, taste = any_program(rng)
    at = rng.randrange(len(tokens))
    other = rng.choice(["a", "E", "1", "*", "/", ":", "[", "]", "{", "}", "|", "||", "."])
    return tokens[:at] + rng.choice([[], [tokens[at]] * 2, [other]]) + tokens[at + 1 :], taste


# how many programs of each kind
COUNTS = {any_program: 3000, chains: 1500, long: 150, deep: 150, starry: 150, crowded: 150, shared: 300, slip: 300}


def file(rng, tokens, taste):
    """The lines in any order; the events listed are those used, and now and then one more or one fewer."""
    lines = ["program " + "".join(tokens) + ".\n"]
    used = [name for name in EVENTS if name in tokens]
    if rng.random() < 0.02:
        used = used[1:] if rng.randrange(2) else used + [rng.choice([e for e in EVENTS if e not in used])]
    rng.shuffle(used)
    for key, listed in (
        ("standard", [name for name in used if name not in taste.fugitive]),
        ("fugitive", [name for name in used if name in taste.fugitive]),
    ):
        if listed:
            lines.append(f"{key} {''.join(listed)}\n")
    rng.shuffle(lines)
    return "".join(lines).encode()


def files(rng):
    for make, count in COUNTS.items():
        for _ in range(count):
            yield file(rng, *make(rng))


def main():
    count = 0
    out = sys.stdout.buffer
    for data in files(random.Random(96)):
        out.write(bytes([len(data) // 256, len(data) % 256]) + data)
        count += 1
    print(f"{count} frames", file=sys.stderr)


if __name__ == "__main__":
    main()
