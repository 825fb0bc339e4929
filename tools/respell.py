#!/usr/bin/env python3
"""Brings the repository's own words to today's spelling: snake case for definitions, lemmas, constructors and fields.

usage: python3 tools/respell.py [--list]      at the top of a repository that port.py has just turned (docs/PORT.md)

- A word with a capital inside (`lineEnd`, `eqL-sound`) becomes snake case, part by part: `line_end`, `eq_l-sound`.
- A definition, a constructor or a field with a dash (`in-front`, `state-is`) takes an underscore. Lemmas keep the dash that joins two names.
- In must-fail edits the words that port.py respelled are respelled too; what is left of them is brought over by hand.
Words of the library, Rust's own names and texts in quotes stay. It writes nothing where two words would fall together.
"""
import collections
import difflib
import os
import re
import subprocess
import sys

WORD = re.compile(r"[A-Za-z_\u03bb][A-Za-z0-9_'\-\u2080-\u2089\u2115\u2237\u2261\u2264]*")
CAMEL = re.compile(r"^[a-z][a-z0-9_']*[A-Z]")
QUOTED = r'("(?:[^"\\\n]|\\.)*"|b\'[^\']\')'
LANDED = "96f585f100ffb5f6fbae52e4b907963ceaef234a"
# Words that would fall together with another one, and what they are called instead.
OTHERWISE = {
    "rowsRight": "are_rows_right",
    "inOrder": "two_in_order",
    "inFront": "is_front",
    "listedIn": "listed_within",
    "letterAt": "letter_by_place",
    "ofStar": "under_star",
    "tooLarge": "any_too_large",
    "tooMany": "has_too_many",
    "table_step": "step_of_table",
    "drop-getD": "drop-get_or",
}
# Spellings that two words may share: a definition and the Rust function that computes it, or fields of different records.
SHARED = set(
    """a_term braces_joined code_kind entry_place few_events few_modules few_states for_edition has_tree hex_digit in_limits in_set is_bars is_closing is_event
    is_join is_leaf is_letter is_module is_opening is_own is_table join_code letter_of letters_of names_right no_lines node_set open_after own_set read_line
    read_lines row_parts row_right row_weight run_right set_number shared_event shared_module some_states starts_right too_deep too_starred unit_parts
    value_at with_letters within_limits""".split()
)


def files(endings, folders=("src", "specs", "proofs")):
    for folder, dirs, names in os.walk("crates"):
        dirs[:] = sorted(d for d in dirs if d != "out")
        for n in sorted(names):
            p = os.path.join(folder, n)
            if n.endswith(endings) and p.split(os.sep)[2] in folders:
                yield p


def read(path):
    with open(path, encoding="utf-8") as f:
        return f.read()


def of_the_library(texts):
    """Words that a file takes from another library than this repository's."""
    own = set(os.listdir("crates"))
    found = set()
    for t in texts.values():
        for path, names in re.findall(r"\buse ([\w.'+\-]+?)\.?\{([^}]*)\}", t):
            parts = path.split(".")
            if parts[0] == "Rattle" and len(parts) > 1 and parts[1] in own:
                continue
            for n in names.split(","):
                found.update(n.split(" as ")[:1])
    return {n.strip() for n in found}


def declared(texts):
    """Definitions of specs/, and constructors and fields anywhere, with a dash."""
    found = set()
    for p, t in texts.items():
        if not p.endswith(".antt"):
            continue
        inside = False
        for l in t.split("\n"):
            if re.match(r"\s*(pub |unfoldable |mutual )*\s*(data|record) ", l) and l.rstrip().endswith("where"):
                inside = True
                depth = len(l) - len(l.lstrip())
                continue
            if l.strip() and len(l) - len(l.lstrip()) == 0:
                inside = False
                m = re.match(r"(?:(?:abbrev|unfoldable|pub)\s+)*([^\s:(){}=]+)\s+:\s", l)
                if m and p.split(os.sep)[2] == "specs" and "-" in m.group(1):
                    found.add(m.group(1))
                continue
            if inside and not l.strip().startswith("--"):
                m = re.match(r"\s+(?:pub\s+)?([^:(){}=]+?)\s+:\s", l)
                if m and len(l) - len(l.lstrip()) == depth + 2:
                    found.update(n for n in m.group(1).split() if "-" in n)
    return found


def snake(word):
    parts = word.split("-")
    return "-".join(re.sub(r"(?<=[a-z0-9'])([A-Z])", r"_\1", q).lower() if CAMEL.match(q) else q for q in parts)


def respelled(word, library, dashed):
    if word in OTHERWISE:
        return OTHERWISE[word]
    if word in library or re.search(r"_[A-Z]", word):
        return word
    new = snake(word) if CAMEL.match(word) or any(CAMEL.match(q) for q in word.split("-")) else word
    if word in dashed:
        new = new.replace("-", "_")
    return new


def turn(text, names):
    """Each word by its new name; texts in quotes stay."""

    def one(m):
        return names.get(m.group(0), m.group(0))

    pieces = re.split(QUOTED, text)
    return "".join(q if i % 2 else WORD.sub(one, q) for i, q in enumerate(pieces))


def ported_words():
    """What port.py made of each word, learnt crate by crate from LANDED's files: old word -> new word, where it is always the same."""
    votes = collections.defaultdict(collections.Counter)
    token = re.compile(r"[A-Za-z_\u00b7][\w'\-\u00b7\u2032]*|\S")
    for p in files((".rt", ".antt"), ("src", "specs")):
        r = subprocess.run(["git", "show", f"{LANDED}:{p}"], capture_output=True, text=True)
        if r.returncode:
            continue
        a, b = token.findall(r.stdout), token.findall(read(p))
        for tag, i1, i2, j1, j2 in difflib.SequenceMatcher(None, a, b, autojunk=False).get_opcodes():
            if tag == "equal":
                for w in a[i1:i2]:
                    votes[w][w] += 1
            elif tag == "replace" and i2 - i1 == j2 - j1:
                for o, n in zip(a[i1:i2], b[j1:j2]):
                    votes[o][n] += 1
    out = {}
    for o, c in votes.items():
        n, k = c.most_common(1)[0]
        if n != o and re.match(r"^[A-Za-z_]", o) and re.match(r"^[A-Za-z_]", n) and k * 10 >= sum(c.values()) * 8:
            out[o] = n
    return out


def main(argv):
    texts = {p: read(p) for p in files((".rt", ".antt"))}
    library, dashed = of_the_library(texts), declared(texts)
    words = set()
    for p, t in texts.items():
        code = re.sub(r"//.*" if p.endswith(".rt") else r"--.*", "", re.sub(QUOTED, "", t))
        words.update(WORD.findall(code))
    names = {}
    for w in sorted(words):
        n = respelled(w, library, dashed)
        if n != w:
            names[w] = n
    together = collections.defaultdict(set)
    for o, n in names.items():
        together[n].add(o)
        if n in words and n not in names:
            together[n].add(n)
    clash = {n: o for n, o in together.items() if len(o) > 1 and n not in SHARED}
    if "--list" in argv:
        for o, n in names.items():
            print(o, n)
    for n, o in sorted(clash.items()):
        print("fall together:", n, sorted(o))
    if clash or "--list" in argv:
        return 1
    before = ported_words()
    for p, t in texts.items():
        new = turn(t, names)
        if new != t:
            with open(p, "w", encoding="utf-8") as f:
                f.write(new)
    for p in files(".edit", ("must-fail",)):
        t = read(p)
        lines = []
        for l in t.split("\n"):
            if re.match(r"(old|new):", l):
                l = turn(turn(l, before), names)
                l = re.sub(r"\((\w+) \.(\w+)\)", r"\1.\2", l)
                l = re.sub(r"((?:entry_at|reaction)(?: \w+| \([^()]*\))+) \.(\w+)", r"(\1).\2", l)
                l = re.sub(r"\b(\w+) \.(\w+)", r"\1.\2", l)
            lines.append(l)
        new = "\n".join(lines)
        if new != t:
            with open(p, "w", encoding="utf-8") as f:
                f.write(new)
    print(f"respell: {len(names)} words")
    return 0


if __name__ == "__main__":
    raise SystemExit(main(sys.argv[1:]))
