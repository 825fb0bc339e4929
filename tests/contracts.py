#!/usr/bin/env python3
"""Every public function of the crates, with the definitions that its contract cites.

    tests/contracts.py           writes the list
    tests/contracts.py check     compares it with docs/CONTRACTS.md

A public function without an `ensures` is a failure either way: nothing says what it answers.
"""

import re
import sys
from pathlib import Path

TOP = Path(__file__).resolve().parent.parent
PAGE = TOP / "docs" / "CONTRACTS.md"
HEAD = """# Contracts

Every public function, and the definitions that its contract cites, as `crate` `File.name`; `kit` is a library of the kit. A function with `asks` has a
`requires`, which its callers show; the six public calls, in `compiler`, `table`, `engine` and for hosts in `cart`, ask for nothing. Written by
`tests/contracts.py`; the gate fails where a public function is missing here, has no contract, or cites something else.

| Crate | Function | Asks | Its answer, by |
|---|---|---|---|
"""

CRATES = [line.split(":")[0].split()[0] for line in (TOP / "crates.txt").read_text().splitlines() if line.strip() and not line.startswith("#")]

# A function's head ends where its body begins, or where that ends if the head has no contract.
FUNCTION = re.compile(r'^( *)pub (?:extern "C" )?fn (\w+)(.*?)^\1[{}]', re.M | re.S)
CLAUSE = re.compile(r"^ +(requires|ensures)\b[^{\n]*\{", re.M)
# A method belongs to the type of the last `impl` above it.
IMPL = re.compile(r"^impl(?:<[^>]*>)? (?:\w+(?:<[^>]*>)? for )?(\w+)", re.M)
IMPORT = re.compile(r"^ghost use ([^;{]*?)(?:\.\{(.*?)\}| as (\S+));", re.M | re.S)
PARAMETER = re.compile(r"[(,]\s*(?:mut )?(\w+): ")
NAME = re.compile(r"(?<![\w.])[A-Za-zα-ωΑ-Ω][\w'₀-₉-]*(?:\.[A-Za-z][\w-]*)?")


def clauses_of(head):
    """The clauses of a function's head, each with its kind: from its brace to the one that closes it."""
    found = []
    for begun in CLAUSE.finditer(head):
        end, depth = begun.end(), 1
        while depth:
            depth += {"{": 1, "}": -1}.get(head[end], 0)
            end += 1
        found.append((begun.group(1), head[begun.end() : end - 1]))
    return found


def imports(text):
    """The names that a file brings in, each with where it is from: (crate, `File.name`)."""
    found = {}
    for path, names, alias in IMPORT.findall(text):
        parts = path.split(".")
        crate = parts[1] if parts[0] == "Rattle" and parts[1] in CRATES else "kit"
        if alias:
            found[alias] = (crate, parts[-1], None)
        for name in re.split(r"\s*,\s*", names.strip()) if names else []:
            old, _, new = name.partition(" as ")
            found[new or old] = (crate, parts[-1], old)
    return found


def cited(clause, known):
    """The definitions that a clause cites, of the crates first, each once."""
    seen = []
    for name in NAME.findall(clause):
        front, _, rest = name.partition(".")
        crate, file, meant = known.get(name) or known.get(front) or (None, None, None)
        if crate is None or (meant is None and not rest):
            continue
        one = (crate, f"{file}.{meant or rest}")
        if one not in seen:
            seen.append(one)
    own = [one for one in seen if one[0] != "kit"]
    return own or seen


def rows():
    """One row for each public function, and what is wrong."""
    lines, wrong = [], []
    for crate in CRATES:
        for file in sorted((TOP / "crates" / crate / "src").glob("*.rt")):
            text = file.read_text()
            known = imports(text)
            for found in FUNCTION.finditer(text):
                indent, name, body = found.groups()
                if indent:
                    name = f"{IMPL.findall(text[: found.start()])[-1]}::{name}"
                clauses = clauses_of(body)
                answer = " ".join(c for kind, c in clauses if kind == "ensures")
                # a parameter's name hides what is brought in under it
                hidden = PARAMETER.findall(re.split(r"^ +(?:requires|ensures)\b", body, maxsplit=1, flags=re.M)[0])
                names = cited(answer, {name: place for name, place in known.items() if name not in hidden})
                if not answer:
                    wrong.append(f"{crate}::{name} has no `ensures`")
                asks = "asks" if any(kind == "requires" for kind, _ in clauses) else ""
                by = ", ".join(f"{c} `{n}`" for c, n in names) or "its arguments alone"
                lines.append(f"| `{crate}` | `{name}` | {asks} | {by} |")
    return lines, wrong


def main():
    lines, wrong = rows()
    page = HEAD + "\n".join(lines) + "\n"
    if sys.argv[1:] == ["check"]:
        if not PAGE.exists() or PAGE.read_text() != page:
            wrong.append("docs/CONTRACTS.md is not what tests/contracts.py writes")
        for one in wrong:
            print(f"contracts: {one}")
        print(f"{len(lines)} passed, {len(wrong)} failed")
    else:
        sys.stdout.write(page)
        for one in wrong:
            print(f"contracts: {one}", file=sys.stderr)
    return 1 if wrong else 0


if __name__ == "__main__":
    sys.exit(main())
