#!/usr/bin/env python3
"""The places that docs/DESIGN-PASS.md counts: what in src/ reads like the older language, point by point.

    tools/places.py [COMMIT]         the counts, at a commit or in the work tree
    tools/places.py -l POINT [COMMIT]        the places of one point
"""

import re
import subprocess
import sys
from pathlib import Path

TOP = Path(__file__).resolve().parent.parent


def sources(commit):
    """Each file of src/ with its lines."""
    if commit:
        names = subprocess.run(["git", "ls-tree", "-r", "--name-only", commit, "crates/"], cwd=TOP, capture_output=True, text=True, check=True).stdout.split()
        names = [n for n in names if re.fullmatch(r"crates/\w+/src/.*\.rt", n)]
        return {n: subprocess.run(["git", "show", f"{commit}:{n}"], cwd=TOP, capture_output=True, text=True, check=True).stdout.splitlines() for n in names}
    return {str(p.relative_to(TOP)): p.read_text().splitlines() for p in sorted(TOP.glob("crates/*/src/**/*.rt"))}


# Point, what is counted, and the expression that finds a line of it.
LINES = [
    ("1", "own enums (each is then read: is it an Option or a Result?)", r"^(pub )?enum "),
    ("1", "flags with a value beside them", r"^ +pub (there|found|over|large): bool"),
    ("1", "numbers for refusals", r"\bnumber: (usize|u8)\b|refus(e|al)\([0-9]+|\bnumber: [0-9]+,|then\([^,]+, [0-9]+,"),
    ("1", "numbers for kinds of nodes and bytes", r"kind (==|!=|<=) [0-9]|\.kind (==|!=|<=)|[0-9] < n\.kind|^        ([0-9]+ \| )*[0-9]+ (=>|if)|^const KINDS: \[u8"),
    ("1", "numbers for units", r"\b(192|384|576|768|769|770)\b", "words rewrite parts react walk"),
    ("1", "flags for a choice of two", r"\b(basic|both|marked): bool"),
    ("3", "loops by `while`", r"^ *while "),
    ("4", "equality, order, copying and conversion by hand",
     r"^ *(pub )?fn (wide|wider|one_byte|two_bytes|same|copy|copy_out|clear|larger|greater|room|flag|is|byte_at|byte_or_zero|below|bit|digit|hex_digit|at|read_part|read_size|print_text|print_part|is_event|is_leaf|is_opening|is_closing)\b"),
    ("5", "clauses `memory.count ≤ 8` and the like", r"requires.*(memory\.count (≤|<)|length (w|tmp)(\.old|\.now)? ≡ 96|n ≤ 192\) × \(n ≤ length code|length live\.(old|now) ≡ 128|base ≤ 97)"),
    ("6", "buffers with a length beside them, parallel arrays", r"\b(letters|events): \[(u8|usize); 8\]|\b(code|left|place): &(mut )?\[|\bnodes: &(mut )?\[u8|\bweights: &(mut )?\[u8|\bline: &mut \[u8; "),
    ("7", "switches on which call to make", r"if kind == 0|if marked \{|if basic \{|fn (print_basic|print_adaptive)"),
]


def functions(lines):
    """Each function's line, name and number of parameters."""
    text = "\n".join(lines)
    for m in re.finditer(r"^ *(?:pub )?(?:extern \"C\" )?fn (\w+)(?:<[^(]*>)?\(([^)]*)\)", text, re.M):
        parameters = [p for p in m.group(2).split(",") if ":" in p]
        yield text.count("\n", 0, m.start()) + 1, m.group(1), len(parameters)


def places(commit):
    files = sources(commit)
    found = {}
    for point, what, expression, *only in LINES:
        key = (point, what)
        found[key] = []
        for name, lines in files.items():
            if only and name.split("/")[1] not in only[0].split():
                continue
            found[key] += [f"{name}:{i}: {line.strip()}" for i, line in enumerate(lines, 1) if re.search(expression, line) and not line.strip().startswith("//")]
    many, names = [], {}
    for name, lines in files.items():
        for at, function, count in functions(lines):
            if count > 6:
                many.append(f"{name}:{at}: {function} has {count} parameters")
            names.setdefault(function, []).append(f"{name}:{at}: {function}")
    found[("2", "functions whose name stands in two crates or more, but `main`")] = [p for n, ps in sorted(names.items()) if len(ps) > 1 and n != "main" for p in ps]
    found[("5", "functions of more than six parameters")] = many
    return found


def main(arguments):
    point = None
    if arguments[:1] == ["-l"]:
        point, arguments = arguments[1], arguments[2:]
    found = places(arguments[0] if arguments else None)
    for (number, what), lines in sorted(found.items()):
        if point and number != point:
            continue
        print(f"{number}  {len(lines):4}  {what}")
        if point:
            print("\n".join("         " + line for line in lines))


main(sys.argv[1:])
