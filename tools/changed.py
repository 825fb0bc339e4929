#!/usr/bin/env python3
"""What changed since a commit in what the crates promise: each public function and each definition of specs/, old and new one above the other.

    tools/changed.py COMMIT [COMMIT]         from the first to the second, or to the work tree
"""

import re
import subprocess
import sys
from pathlib import Path

TOP = Path(__file__).resolve().parent.parent
FUNCTION = re.compile(r'^( *)pub (?:extern "C" )?fn (\w+)(.*?)^\1[{}]', re.M | re.S)
IMPL = re.compile(r"^impl(?:<[^>]*>)? (?:[\w<>', ]+ for )?(\w+)", re.M)
DEFINED = re.compile(r"^ *(?:unfoldable |abbrev |pattern )*pub (?:record |data |abbrev |unfoldable )*([^\s:(]+)")


def files(commit):
    """The sources and specs of a commit, or of the work tree."""
    wanted = re.compile(r"crates/\w+/(src/.*\.rt|specs/.*\.antt)")
    if commit is None:
        found = [*TOP.glob("crates/*/src/**/*.rt"), *TOP.glob("crates/*/specs/**/*.antt")]
        return {str(p.relative_to(TOP)): p.read_text() for p in found}
    run = lambda *words: subprocess.run(["git", *words], cwd=TOP, capture_output=True, text=True, check=True).stdout
    return {name: run("show", f"{commit}:{name}") for name in run("ls-tree", "-r", "--name-only", commit, "crates/").split() if wanted.fullmatch(name)}


def functions(name, text):
    """Each public function with its signature and clauses, in one spelling."""
    crate = name.split("/")[1]
    for found in FUNCTION.finditer(text):
        indent, function, rest = found.groups()
        if indent:
            function = f"{IMPL.findall(text[: found.start()])[-1]}::{function}"
        lines = [re.sub(r"\s+", " ", part).strip() for part in re.split(r"\n\s*(?=requires|ensures)", rest)]
        yield f"{crate} {function}", "\n".join([function + lines[0], *lines[1:]])


def definitions(name, text):
    """Each definition of a file of specs/, with all that stands under its name."""
    crate, file = name.split("/")[1], Path(name).stem
    current, body = None, []
    for line in [*text.splitlines(), "pub end:"]:
        found = DEFINED.match(line)
        starts = found and not line.startswith("  ")
        if (starts or not line.strip() or line.startswith("--")) and current:
            yield f"{crate} {file}.{current}", "\n".join(body).rstrip()
            current, body = None, []
        if starts:
            current = found.group(1)
        if current:
            body.append(line)


def gather(commit):
    found = {"functions": {}, "definitions": {}}
    for name, text in sorted(files(commit).items()):
        kind, read = ("functions", functions) if name.endswith(".rt") else ("definitions", definitions)
        if kind == "definitions" and Path(name).stem == "Lib":
            continue
        for key, value in read(name, text):
            found[kind][key] = value
    return found


def main(arguments):
    old, new = gather(arguments[0]), gather(arguments[1] if arguments[1:] else None)
    for kind in ("functions", "definitions"):
        print(f"\n### {'Public functions' if kind == 'functions' else 'Definitions of specs/'}\n\n```")
        for key in sorted({*old[kind], *new[kind]}):
            before, after = old[kind].get(key), new[kind].get(key)
            if before == after:
                continue
            print(key)
            for sign, value in (("-", before), ("+", after)):
                print("\n".join(f"  {sign} {line}" for line in value.splitlines()) if value else f"  {sign} (none)")
        print("```")


main(sys.argv[1:])
