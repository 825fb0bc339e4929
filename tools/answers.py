#!/usr/bin/env python3
"""Turns a proof that walks the code by hand (Proof.antt) into Invariants.antt and Answers.antt, by the names that the check lists.

usage: cd crates/NAME && rt check --generated OUT --old-names, then python3 ../../tools/answers.py OUT/names.json [FUNCTION..]

Each goal keeps its proof: the goal's name, the steps of the context, which now lie side by side, and the arguments are respelled. A goal that the check
proves by itself goes. What it cannot turn stays as it was, with a line 'left:'. Proof.antt becomes Proof.antt.old, which is not committed.
"""
import json
import os
import re
import sys

TOKEN = r"[^\s(){}\[\],.\"λ]+"
DROPPED_USES = ("Tie", "Statement", "{ statement,", "Lts", "Reads", "Kinds", "PlainCycle", "borrow.Fn")
PLAIN = {"search rules", "omega arith"}


def norm(name):
    name = name.replace("_", "-")
    return re.sub(r"^overflow-", "", name)


def declarations(text):
    """Header comment, use lines, and the declarations: (signature, lines above the equation, equations)."""
    lines = text.split("\n")
    header, uses, decls = [], [], []
    i = 0
    while i < len(lines) and lines[i].startswith("--"):
        header.append(lines[i])
        i += 1
    while i < len(lines):
        l = lines[i]
        if l.startswith("use "):
            u = l
            while u.count("{") > u.count("}"):
                i += 1
                u += " " + lines[i].strip()
            uses.append(u)
            i += 1
        elif not l.strip() or re.match(r"-- src/\S+:\d+:\d+$", l):
            i += 1
        else:
            block = [l]
            i += 1
            while i < len(lines) and lines[i].strip():
                block.append(lines[i])
                i += 1
            decls.append("\n".join(block))
    return header, uses, decls


def own_clauses(me):
    """The names of the clauses that the function requires, in their order, if it is the only function of its name."""
    found = []
    for where, _, files in os.walk("src"):
        for f in files:
            text = open(os.path.join(where, f), encoding="utf-8").read()
            for m in re.finditer(r"\bfn " + re.escape(me.split(".")[-1]) + r"\b[^{;]*?(?=requires|ensures|\{)", text):
                head = text[m.end() :].split("ensures")[0]
                found.append(re.findall(r"requires(?: (\w+))? \{", head[: head.find("\n{") if "\n{" in head else len(head)]))
    return found[0] if len(found) == 1 and all(found[0]) else []


def parts(body):
    """The parts of a tuple, or None."""
    body = body.strip()
    if not (body.startswith("(") and body.endswith(")")):
        return None
    out, depth, last = [], 0, 1
    for i, ch in enumerate(body):
        if ch in "({[":
            depth += 1
        elif ch in ")}]":
            depth -= 1
            if depth == 0 and i < len(body) - 1:
                return None
        elif ch == "," and depth == 1:
            out.append(body[last:i].strip())
            last = i + 1
    out.append(body[last:-1].strip())
    return out if len(out) > 1 else None


def as_record(body, clauses, cycle):
    """What a call asks, clause by clause: a tuple becomes a record with their names."""
    ps = parts(body)
    if cycle:
        if not ps or len(ps) != 2:
            return body
        return f"({ps[0]}, {as_record(ps[1], clauses, False)})"
    if not ps or len(ps) > len(clauses):
        return body
    while len(ps) < len(clauses):
        more = parts(ps[-1])
        if not more:
            return body
        ps[-1:] = more
    if len(ps) != len(clauses):
        return body
    return "record { " + "; ".join(f"{k} = {v}" for k, v in zip(clauses, ps)) + " }"


class Names:
    def __init__(self, data, params, me):
        self.needs = {}
        for old, new in data["needs"]:
            self.needs.setdefault(norm(old), new)
        self.steps = {}
        self.kind = {}
        for place, _, (old, new), _, _ in data["places"]:
            if old:
                self.steps.setdefault(norm(old), new)
                self.kind.setdefault(norm(old), place)
        self.loops = {norm(l[0][0]): (l[0][1], l[1], c) for l, c in zip(data["loops"], data["changed"])}
        for old, (new, _, _) in self.loops.items():
            self.steps.setdefault(old, new)
        self.args = {}
        for old, new in data["args"]:
            m = re.match(r"\.args \.(\S+)$", old)
            if m:
                self.args[m.group(1)] = new.split(".")[-1]
        self.places = {p[0]: p for p in data["places"]}
        self.asked = [n[0] for n in data["asked_at"]] if len(data["asked_at"]) == len(data["needs"]) else None
        self.stem = data["stem"]
        self.params = params
        self.callee = {norm(p[2][0]): p[3] for p in data["places"] if p[3]}
        self.told = {}
        for arm in data.get("arms", []):
            for new, old, path in arm[2] if arm else []:
                if path:
                    self.told.setdefault((norm(old), ".".join(path)), f"{arm[0]}.{new}")
        self.asked_clauses = data.get("asked", {})
        self.clauses = own_clauses(me)
        self.me = me


def substitute(body, table):
    """Identifiers by what stands for them."""
    def one(m):
        w = m.group(0)
        return table.get(w, w)
    return re.sub(r"(?<![.\w'-])[A-Za-z_][\w'₀-₉-]*", one, body)


def contexts(body):
    """Variables that hold a context: c, and what a let makes of one."""
    found = {"c"}
    again = True
    while again:
        again = False
        for v, w in re.findall(r"let (\w+'?) = (\w+'?)(?:\.before)* in", body):
            if w in found and v not in found:
                found.add(v)
                again = True
    return found


def named_clause(clauses):
    def one(m):
        path = (m.group(1) or m.group(3) or "") + (m.group(2) or m.group(4))
        i = path.count("1")
        return f".requires.{clauses[i]}" if i < len(clauses) and (path.endswith("0") or i == len(clauses) - 1) else m.group(0)

    return one


def body_of(body, names, place, left, cycle):
    ctx = contexts(body)
    body = re.sub(r"\.before(?![\w'-])", "", body)

    def told(m):
        v, label, path = m.groups()
        new = names.told.get((norm(label), path)) if v in ctx and norm(label) not in names.callee else None
        return f"{v}.{new}" if new else m.group(0)

    body = re.sub(r"(?<![\w'.-])(\w+'?)\.([A-Za-z_][\w'-]*)\.(given(?:\.\d)+|ensures)(?![\w'.-])", told, body)

    def step(m):
        v, label = m.group(1), m.group(2)
        if v not in ctx:
            return m.group(0)
        if label == "args":
            return m.group(0)
        new = names.steps.get(norm(label))
        return f"{v}.{new}" if new else m.group(0)

    body = re.sub(r"(?<![\w'.-])(\w+'?)\.([A-Za-z_][\w'-]*)", step, body)
    if cycle:
        body = re.sub(r"\.requires\.1(?![\w'])", ".requires", body)
    if names.clauses:
        body = re.sub(r"\.requires\.((?:1\.)*)([01])(?![\w.])|\.requires\.((?:1\.)*)([01])(?=\.[a-z])", named_clause(names.clauses), body)
    if names.args:
        body = re.sub(r"\.args\.(\w+)", lambda m: ".args." + names.args.get(m.group(1), m.group(1)), body)
    # a test that is cited whole
    for new in set(names.steps.values()):
        if new.endswith("-test"):
            side = "false" if place and place.startswith("After-loop") else "true"
            body = re.sub(re.escape("." + new) + r"(?![\w'.-])", "." + new + "." + side, body)
    # what a call says of the length of a slice, by the slice
    def auto(m):
        label, ones = m.group(1), m.group(2).count("1")
        old = [o for o, n in names.steps.items() if n == label]
        fn = names.callee.get(old[0]) if old else None
        ps = names.params.get(fn) if fn else None
        if ps and ones < len(ps):
            return f".{label}.auto.{ps[ones]}"
        left.append(m.group(0))
        return m.group(0)

    body = re.sub(r"\.([A-Za-z_][\w'-]*)\.auto\.((?:1\.)*0)(?!\.?\d)", auto, body)
    # what a call leaves in an argument, by the argument
    def new(m):
        label, ones = m.group(1), m.group(2).count("1")
        old = [o for o, n in names.steps.items() if n == label]
        fn = names.callee.get(old[0]) if old else None
        ps = names.params.get(fn) if fn else None
        if ps and ones < len(ps):
            return f".{label}.new.{ps[ones]}"
        left.append(m.group(0))
        return m.group(0)

    body = re.sub(r"\.([A-Za-z_][\w'-]*)\.new\.((?:1\.)*0)(?!\.?\d)", new, body)
    # a test under `!` now speaks of what is negated
    body = re.sub(r"\bnot-(?:true|false) _ (\w+\.if-not-[\w-]+\.(?:true|false))(?![\w'.-])", r"\1", body)
    # the two ways of a test, where they join
    def joined(m):
        a, b, v, label = m.groups()
        x = label[3:] if label.startswith("if-") else label
        a = a.replace("w.0.taken", f"w.{label}.true")
        b = b.replace("w.0.left", f"w.{label}.false")
        return f"elim {v}.{label}.branch [ then-{x} w ↦ {a} | else-{x} w ↦ {b} ]"

    body = re.sub(r"⊎_elim\s+\(λ w\. ([^\n]*?)\)\s+\(λ w\. ([^\n]*?)\)\s+(\w+)\.(if-[\w-]+)\.branch", joined, body)
    if re.search(r"\bw\.\d|taken|\.left\b", body):
        left.append("branches")
    return body


def turn(path, name, all_names, prefix):
    text = open(path, encoding="utf-8").read()
    header, uses, decls = declarations(text)
    inv, ans, left, more = [], [], [], []
    cycle = os.path.basename(os.path.dirname(path)).startswith("+")
    for d in decls:
        m = re.match(r"(?:pub )?(?:abbrev )?([^\s:]+) : (?:\(t : ℕ\) → )?([\w-]*?)-?(tie|lts)\.(Need-)?([^\s]+)", d.replace("\n", " "))
        first = d.split("\n")[0]
        if re.match(r"pub \S+ :\s+\{M : Type 1\} → statement M", d):
            continue
        if cycle and re.match(r"abbrev \S+-(at|below|called)\b|abbrev \S+_(at|below|called)\b", first):
            continue
        mu = re.match(r"abbrev μ-(\S+) : ", first)
        if mu:
            fn = mu.group(1)
            names = next((n for n in all_names.values() if norm(n.me) == norm(fn)), None)
            ps = next((p for n in all_names.values() for f, p in n.params.items() if norm(f.split("::")[-1]) == norm(fn)), None)
            rhs = d.split("=", 1)[1].strip()
            if ps:
                rhs = re.sub(r"a\.((?:1\.)*)0(?![\w])", lambda k: "l." + ps[k.group(1).count("1")], rhs)
                rhs = re.sub(r"a((?:\.1)+)(?![\w.])", lambda k: "l." + ps[k.group(1).count("1")], rhs)
            else:
                left.append("measure of " + fn)
            me = names.me if names else fn
            inv.append(f"abbrev pub decreases-{me} : goal.decreases-{me}\ndecreases-{me} l = {rhs}")
            continue
        if not m:
            if "tie." in d:
                left.append("by hand: " + d.split("\n")[0])
            more.append(d)
            continue
        old_name, owner, _, need, what = m.groups()
        if cycle:
            names = next((n for n in all_names.values() if norm(n.me) == norm(owner)), None)
        else:
            names = next(iter(all_names.values()))
        if names is None:
            left.append("no names for " + owner)
            continue
        kind = re.match(r"(invariant|decreases)-(.*)$", what) if not need else None
        if kind:
            loop = names.loops.get(norm(kind.group(2)))
            if not loop:
                left.append("loop " + what)
                continue
            new, vars_, changed = loop
            eq = d.split("\n", 1)[1]
            lhs, rhs = eq.split(" =", 1)
            given = lhs.split()[1:]
            table = {}
            for a in given:
                base = re.sub(r"[₀-₉]$", "", a)
                v = next((x for x in vars_ if norm(x) == norm(base)), None) or next((n for o, n in names.args.items() if norm(o) == norm(base)), base)
                table[a] = f"l.{v}" if base == a else f"l.initial.{v}"
            rhs = substitute(rhs, table)
            w = f"{kind.group(1)}-{names.stem}{new}"
            inv.append(f"abbrev pub {w} : goal.{w}\n{w} l ={rhs}")
            continue
        key = norm(what)
        new = names.needs.get(key)
        if new is None:
            left.append("goal " + what)
        lines = d.split("\n")
        k = next((j for j, l in enumerate(lines) if re.match(re.escape(old_name) + r"( t)?( c)?( κs)?\s*=?", l) and j > 0), None)
        if k is None:
            left.append("equation of " + old_name)
            continue
        opened = [l for l in lines[1:k] if l.startswith("unfolding")]
        body = "\n".join(lines[k:]).split("=", 1)[1].rstrip()
        if new is None:
            ans.append(f"-- left: {what}\n" + "\n".join("-- " + l for l in body.split("\n")))
            continue
        idx = list(names.needs).index(key)
        place = names.asked[idx] if names.asked and idx < len(names.asked) else None
        if body.strip() in PLAIN and not opened:
            continue
        if new.startswith("shape_of-") and re.fullmatch(r"[\w.∙ \n-]*\.auto\.[\w.∙ \n-]*", body):
            continue
        body = body_of(body, names, place, left, cycle)
        if new in names.asked_clauses:
            inside = cycle and re.sub(r"-requires(-\d+)?$", "", key) in {norm(n.me) for n in all_names.values()}
            body = as_record(body, names.asked_clauses[new], inside)
        w = names.stem + new
        ans.append("\n".join([f"pub {w} : goal.{w}"] + opened + [f"{w} {'t ' if cycle else ''}c ={'' if body[:1] in (' ', chr(10)) else ' '}{body}"]))
    folder = os.path.dirname(path)
    keep = [u for u in uses if not any(x in u for x in DROPPED_USES)]
    module = prefix
    if inv:
        with open(os.path.join(folder, "Invariants.antt"), "w") as f:
            f.write("\n".join(header + keep + [f"use {module}.Given as goal"]) + "\n\n" + "\n\n".join(inv) + "\n")
    if ans or more:
        cases = sorted(set(re.findall(r"(?<![\w.-])(?:then|else)-[\w-]+(?= w ↦)", "\n".join(ans))))
        with open(os.path.join(folder, "Answers.antt"), "w") as f:
            f.write("\n".join(header + keep + [f"use {module}.Goals as goal"] + ([f"use {module}.Goals.{{{', '.join(cases)}}}"] if cases else [])) + "\n\n" + "\n\n".join(more + ans) + "\n")
    os.rename(path, path + ".old")
    for l in left:
        print(f"left: {folder}: {l}")


def main(argv):
    data = json.load(open(argv[0]))
    crate = os.path.basename(os.getcwd())
    wanted = set(argv[1:])
    paths = []
    for where, _, files in os.walk("proofs"):
        if "Proof.antt" in files:
            paths.append(os.path.join(where, "Proof.antt"))
    for path in sorted(paths):
        folder = os.path.dirname(path)[len("proofs/") :].replace("/", ".")
        if wanted and folder not in wanted:
            continue
        module = f"Rattle-{crate}-proofs.{folder}.Lts"
        found = {}
        for k, v in data.items():
            if not k.startswith("Rattle"):
                continue
            if norm(k) == norm(module) or norm(k).startswith(norm(module) + "-"):
                me = k[len(module) + 1 :] if len(k) > len(module) else folder.split(".")[-1]
                found[k] = Names(v, v["params"], me)
        if not found:
            print(f"left: {folder}: no names")
            continue
        text = open(path).read()
        if "Tie" not in text:
            print(f"left: {folder}: another form")
            continue
        turn(path, folder, found, f"Rattle.{crate}.proofs.{folder}")


if __name__ == "__main__":
    main(sys.argv[1:])
