#!/usr/bin/env python3
"""Turns proofs that walk a function's code (Proof.antt) into Invariants.antt and Answers.antt, as far as text goes.

usage: python3 tools/port/answers.py CRATE [FUNCTION..]     at the top; what the check then says of a goal is mended by hand

Each goal's old and new name comes from `rt check --generated FOLDER --old-names`. Answers that only search are left out, since
the check searches by itself.
"""
import json
import os
import re
import subprocess
import sys
import tempfile

top = os.path.dirname(os.path.dirname(os.path.dirname(os.path.abspath(__file__))))
N = r"[^\s(){};,.\"`λ]"


def plain(name):
    return re.sub(r"^overflow-", "", name.replace("_", "-"))


def names(crate):
    with tempfile.TemporaryDirectory() as d:
        subprocess.run(["rt", "check", "--generated", d, "--old-names"], cwd=os.path.join(top, "crates", crate), stdout=subprocess.DEVNULL, stderr=subprocess.DEVNULL)
        with open(os.path.join(d, "names.json"), encoding="utf-8") as f:
            return json.load(f)


def chunks(text):
    """The file's declarations: comment lines, signature, clauses."""
    out, now = [], []
    for line in text.split("\n"):
        if not line.strip():
            if now:
                out.append(now)
            now = []
        else:
            now.append(line)
    if now:
        out.append(now)
    return out


def unshadowed(value, names_of):
    """Renames what a λ binds where a variable of the loop has that name."""
    at = 0
    while True:
        found = re.compile(r"λ (%s+)\. " % N).search(value, at)
        if not found:
            return value
        at = found.end()
        name = found.group(1)
        if name not in names_of:
            continue
        deep, end = 0, at
        while end < len(value) and deep >= 0:
            deep += {"(": 1, ")": -1}.get(value[end], 0)
            end += 1
        new = next(n for n in ("k", "j", "m", "n") if not re.search(r"(?<![\w'.-])%s(?![\w'-])" % n, value) and n not in names_of)
        inner = re.sub(r"(?<![\w'.₀-₉-])%s(?![\w'₀-₉-])" % re.escape(name), new, value[found.start():end])
        value = value[: found.start()] + inner + value[end:]


def turn(crate, path, rel, table, said):
    with open(path, encoding="utf-8") as f:
        text = f.read()
    if "tie." not in text:
        said.append(f"{crate} {rel}: no walk that this script knows")
        return
    needs = {plain(old): new for old, new in table["needs"]}
    steps = {}
    fields = {}
    for place, clause in zip(table["places"], table["clauses"]):
        old, new = place[2]
        if old:
            steps[plain(old)] = new
            if clause and len(clause["fields"]) == 1:
                fields[plain(old)] = "." + clause["fields"][0]
    loops = {}
    for (old, new), variables in table["loops"]:
        loops[old] = (new, variables)
        steps[old] = new
    changed = {old: c for (old, _), c in zip([l[0] for l in table["loops"]], table["changed"])}

    def body(t):
        t = re.sub(r"(\.before)+(?![\w-])", "", t)
        while True:
            alias = re.search(r"\n?[ ]*let (%s+) = c in(?=\s)" % N, t)
            if not alias:
                break
            t = t[: alias.start()] + t[alias.end() :]
            t = re.sub(r"(?<![\w'.₀-₉-])%s(?![\w'₀-₉-])" % re.escape(alias.group(1)), "c", t)
        if steps:
            words = "|".join(re.escape(old).replace(r"\-", "[-_]") for old in sorted(steps, key=len, reverse=True))
            t = re.sub(r"\.(%s)(?![\w'-])(\.ensures(?!\.))?" % words, lambda m: "." + steps[plain(m.group(1))] + ((m.group(2) + fields.get(plain(m.group(1)), "")) if m.group(2) else ""), t)
        return t

    uses, head, inv, ans = [], [], [], []
    for chunk in chunks(text):
        lines = list(chunk)
        comments = []
        while lines and lines[0].startswith("--"):
            comments.append(lines.pop(0))
        if lines and lines[0].startswith("use "):
            head = comments
            uses = lines
            continue
        if not lines:
            head += comments
            continue
        sig = lines[0]
        found = re.match(r"^(?:abbrev )?(?:pub )?(%s+) : tie\.(\S+)(.*)$" % N, sig)
        if re.match(r"^(pub )?\S+ : .*\bstatement\b", sig):
            continue
        if not found:
            ans.append(comments + lines)
            continue
        name, kind = found.group(1), found.group(2)
        rest = lines[1:]
        loop = re.match(r"^(invariant|decreases)[-_](\S+)$", kind)
        if loop:
            if loop.group(2) not in loops:
                said.append(f"{crate} {rel}: no loop {loop.group(2)}")
                continue
            new, variables = loops[loop.group(2)]
            flags = changed[loop.group(2)]
            clause = "\n".join(rest)
            m = re.match(r"^(?:unfolding [^\n]*\n)?%s+((?: %s+)*)\s*=(.*)$" % (N, N), clause, re.S)
            args = m.group(1).split()
            value = m.group(2)
            order = [("l.initial." if c else "l.") + v for v, c in zip(variables, flags)] + ["l." + v for v, c in zip(variables, flags) if c]
            if len(args) != len(order):
                said.append(f"{crate} {rel}: {name} has {len(args)} arguments, expected {order}")
            names_of = {a: o for a, o in zip(args, order) if a != "_"}
            value = unshadowed(value, names_of)
            words = "|".join(re.escape(a) for a in sorted(names_of, key=len, reverse=True))
            value = re.sub(r"(?<![\w'.₀-₉-])(%s)(?![\w'₀-₉-])" % words, lambda m: names_of[m.group(1)], value)
            label = f"{loop.group(1)}-{new}"
            inv.append(comments + [f"abbrev pub {label} : goal.{label}", f"{label} l ={value}"])
            continue
        need = re.match(r"^Need-(\S+)$", kind)
        if not need or plain(need.group(1)) not in needs:
            said.append(f"{crate} {rel}: no goal for {name} : tie.{kind}")
            continue
        new = needs[plain(need.group(1))]
        unfolding = [l for l in rest if l.startswith("unfolding ")]
        rest = [l for l in rest if not l.startswith("unfolding ")]
        clause = "\n".join(rest)
        m = re.match(r"^%s+ c( κs)?\s*=(.*)$" % N, clause, re.S)
        if not m:
            said.append(f"{crate} {rel}: clauses of {name} are not `c = ..`")
            ans.append(comments + lines)
            continue
        value = body(m.group(2))
        if value.strip() in ("search rules", "tt") and not unfolding:
            continue
        ans.append(comments + [f"pub {new} : goal.{new}"] + unfolding + [f"{new} c ={value}"])
    shared = []
    if inv:
        text_of = "\n".join("\n".join(c) for c in inv)
        for chunk in list(ans):
            found = [re.match(r"^abbrev (?:pub )?(%s+) :" % N, l) for l in chunk]
            found = [f for f in found if f]
            if found and re.search(r"(?<![\w'.-])%s(?![\w'-])" % re.escape(found[0].group(1)), text_of):
                ans.remove(chunk)
                shared.append((found[0].group(1), [re.sub(r"^abbrev (?!pub )", "abbrev pub ", l) for l in chunk]))
        inv = [c for _, c in shared] + inv
    used = [u for u in uses if not re.search(r"\.proofs\.(%s)\.(Statement|Tie|Reads|Lts)\b" % re.escape(rel.replace("/", ".")), u)]
    here = f"Rattle.{crate}.proofs.{rel.replace('/', '.')}"
    folder = os.path.dirname(path)
    goals = any(l.startswith("pub ") and ": goal." in l for c in ans for l in c)
    if inv:
        with open(os.path.join(folder, "Invariants.antt"), "w", encoding="utf-8") as f:
            f.write("\n".join(used + [f"use {here}.Given as goal"]) + "\n\n" + "\n\n".join("\n".join(c) for c in inv) + "\n")
    if goals:
        with open(os.path.join(folder, "Answers.antt"), "w", encoding="utf-8") as f:
            f.write("\n".join(head + used + ([f"use {here}.Invariants.{{{', '.join(n for n, _ in shared)}}}"] if shared else []) + [f"use {here}.Goals as goal"]) + "\n\n" + "\n\n".join("\n".join(c) for c in ans) + "\n")
    os.remove(path)
    if not inv and not goals and not os.listdir(folder):
        os.rmdir(folder)
    said.append(f"{crate} {rel}: {len(inv)} invariants and measures, {sum(any(': goal.' in l for l in c) for c in ans)} answers")


def main(argv):
    crate, only = argv[0], argv[1:]
    table = names(crate)
    said = []
    base = os.path.join(top, "crates", crate, "proofs")
    for folder, dirs, files in sorted(os.walk(base)):
        if "Proof.antt" not in files:
            continue
        rel = os.path.relpath(folder, base)
        if only and rel not in only:
            continue
        key = f"Rattle-{crate}-proofs.{rel.replace('/', '.')}.Lts"
        if key not in table:
            said.append(f"{crate} {rel}: not in the check's names")
            continue
        turn(crate, os.path.join(folder, "Proof.antt"), rel, table[key], said)
    print("\n".join(said))


main(sys.argv[1:])
