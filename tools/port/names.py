#!/usr/bin/env python3
"""Brings this repository's own definitions and lemmas to today's spelling, as names.tsv beside this file lists them (old, new and, where
it is of one crate only, that crate): a word in snake case, a dash only where it joins two names. Run once, at the top, after the kit's own script.

Turned are whole names in .antt and .rt files of crates/, in code and, between backquotes, in comments; texts in quotes stay.
A file in which two old names would fall together is an error, and nothing is written.
"""
import os
import re
import sys

here = os.path.dirname(os.path.abspath(__file__))
top = os.path.dirname(os.path.dirname(here))
rows = [line.rstrip("\n").split("\t") for line in open(os.path.join(here, "names.tsv"), encoding="utf-8")]

LETTER = r"[^\s(){};,.\"`λ@:]"
NAME = re.compile(LETTER + "+")
QUOTED = re.compile(r"`[^`\n]*`")
PARTS = re.compile(r'"(?:[^"\\\n]|\\.)*"|--[^\n]*|//[^\n]*')


def named(text, table, used):
    def one(found):
        word = found.group(0)
        if word in table:
            used.add(word)
            return table[word]
        return word

    return NAME.sub(one, text)


def turned(text, antt, table, used):
    out, at = [], 0
    for part in PARTS.finditer(text):
        word = part.group(0)
        if word.startswith("//" if antt else "--"):
            continue
        out.append(named(text[at:part.start()], table, used))
        if word.startswith('"'):
            out.append(word)
        else:
            out.append(QUOTED.sub(lambda m: named(m.group(0), table, used), word))
        at = part.end()
    out.append(named(text[at:], table, used))
    return "".join(out)


texts, bad = {}, 0
for folder, dirs, files in os.walk(os.path.join(top, "crates")):
    dirs[:] = sorted(d for d in dirs if d != "out")
    for name in sorted(files):
        if not name.endswith((".antt", ".rt")):
            continue
        path = os.path.join(folder, name)
        with open(path, encoding="utf-8") as f:
            before = f.read()
        used = set()
        crate = os.path.relpath(path, top).split(os.sep)[1]
        table = {row[0]: row[1] for row in rows if len(row) == 2 or row[2] == crate}
        after = turned(before, name.endswith(".antt"), table, used)
        words = set(NAME.findall(before))
        new = [table[w] for w in used]
        for word in sorted(set(new)):
            if new.count(word) > 1 or word in words:
                print(f"{os.path.relpath(path, top)}: `{word}` would mean two things")
                bad += 1
        if after != before:
            texts[path] = after
if bad:
    sys.exit(1)
for path, after in texts.items():
    with open(path, "w", encoding="utf-8") as f:
        f.write(after)
print(f"{len(texts)} files turned")
