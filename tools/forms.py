#!/usr/bin/env python3
"""Counts the places in crates/*/src that an older form may hide in, for docs/DESIGN-PASS.md.

    tools/forms.py [-v] [FOLDER]

FOLDER is a checkout, this one where none is named. -v lists the places. Comments are left out, but for the last row."""
import glob
import os
import re
import sys

ROWS = [
    ("1 enums shaped like Option or Result", r"enum \w+ \{[^}]*\b(?:Value|Words|Done|Refused|Bad|None|Unfit)\b[^}]*\}"),
    ("1 a flag beside a value", r"struct \w+ \{[^}]*: bool,[^}]*\}"),
    ("1 numbers for refusals", r"=> [1-9],\n|refused\(x, \d\)|refusal [1-9](?=[^0-9])|, \d\),\n(?<=left\(fields, x, d, 2\),\n)"),
    ("1 sentinels", r"return 16;|\n +16\n|=> 16,|= 256usize|given: 0,|return 0;"),
    ("3 while loops", r"\n *(?:'\w+: )?while (?!let)"),
    ("3 for loops over a range", r"\n *(?:'\w+: )?for \w+ in [^{]*\.\."),
    ("4 conversions by methods", r"pub fn (?:from|to|into)_\w+\("),
    ("4 numbers' functions in place of methods", r"std::num::\w+\(|usize::trailing_zeros\("),
    ("4 text written as bytes", r"(?:say|write_all)\([^;]*?b\"|\n +b\"[^\"]*\",?\n|show_\w+\([^;]*?b\""),
    ("4 fields compared or copied one by one", r"if x\[\d\] != answer\.\w+|(?:\w+\[\d\],\s+){7}|(?:\w+\([a-z]+, \d\),\s+){7}|(?:\w+\[\d\]\.to_byte\(\),\s+){7}"),
    ("5 facts asked of callers", r"\n +requires"),
    ("5 parameters that travel together", r"fields: Fields, x: &\[u64; 256\]|line: &mut \[u8\], name: &mut \[u8\]|line: &mut \[u8\],\n +name: &mut \[u8\]|rows: &\[u8\], at: usize"),
    ("6 buffers with a length beside", r"= \[0u(?:8|64); (?:\d{2,}|\w+)\];"),
    ("7 switches by a name", r"if check::same\(name, b\""),
]

WORDS = set("fn pub if else while for in let mut match return as self Self impl struct enum requires ensures use mod const crate".split())


def code(path):
    with open(path, encoding="utf-8") as f:
        return re.sub(r"(?m)^\s*//.*\n", "\n", f.read())


def functions(text):
    for m in re.finditer(r"\bfn (\w+)", text):
        start = re.compile(r"\n? *\{\n").search(text, text.find(")", m.start()))
        if not start:
            continue
        depth, i = 0, text.index("{", text.find("\n{", m.start()) if 0 <= text.find("\n{", m.start()) < start.end() else start.start())
        for j in range(i, len(text)):
            depth += {"{": 1, "}": -1}.get(text[j], 0)
            if depth == 0:
                yield m.group(1), text[i:j + 1]
                break


def shape(body):
    tokens = re.findall(r'b?"[^"]*"|b\'.*?\'|0x[0-9a-f_]+|\d\w*|\w+|[^\s\w]', body)
    out = []
    for t in tokens:
        if t in WORDS or not re.match(r"[\w\"']", t):
            out.append(t)
        elif re.match(r"\d", t):
            out.append("0")
        elif '"' in t or "'" in t:
            out.append('""')
        else:
            out.append("x")
    return tuple(out)


def main():
    args = [a for a in sys.argv[1:] if a != "-v"]
    listed = "-v" in sys.argv
    root = args[0] if args else os.path.join(os.path.dirname(os.path.abspath(__file__)), "..")
    files = sorted(glob.glob(os.path.join(root, "crates/*/src/*.rt")))
    texts = {os.path.relpath(f, root): code(f) for f in files}
    for what, regex in ROWS:
        found = [(f, t[:m.start() + 1].count("\n") + 1, m.group(0)) for f, t in texts.items() for m in re.finditer(regex, t)]
        print(f"{len(found):4}  {what}")
        if listed:
            for f, line, place in found:
                print(f"        {f}: {' '.join(place.split())[:90]}")
    groups = {}
    for f, t in texts.items():
        for name, body in functions(t):
            s = shape(body)
            if len(s) >= 12:
                groups.setdefault(s, []).append(f"{f}: {name}")
    twins = [g for g in groups.values() if len(g) > 1]
    print(f"{sum(map(len, twins)):4}  2 functions whose bodies have one shape, in {len(twins)} groups")
    if listed:
        for g in twins:
            print("        " + "; ".join(g))
    answers = [open(f, encoding="utf-8").read() for f in glob.glob(os.path.join(root, "crates/*/proofs/**/Answers.antt"), recursive=True)]
    print(f"{sum(len(re.findall(r'(?m)^(?:pub )?[^ ]+ : goal[.]', a)) for a in answers):4}  8 answers, in {len(answers)} files")
    kept = sum(open(f, encoding="utf-8").read().count("// Kept: ") for f in files)
    print(f"{kept:4}  places kept with a reason beside them")


main()
