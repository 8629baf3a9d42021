#!/usr/bin/env python3
"""Hold every quotation of docs/THEOREMS.md to its source.

    python3 tools/quotes.py

A quotation is a fenced block whose line before names its file in backquotes, as `crates/gf2/proofs/Coef.antt`. Its text must
stand in that file, whole and in this order of lines, indentation aside. Where it does not, the first such block is printed.
"""
import pathlib
import re
import sys

ROOT = pathlib.Path(__file__).resolve().parent.parent
PAGE = ROOT / 'docs' / 'THEOREMS.md'
BLOCK = re.compile(r'^`(crates/[^`\n]+)`[^\n]*\n+```text\n(.*?)\n```$', re.M | re.S)


def lines(text):
    return [line.strip() for line in text.splitlines() if line.strip()]


def stands_in(quoted, source):
    n = len(quoted)
    return any(source[i:i + n] == quoted for i in range(len(source) - n + 1))


def main():
    page = PAGE.read_text()
    blocks = BLOCK.findall(page)
    if len(blocks) != page.count('```text\n'):
        print('docs/THEOREMS.md: a quotation names no file on the line before it')
        return 1
    for name, text in blocks:
        path = ROOT / name
        if not path.exists() or not stands_in(lines(text), lines(path.read_text())):
            print(f'docs/THEOREMS.md: this does not stand in {name}:\n{text}')
            return 1
    print(f'{len(blocks)} quotations stand in their sources')
    return 0 if blocks else 1


if __name__ == '__main__':
    sys.exit(main())
