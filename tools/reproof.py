#!/usr/bin/env python3
"""What a full check costs, and what is proved again after an edit.

    python3 tools/reproof.py               what each crate costs, and what an edit of it proves again, as Markdown tables
    python3 tools/reproof.py --try CRATE.. the same, and then edits the code, the laws and the definitions of these crates in turn

Works on a copy of the repository without the must-fail edits, so nothing here changes. The first form proves everything once, from
nothing (`rt ci --anew`), and works out from crates.txt what stands on what: `rt` proves a crate again where its files changed, or what it
reads of a library that it stands on, so an edit proves again at most the crates above. The second form measures that: it puts one comment
line before one file of each kind, runs `rt ci`, notes which crates were proved again and how long that took, and takes the line out
again. The line is another one in each run, since `rt` keeps what it has once proved. A crate without code of its own, or without
definitions, has no such row. One job at a time (RT_JOBS=1), so the seconds are one core's: those between the line that `rt` writes of a
crate and the line before it.
"""
import os
import pathlib
import re
import shutil
import subprocess
import sys
import tempfile
import time

ROOT = pathlib.Path(__file__).resolve().parent.parent
PROVED = re.compile(r'^rt: (\w+)(?:: its tests are)? proved$')
KEPT = re.compile(r'^rt: \w+ is kept: ')


def check(copy, *words):
    """The crates that `rt ci` proves now, with their seconds."""
    run = subprocess.Popen(['rt', 'ci', *words], cwd=copy, env=dict(os.environ, RT_JOBS='1'), stdout=subprocess.PIPE, stderr=subprocess.STDOUT, text=True)
    began, found, said = time.monotonic(), {}, []
    for line in run.stdout:
        said.append(line)
        proved = PROVED.match(line)
        if proved:
            found[proved[1]] = found.get(proved[1], 0) + time.monotonic() - began
        if proved or KEPT.match(line):
            began = time.monotonic()
    if run.wait():
        sys.exit('reproof: the copy is not proved:\n' + ''.join(said)[-2000:])
    return {name: round(seconds) for name, seconds in found.items()}


def needs():
    """crate -> the crates of this repository that it names in crates.txt."""
    lines = [line.split('#')[0] for line in (ROOT / 'crates.txt').read_text().splitlines()]
    named = {line.split(':')[0].split()[0]: line.split(':')[1].split() for line in lines if ':' in line}
    return {name: [d for d in deps if d in named] for name, deps in named.items()}


def above(name, deps):
    """A crate and everything that stands on it."""
    found, grown = {name}, True
    while grown:
        more = {n for n, below in deps.items() if found & set(below)}
        grown = not more <= found
        found |= more
    return found


def edits(crate):
    """(kind, file, the mark that opens a comment) for one file of each kind of text."""
    sources = sorted((crate / 'src').rglob('*.rt'))
    if sources and any('fn ' in s.read_text() for s in sources):
        yield 'code', sources[0], '//'
    for kind, folder in (('laws', 'proofs'), ('definitions', 'specs')):
        files = [f for f in sorted((crate / folder).glob('*.antt')) if f.stem != 'Lib']
        if files:
            yield kind, files[0], '--'


def tables(full):
    deps = needs()
    print('| crate | full check, seconds | an edit of it proves again, at most | seconds |\n|---|---|---|---|')
    for name, seconds in full.items():
        again = [n for n in full if n in above(name, deps)]
        print(f'| `{name}` | {seconds} | {len(again)} of {len(full)} crates | {sum(full[n] for n in again)} |')
    print(f'| all | {sum(full.values())} | | |', flush=True)


def tries(copy, names):
    print('| edit of | its | crates proved again | seconds |\n|---|---|---|---|')
    for name in names:
        for kind, path, mark in edits(copy / 'crates' / name):
            text = path.read_text()
            path.write_text(f'{mark} An edit that changes no meaning, number {time.time_ns()}.\n' + text)
            again = check(copy)
            path.write_text(text)
            listed = ', '.join(f'`{n}`' for n in again) or 'none'
            print(f'| `{name}` | {kind} | {len(again)}: {listed} | {sum(again.values())} |', flush=True)


def main():
    with tempfile.TemporaryDirectory() as made:
        copy = pathlib.Path(made) / 'repository'
        shutil.copytree(ROOT, copy, ignore=shutil.ignore_patterns('target', 'out', '.git', 'must-fail'))
        full = check(copy, '--anew')
        tables(full)
        if '--try' in sys.argv:
            print()
            tries(copy, sys.argv[sys.argv.index('--try') + 1:])


if __name__ == '__main__':
    main()
