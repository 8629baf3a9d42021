#!/usr/bin/env python3
"""Programs that must not compile: each crates/NAME/must-not-compile/LABEL.edit is tried on a copy.

    python3 tools/must_not_compile.py        after tools/library.sh (it uses what `rt` has built; else `rt` first proves what stands below)

An edit's first lines say what it shows; `expects:` gives the compiler's error, then come `file:`, `old:` and `new:` as in a must-fail
edit. The edit passes where the compiler refuses the edited crate with that error and no other, and fails on any other outcome. The crate
as it stands is compiled first, in the same way, and must pass. Nothing is proved of either: `rt check --only ""` only compiles.
"""
import pathlib
import re
import shutil
import subprocess
import sys
import tempfile

ROOT = pathlib.Path(__file__).resolve().parent.parent


def fields(path):
    found = {}
    for line in path.read_text().splitlines():
        key, mark, value = line.partition(': ')
        if mark and key in ('expects', 'file', 'old', 'new'):
            found[key] = value
    return found


def compiled(copy, crate):
    """Whether the compiler takes the crate of the copy, and what it says."""
    run = subprocess.run(['rt', 'check', '--only', ''], cwd=copy / 'crates' / crate, capture_output=True, text=True)
    return run.returncode == 0, run.stdout + run.stderr


def refused(edit, copy):
    crate = edit.parent.parent.name
    wanted = fields(edit)
    source = copy / 'crates' / crate / wanted['file']
    text = source.read_text()
    if text.count(wanted['old']) != 1:
        return f'its old text stands {text.count(wanted["old"])} times in {wanted["file"]}'
    passes, said = compiled(copy, crate)
    if not passes:
        return 'the crate does not compile as it stands: ' + said[-400:]
    source.write_text(text.replace(wanted['old'], wanted['new']))
    passes, said = compiled(copy, crate)
    source.write_text(text)
    errors = re.findall(r'error\b.*', said)
    if passes or len(errors) != 1 or wanted['expects'] not in errors[0]:
        return 'not refused with that error: ' + said[-400:]
    return None


def main():
    edits = sorted(ROOT.glob('crates/*/must-not-compile/*.edit'))
    faults = 0
    with tempfile.TemporaryDirectory() as scratch:
        copy = pathlib.Path(scratch)
        shutil.copytree(ROOT / 'crates', copy / 'crates', ignore=shutil.ignore_patterns('must-fail', 'out'))
        shutil.copy(ROOT / 'crates.txt', copy)
        for edit in edits:
            fault = refused(edit, copy)
            faults += fault is not None
            print(f'{edit.relative_to(ROOT)}: {fault or "refused by the compiler, as it must be"}')
    print(f'{len(edits)} programs that must not compile, {faults} faults')
    return 1 if faults or not edits else 0


if __name__ == '__main__':
    sys.exit(main())
