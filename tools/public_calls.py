#!/usr/bin/env python3
"""Hold every public call of the crates to what docs/PROMISES.md and its contract must say of it.

    python3 tools/public_calls.py            the gate's check, from the repository's root
    python3 tools/public_calls.py --list     one row a call: crate, call, its Reads module

A call is a `pub fn`; a method of a trait's block for a type (an operator, `From`), which states by the block's ghost member
`.._gives`, `.._of` or `is_default`; the `default` of a public type that derives it, which states its fields (of what a derive writes, that
alone is a call here); or a method with a body in a public trait's own block. Programs have none. It is at fault where it
  - has a `requires` or a member `can_..` (it asks its caller), or has no `ensures` or member that says (it states nothing);
  - has no row in docs/PROMISES.md under its crate's heading, or one without two must-fail edits that are there (`label` is an edit of
    the crate itself, `crate/label` one of a crate below, whose refused code the call would answer with);
  - has no theorem in its crate's proofs/Unique.antt, said of its generated `Reads`, that two answers meeting its
    statement are equal.
Of a `Display` or `Debug` written out the statement is the ghost member `output` or `debug_output`, and it must be `Some` text, a
function of the value. What its `fmt` answers is the writer's, which may fail; its theorem is that two writers hold the same at the
end, where they keep what they are given and do not fail.
A method without a body in a public trait's own block is no call. It is at fault where it has a `requires` or no `ensures`, since the
types' methods are held to these.
A row of docs/PROMISES.md that names no call is at fault too. The last line counts.
"""
import pathlib
import re
import sys
from typing import NamedTuple

HEAD = re.compile(r'pub\s+(?:extern\s+"C"\s+)?fn\s+(?P<name>\w+)')
# the head of an impl block: `impl Rijndael8b`, `impl From<Refusal> for Shown`, `impl<T> fmt::Display for Pair<T>`
IMPL = re.compile(r'^[ \t]*(?:unsafe\s+)?impl\b(?P<head>[^{}]*)\{', re.M)
PATH = re.compile(r'(?:dyn\s+)?(?:::)?(?:\w+::)*(?P<name>\w+)\s*(?:<(?P<of>.*)>)?$', re.S)
OWN_TRAIT = re.compile(r'\bpub\s+(?:unsafe\s+)?trait\s+(?P<name>\w+)[^{]*\{')
PUBLIC_TYPE = re.compile(r'(?P<attributes>(?:#\[[^\]]*\]\s*)+)pub\s+(?:struct|enum)\s+(?P<name>\w+)')
SAID = re.compile(r'\bghost\s+(?:\w+_(?:gives|of)|is_default)\s*=')
SHOWN = re.compile(r'\bghost\s+(?:debug_)?output\s*=\s*\{[^}]*\bSome\b')
ASKED = re.compile(r'\brequires\b|\bghost\s+can_\w+\s*=')
METHOD = re.compile(r'\bfn\s+(?P<name>\w+)')
CLAUSE = re.compile(r'\s*(?:->\s*[^{]*?)?\s*\b(?P<kind>ensures|requires|ghost)\b[^{]*')
ROW = re.compile(r'^\|\s*`(?P<call>[\w:]+)`\s*\|(?P<rest>.*)\|\s*$')


def without_comments(text):
    return re.sub(r'//[^\n]*', '', text)


def past_balanced(text, at, left, right):
    """The index behind the bracket that closes the one at `at`."""
    depth = 0
    for i in range(at, len(text)):
        depth += (text[i] == left) - (text[i] == right)
        if depth == 0:
            return i + 1
    raise ValueError('a bracket is not closed')


class Call(NamedTuple):
    name: str  # as its row in docs/PROMISES.md has it
    module: str  # its Reads module, below the crate's proofs
    says: int  # how many statements it has
    asks: int  # how many needs
    abstract: bool = False  # a trait's method without a body: no call, but its clauses are held


def split_generics(text):
    """What stands in the brackets `<..>` at the front, and what follows them."""
    text = text.strip().replace('->', '')
    if not text.startswith('<'):
        return '', text
    end = past_balanced(text, 0, '<', '>')
    return text[1:end - 1], text[end:].strip()


def word(of, parameters):
    """A type as the checker's module names have it: `RefSliceU8` for `&[u8]`, `OptionU8` for `Option<u8>`; a parameter goes unnamed."""
    of = re.sub(r"'\w+\s*,?", '', of).strip()
    if of.startswith('&'):
        return ('RefMut' if re.match(r'&\s*mut\b', of) else 'Ref') + word(re.sub(r'^&\s*(?:mut\b)?', '', of), parameters)
    if of.startswith('['):
        element, sized, size = of[1:-1].rpartition(';')
        return 'Array' + word(element, parameters) + word(size, parameters) if sized else 'Slice' + word(of[1:-1], parameters)
    path = PATH.match(of)
    inner = re.split(r',(?![^<([]*[>)\]])', (path['of'] or '') if path else of[1:-1])
    name = path['name'] if path else f'Tuple{len(inner)}'
    return ('' if name in parameters else name[:1].upper() + name[1:]) + ''.join(word(part, parameters) for part in inner if part.strip())


def impls(text):
    """(start of the body, its end, trait or nothing, type, the head's parameters) of every impl block."""
    for m in IMPL.finditer(text):
        generics, head = split_generics(m['head'])
        parameters = re.findall(r"(?:^|,)\s*(?:const\s+)?(\w+)", generics)
        *trait, owner = re.split(r'\s+for\s+(?!<)', re.split(r'\bwhere\b', head)[0].strip())
        yield m.end(), past_balanced(text, m.end() - 1, '{', '}'), trait[0] if trait else '', owner, parameters


def clauses(text, at):
    """How many clauses of each kind follow the arguments that end at `at`, and where the last one ends."""
    counts = {'ensures': 0, 'requires': 0, 'ghost': 0}
    while clause := CLAUSE.match(text, at):
        counts[clause['kind']] += 1
        at = past_balanced(text, text.index('{', clause.end() - 1), '{', '}')
    return counts, at


def methods(text):
    """(name, number of ensures, number of requires, whether it has a body) of each `fn` of a trait's own block."""
    for part in re.split(r'(?=\bfn\s+\w)', text)[1:]:
        counts, at = clauses(part, past_balanced(part, part.index('('), '(', ')'))
        yield METHOD.match(part)['name'], counts['ensures'], counts['requires'], part[at:].lstrip().startswith('{')


def calls_of(path, src):
    """Each public call of one source file."""
    text = without_comments(path.read_text())
    blocks = list(impls(text))
    module = [] if path.stem in ('lib', 'main') else list(path.relative_to(src).with_suffix('').parts)
    for head in HEAD.finditer(text):
        owner = [PATH.match(owner)['name'] for start, end, trait, owner, _ in blocks if not trait and start < head.start() < end]
        counts, _ = clauses(text, past_balanced(text, text.index('(', head.end()), '(', ')'))
        name = owner + [head['name']]
        yield Call('::'.join(name), '.'.join(module + name), counts['ensures'], counts['requires'])
    if (src / 'main.rt').exists():
        return
    for start, end, trait, owner, parameters in blocks:
        if not trait:
            continue
        body = text[start:end]
        says = len(re.findall(SHOWN if re.search(r'\b(?:Display|Debug)$', trait) else SAID, body))
        asks = len(re.findall(ASKED, body))
        kind = word(owner, parameters)
        block = kind + word(trait.replace(f'<{owner}>', ''), parameters)
        for method in METHOD.finditer(body):
            name = f"{owner if owner.isidentifier() else kind}::{method['name']}"
            yield Call(name, '.'.join(module + [block, method['name']]), says, asks)
    for block in PUBLIC_TYPE.finditer(text):
        if re.search(r'\bderive\([^)]*\bDefault\b', block['attributes']):
            yield Call(f"{block['name']}::default", '.'.join(module + [block['name'] + 'Default', 'default']), 1, 0)
    for block in OWN_TRAIT.finditer(text):
        for name, ensures, requires, has_body in methods(text[block.end():past_balanced(text, block.end() - 1, '{', '}')]):
            yield Call(f"{block['name']}::{name}", '.'.join(module + [block['name'], name]), ensures, requires, abstract=not has_body)


def edits_of(crates):
    """Every must-fail edit, as crate/label."""
    return {f'{p.parent.parent.name}/{p.stem}' for p in crates.glob('*/must-fail/*.edit')}


def named_edits(row, crate, edits):
    """The edits that a row's last cell names: those that are there, and those that are not."""
    labels = set(re.findall(r'`(\w+(?:/\w+)?)`', re.split(r'(?<!\\)\|', row)[-1]))
    there = {label for label in labels if (label if '/' in label else f'{crate}/{label}') in edits}
    return there, labels - there


def theorems_of(crate):
    """The Reads modules of which Unique.antt proves that two answers are equal."""
    path = crate / 'proofs' / 'Unique.antt'
    if not path.exists():
        return set()
    text = path.read_text()
    aliases = dict((alias, module) for module, alias in re.findall(r'(?m)^use Rattle\.\w+\.proofs\.(\S+)\.Reads as (\S+)$', text))
    proved = set()
    for statement in re.findall(r'(?ms)^pub \S+_unique :(.*?)^\S', text):
        for alias, module in aliases.items():
            if len(re.findall(r'(?<![\w-])' + re.escape(alias) + r'\.Post\b', statement)) >= 2 and '≡' in statement:
                proved.add(module)
    return proved


def promises(path):
    """crate -> call -> the rest of its row."""
    rows, crate = {}, None
    for line in path.read_text().splitlines():
        if line.startswith('## '):
            crate = line[3:].split()[0].strip('`')
        row = ROW.match(line)
        if row and crate:
            rows.setdefault(crate, {})[row.group('call')] = row.group('rest')
    return rows


def main():
    root = pathlib.Path(__file__).resolve().parent.parent
    rows = promises(root / 'docs' / 'PROMISES.md')
    total, faults = 0, []
    edits = edits_of(root / 'crates')
    for crate in sorted((root / 'crates').iterdir()):
        src = crate / 'src'
        proved = theorems_of(crate)
        promised = dict(rows.get(crate.name, {}))
        for path in sorted(src.rglob('*.rt')):
            for call in calls_of(path, src):
                where = f'{path.relative_to(root)}: {call.name}'
                if call.asks:
                    faults.append(f'{where}: asks its caller (requires)')
                if not call.says:
                    faults.append(f'{where}: states nothing (no ensures)')
                if call.abstract:
                    continue
                total += 1
                if '--list' in sys.argv:
                    print(crate.name, call.name, call.module)
                if call.module not in proved:
                    faults.append(f'{where}: no theorem in proofs/Unique.antt that two answers are equal')
                row = promised.pop(call.name, None)
                if row is None:
                    faults.append(f'{where}: no row in docs/PROMISES.md')
                else:
                    named, missing = named_edits(row, crate.name, edits)
                    if len(named) < 2:
                        faults.append(f'{where}: its row in docs/PROMISES.md names fewer than two must-fail edits')
                    faults += [f'{where}: its row in docs/PROMISES.md names {label}, which is no must-fail edit' for label in missing]
        faults += [f'docs/PROMISES.md: {crate.name}: {call}: no such public call' for call in promised]
    known = {c.name for c in (root / 'crates').iterdir()}
    faults += [f'docs/PROMISES.md: no crate {name}' for name in rows if name not in known]
    print('\n'.join(faults) if faults else 'every public call is promised, stated and pinned to one answer')
    print(f'{total} public calls, {len(faults)} faults')
    return 1 if faults or not total else 0


if __name__ == '__main__':
    sys.exit(main())
