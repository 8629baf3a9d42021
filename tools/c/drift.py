#!/usr/bin/env python3
"""Hold include/togasipe.h to the library, so that it cannot drift from it.

    python3 tools/c/drift.py [ARCHIVE]       from the repository's root

The header is at fault where
  - it lacks a function that the sources of crate togasipe export, or declares one that they don't, or declares one otherwise
    than by the rule below;
  - the archive exports another set of functions (left out, and said, where there is no archive or no `nm`);
  - the program of tools/c never calls a function that it declares;
  - it says another version than specs/Version.antt of the crate, wrapper/Cargo.toml or the newest entry of CHANGELOG.md, or it or the
    Rust package another limit of the fingerprint than its crate.
The Rust package's list of the calls, wrapper/src/ffi.rs, is at fault by the same rule, in Rust's spelling.
The rule, parameter by parameter: a number is itself (`usize` is size_t); `&[T]` is `const T *p, size_t p_len` and `&mut [T]` the
same without const; `&[T; N]` is `const T p[N]` and `&mut [T; N]` is `T p[N]`; `&T` is `const T *p` and `&mut T` is `T *p`. A call
that answers u32 carries TOGASIPE_MUST_CHECK, since it may refuse; the version alone does not.
In Rust a list is `p: *const T, p_len: usize` (`*mut T` where it is written), all else is as in the source, and a call is `safe` where
it takes no list.
"""
import pathlib
import re
import shutil
import subprocess
import sys

HEADER = pathlib.Path('include/togasipe.h')
SOURCES = pathlib.Path('crates/togasipe/src')
PROGRAM = pathlib.Path('tools/c')
WRAPPER = pathlib.Path('wrapper/src/ffi.rs')
MUST_CHECK = 'TOGASIPE_MUST_CHECK'
NEVER_REFUSES = {'togasipe_version'}

NUMBERS = {'bool': 'bool', 'usize': 'size_t', 'isize': 'ptrdiff_t'}
NUMBERS.update({f'{sign}{bits}': f'{"u" if sign == "u" else ""}int{bits}_t' for sign in 'ui' for bits in (8, 16, 32, 64)})

EXPORT = re.compile(
    r'#\[unsafe\(no_mangle\)\]\s*pub\s+extern\s+"C"\s+fn\s+(?P<name>\w+)\s*\((?P<parameters>[^)]*)\)\s*(?:->\s*(?P<result>\w+))?')
REFERENCE = re.compile(r'&\s*(?P<mut>mut\b)?\s*(?:\[\s*(?P<element>\w+)\s*(?:;\s*(?P<count>\d+)\s*)?\]|(?P<one>\w+))')
RUST = re.compile(r'pub\s+(?:safe\s+)?fn\s+(\w+)\s*\([^)]*\)\s*(?:->\s*\w+)?\s*;')


def c_number(kind):
    """A type of numbers of Rattle, in C."""
    if kind not in NUMBERS:
        raise ValueError(f'there is no rule for the type {kind}')
    return NUMBERS[kind]


def c_parameter(name, kind):
    """A parameter of Rattle, as C declares it."""
    shape = REFERENCE.fullmatch(kind)
    if not shape:
        return f'{c_number(kind)} {name}'
    const = '' if shape['mut'] else 'const '
    target = const + c_number(shape['element'] or shape['one'])
    if shape['one']:
        return f'{target} *{name}'
    if shape['count']:
        return f'{target} {name}[{shape["count"]}]'
    return f'{target} *{name}, size_t {name}_len'


def in_c(name, parameters, result):
    """An exported function, as C declares it."""
    inside = ', '.join(c_parameter(*parameter) for parameter in parameters) or 'void'
    mark = f'{MUST_CHECK} ' if result == 'u32' and name not in NEVER_REFUSES else ''
    return f'{mark}{c_number(result) if result else "void"} {name}({inside})'


def is_list(kind):
    """Whether a parameter is a list, which crosses as a pointer and a length."""
    shape = REFERENCE.fullmatch(kind)
    return bool(shape and shape['element'] and not shape['count'])


def rust_parameter(name, kind):
    """A parameter of Rattle, as Rust declares it."""
    if not is_list(kind):
        return f'{name}: {kind}'
    shape = REFERENCE.fullmatch(kind)
    return f'{name}: *{"mut" if shape["mut"] else "const"} {shape["element"]}, {name}_len: usize'


def in_rust(name, parameters, result):
    """An exported function, as Rust declares it."""
    inside = ', '.join(rust_parameter(*parameter) for parameter in parameters)
    safe = '' if any(is_list(kind) for _, kind in parameters) else 'safe '
    return f'pub {safe}fn {name}({inside}){f" -> {result}" if result else ""}'


def exported():
    """name -> (name, parameters, result), of the functions that the sources export."""
    found = {}
    for path in sorted(SOURCES.rglob('*.rt')):
        text = re.sub(r'//[^\n]*', '', path.read_text())
        if text.count('no_mangle') != len(EXPORT.findall(text)):
            raise ValueError(f'{path}: an exported function is not understood')
        for export in EXPORT.finditer(text):
            pairs = [p.split(':', 1) for p in export['parameters'].split(',') if p.strip()]
            parameters = [(name.strip(), ' '.join(kind.split())) for name, kind in pairs]
            found[export['name']] = (export['name'], parameters, export['result'])
    return found


def normal(text):
    """A declaration with no space but between words, and no comma before a closing bracket."""
    return re.sub(r'\s*([(),*&:;\[\]]|->)\s*', r'\1', ' '.join(text.split())).replace(',)', ')')


def declared():
    """name -> declaration, of the functions of the header."""
    text = re.sub(r'/\*.*?\*/', ' ', HEADER.read_text(), flags=re.S)
    text = re.sub(r'(?m)^\s*#.*$', '', text.replace('\\\n', ' ')).replace('extern "C" {', '').replace('}', '')
    found = {}
    for declaration in filter(None, (d.strip() for d in text.split(';'))):
        name = re.search(r'(\w+)\s*\(', declaration)
        if not name:
            raise ValueError(f'{HEADER}: not a declaration of a function: {declaration}')
        if name[1] in found:
            raise ValueError(f'{HEADER}: {name[1]} is declared twice')
        found[name[1]] = declaration
    return found


def declared_in_rust():
    """name -> declaration, of the functions of the Rust package's list."""
    text = re.sub(r'//[^\n]*', '', WRAPPER.read_text())
    found = {match[1]: match[0].rstrip(';') for match in RUST.finditer(text)}
    if len(found) != len(re.findall(r'\bfn\b', text)):
        raise ValueError(f'{WRAPPER}: a declaration is not understood, or stands twice')
    return found


def one(pattern, path):
    """What the pattern's groups are in a file, where it stands once."""
    found = re.findall(pattern, pathlib.Path(path).read_text())
    if len(found) != 1:
        raise ValueError(f'{path}: {len(found)} lines are like {pattern}')
    return found[0]


def versions():
    """Where the version is said otherwise than by the header's three numbers."""
    version = '.'.join(one(rf'(?m)^#define TOGASIPE_VERSION_{part} (\d+)$', HEADER) for part in ('MAJOR', 'MINOR', 'PATCH'))
    landed = re.search(r'(?m)^## (\d+\.\d+\.\d+)\b', pathlib.Path('CHANGELOG.md').read_text())
    others = {'its text': one(r'(?m)^#define TOGASIPE_VERSION_TEXT "(.*)"$', HEADER),
              'the crate': '.'.join(one(r'(?m)^version = release (\d+) (\d+) (\d+)$', SOURCES.parent / 'specs' / 'Version.antt')),
              'wrapper/Cargo.toml': one(r'(?m)^version = "(.*)"$', 'wrapper/Cargo.toml'),
              'CHANGELOG.md': landed[1] if landed else 'not there'}
    for place, other in others.items():
        if other != version:
            yield f'the version is {version}, and {other} in {place}'


def limits():
    """Where the fingerprint's limit is said otherwise than in its crate."""
    limit = one(r'(?m)^pub const LIMIT: usize = (\d+);$', 'crates/fingerprint/src/lib.rt')
    for path, pattern in ((HEADER, r'(?m)^#define TOGASIPE_FINGERPRINT_LIMIT (\d+)$'),
                          ('wrapper/src/print.rs', r'(?m)^pub const MOST_WORDS: usize = (\d+);$')):
        if one(pattern, path) != limit:
            yield f'the limit of the fingerprint is {one(pattern, path)} in {path}, and {limit} in its crate'


def symbols(archive):
    """The global symbols that the archive defines."""
    listed = subprocess.run(['nm', '-g', '--defined-only', archive], check=True, capture_output=True, text=True).stdout
    return set(re.findall(r'(?m)^[0-9a-f]+ [A-Z] (\S+)$', listed))


def differences(archive):
    header, sources = declared(), exported()
    for where, found, spell in (('', header, in_c), (f'{WRAPPER}: ', declared_in_rust(), in_rust)):
        for name in sorted(sources.keys() - found.keys()):
            yield f'{where}{name} is exported and not declared; it would be: {spell(*sources[name])};'
        for name in sorted(found.keys() - sources.keys()):
            yield f'{where}{name} is declared and not exported'
        for name in sorted(found.keys() & sources.keys()):
            wanted = spell(*sources[name])
            if normal(found[name]) != normal(wanted):
                yield f'{where}{name} is declared as {" ".join(found[name].split())} and exported as {wanted}'
    yield from versions()
    yield from limits()
    if archive:
        defined = symbols(archive)
        for name in sorted(defined - header.keys()):
            yield f'{name} is in the archive and not declared'
        for name in sorted(header.keys() - defined):
            yield f'{name} is declared and not in the archive'
    program = '\n'.join(path.read_text() for path in sorted(PROGRAM.glob('*.c')))
    called = set(re.findall(r'\b(togasipe_\w+)\s*\(', program))
    for name in sorted(header.keys() - called):
        yield f'{name} is declared and never called by the program of {PROGRAM}'


def main():
    archive = sys.argv[1] if len(sys.argv) > 1 else None
    left_out = ''
    if not archive or not pathlib.Path(archive).exists() or not shutil.which('nm'):
        archive, left_out = None, ' (the archive was not compared: no archive, or no nm)'
    try:
        found = list(differences(archive))
        count = len(declared())
    except ValueError as fault:
        found, count = [str(fault)], 0
    for difference in found:
        print(f'header: {difference}')
    print(f'header: {count} calls, {len(found)} differences{left_out}')
    return 1 if found else 0


sys.exit(main())
