#!/usr/bin/env python3
"""Build the oracle: the given Rust as a library that the comparison calls.

    python3 tools/oracle/build.py SOURCE OUT

SOURCE is the folder of the given crate (it has src/). OUT receives liboracle.rlib, the stubs' libraries beside it in
OUT/stubs, and the compiled text in OUT/build.

The given files are read at build time and compiled as they stand, and none of their text is kept in the repository.
Ours are: two stand-ins for files that are out of scope or were not given, a probe below each file whose private
functions are compared, the crate's root with its plain interface, and stubs for the crates that are not at hand.
"""
import pathlib
import shutil
import subprocess
import sys

HERE = pathlib.Path(__file__).resolve().parent

# Compiled as they stand.
GIVEN = [
    "aes/mod.rs", "aes/engine.rs", "aes/frobenius.rs",
    "clmul/mod.rs", "clmul/basis.rs", "clmul/gf64.rs", "clmul/portable.rs", "clmul/sqrt.rs",
    "cantor.rs", "gf2.rs", "linear.rs", "poly64.rs", "tables.rs", "tower.rs",
]

# A module of ours that is appended to a given file, so that it can hand out what is private there.
PROBES = {"clmul/portable.rs": "portable.rs"}

# Files of ours in the place of one that is out of scope (registers) or was not given.
STAND_INS = {"aes/packed.rs": "packed.rs", "clmul/powers.rs": "powers.rs", "root.rs": "root.rs", "api.rs": "api.rs"}

# The stub crates, each after those that it needs.
STUBS = {"serde": ["serde_derive"], "rand": [], "num_bigint": [], "p3_maybe_rayon": [], "p3_field": ["num_bigint"]}


def rustc(*arguments):
    """One call of the compiler, optimised, with the given code's warnings left out."""
    options = ["--edition", "2024", "-C", "opt-level=3", "--cap-lints", "allow"]
    subprocess.run(["rustc", *options, *map(str, arguments)], check=True)


def externs(names, folder):
    """The options that name the stub libraries."""
    found = ["-L", folder]
    for name in names:
        suffix = "so" if name == "serde_derive" else "rlib"
        found += ["--extern", f"{name}={folder}/lib{name}.{suffix}"]
    return found


def lay_out(source, build):
    """Put the given files and ours into one folder, as the modules of one crate."""
    shutil.rmtree(build, ignore_errors=True)
    for name in GIVEN:
        target = build / name
        target.parent.mkdir(parents=True, exist_ok=True)
        text = (source / "src" / name).read_bytes()
        if name in PROBES:
            text += (HERE / "probes" / PROBES[name]).read_bytes()
        target.write_bytes(text)
    for name, ours in STAND_INS.items():
        shutil.copyfile(HERE / ours, build / name)


def build_stubs(folder):
    """Compile the stubs of the crates that the given files import."""
    folder.mkdir(parents=True, exist_ok=True)
    derive = HERE / "stubs" / "serde_derive.rs"
    rustc("--crate-type", "proc-macro", "--crate-name", "serde_derive", derive, "--out-dir", folder)
    for name, needs in STUBS.items():
        stub = HERE / "stubs" / f"{name}.rs"
        rustc("--crate-type", "lib", "--crate-name", name, stub, "--out-dir", folder, *externs(needs, folder))


def main():
    if len(sys.argv) != 3:
        sys.exit(__doc__)
    source, out = pathlib.Path(sys.argv[1]), pathlib.Path(sys.argv[2])
    lay_out(source, out / "build")
    build_stubs(out / "stubs")
    rustc("--crate-type", "lib", "--crate-name", "oracle", "-C", "codegen-units=1", out / "build" / "root.rs",
          "--out-dir", out, *externs(STUBS, out / "stubs"))


if __name__ == "__main__":
    main()
