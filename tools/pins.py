#!/usr/bin/env python3
"""Prints the constants that definitions or contracts cite but no proof pins.

usage: pins.py

A definition that cites a constant of the code changes its meaning with it, while what is proved about it stays proved.
So each such constant has beside it `const _: () = prove!(NAME == NUMBER);`, with the number in digits, or such a line
for each number of a struct. Prints a line FILE: NAME for each constant that lacks it, and then ends with status 1.
"""

import re
import sys

from crates import TOP

# The module of a source file's constants, and those that a file cites.
CITED = re.compile(r"Rattle\.(\w+)\.specs\.declared\.([\w.]+)\.TheConstants\.\{([^}]*)\}")

# The pin of a constant, or of a number in it.
PIN = re.compile(r"const _: \(\) = prove!\((\w+)[\w.]* == -?[\d_]+\);")


def citing():
    """The files with definitions and contracts."""
    yield from TOP.glob("crates/*/specs/**/*.antt")
    yield from TOP.glob("crates/*/src/**/*.rt")


def source_of(crate, module):
    """The source file of a module."""
    path = TOP / "crates" / crate / "src" / module.replace(".", "/")
    return next(it for it in (path.with_suffix(".rt"), path / "mod.rt") if it.exists())


def cited():
    """Each constant that is cited, with the file that has it."""
    for file in citing():
        for crate, module, names in CITED.findall(file.read_text()):
            for name in re.findall(r"\w+", names):
                yield source_of(crate, module), name


def main():
    found = sorted(set(cited()))
    lacking = [(file, name) for file, name in found if name not in PIN.findall(file.read_text())]
    for file, name in lacking:
        print(f"{file.relative_to(TOP)}: {name}")
    if not found:
        sys.exit("pins.py: no definition cites a constant")
    sys.exit(1 if lacking else 0)


if __name__ == "__main__":
    main()
