#!/usr/bin/env python3
"""Lists the lemmas and definitions that nothing cites.

usage: dead.py

Looks for the names that files of specs/ and proofs/ define, except answers and invariants of functions, among the words
of all source files, outside comment lines. Prints a line FILE:LINE: NAME for each name that occurs only in its own
definition, and then ends with status 1.
"""

import collections
import re
import sys

from crates import TOP

# How a definition begins: with its kind, or, for a lemma, with its name and statement.
HEAD = re.compile(r"(?:(?:abbrev|unfoldable|opaque|record|data)\s+)?(?:pub\s+)?(?:record\s+|data\s+)?([^\s(){}:]+)\s*(?:[({].*?[)}]\s*)*:\s")

WORD = re.compile(r"[^\s(){}\[\],;.λ:`|]+")

# Files that the prover searches by the names of goals.
ANSWERS = {"Answers.antt", "Invariants.antt", "Proof.antt"}

NO_NAMES = {"use", "mod", "pub", "module", "where", "let", "in"}


def source_files():
    for ending in ("rt", "antt"):
        yield from (it for it in TOP.glob(f"crates/*/**/*.{ending}") if "out" not in it.relative_to(TOP).parts)


def lines_of(path):
    """The lines of a file, with comment lines emptied."""
    return ["" if line.lstrip().startswith(("--", "//")) else line for line in path.read_text().splitlines()]


def main():
    texts = {path: lines_of(path) for path in source_files()}
    cited = collections.Counter()
    own = collections.Counter()
    defined = []
    for path, lines in texts.items():
        for number, line in enumerate(lines, 1):
            words = WORD.findall(line)
            cited.update(words)
            head = HEAD.match(line) if path.suffix == ".antt" and path.name not in ANSWERS else None
            if head and head.group(1) not in NO_NAMES:
                defined.append((path, number, head.group(1)))
    names = {(path, name) for path, _, name in defined}
    for path, lines in texts.items():
        for line in lines:
            words = WORD.findall(line)
            first = next((word for word in words if word not in ("pub", "abbrev", "unfoldable", "record", "data")), None)
            if (path, first) in names and not line.startswith(" "):
                own[first] += words.count(first)
    dead = [(path, number, name) for path, number, name in defined if cited[name] <= own[name]]
    for path, number, name in dead:
        print(f"{path.relative_to(TOP)}:{number}: {name}")
    sys.exit(1 if dead else 0)


if __name__ == "__main__":
    main()
