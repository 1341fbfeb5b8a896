#!/usr/bin/env python3
"""Reports the names in code that have a word which the glossary gives up for another: one word stands for one thing.

A name is compared part by part: `front` is found in `front_of` and in `IsFront`. A word may stay in the folders and
files that the table names, since there it is the right word for something else. The exit status is 1 if a name is
found.
"""

import re
import sys

from crates import TOP

# Each word that is given up, the words that replace it, and where it may stay.
WORDS = {
    "alarm": ("schema_differs", ()),
    "board": ("metrics", ()),
    "clerk": ("handler", ()),
    "door": ("acceptor", ()),
    "fittings": ("", ()),
    "front": ("prefix", ()),
    "patience": ("timeout, waiting", ()),
    "posts": ("queues", ()),
    "reading": ("sample; in definitions, what a text is read as", ("specs/", "proofs/", "crates/rr_codec/src/laws.rt", "crates/rr_line/src/", "crates/rr_process/src/report.rt")),
    "said": ("parsed, reported", ()),
    "seat": (
        "handle of a reader; a seat has a reader, its visits and its gate",
        ("crates/rr_node/", "crates/rr_server/", "crates/rr_cases/", "crates/rr_tests/", "crates/rr_server_tests/"),
    ),
    "slip": ("ticket", ()),
    "turn": ("interval, sampling, step", ("crates/rr_web/src/script.rt",)),
    "wish": ("save_requested", ()),
}

# Names and clauses of the standard library that have such a word.
STANDARD = re.compile(r"\b(pop_front|push_front|move_to_front|split_at\.ensures\.front)\b|\.front\(\)")

NAME = re.compile(r"[A-Za-z_][A-Za-z0-9_']*")

PART = re.compile(r"[A-Z]?[a-z0-9']+|[A-Z]+")


def code_of(line, suffix):
    """A line without its comment, its texts and the standard library's names."""
    line = STANDARD.sub("", line)
    line = re.sub(r'"(?:[^"\\]|\\.)*"', '""', line)
    return re.sub(r"//.*" if suffix == ".rt" else r"--( |$).*", "", line)


def parts_of(name):
    """The words that a name is made of, each in lower case and in the singular as well."""
    parts = {part.lower() for part in PART.findall(name)}
    return parts | {part.removesuffix("s") for part in parts}


def found():
    """Each name with a word that is given up: the file, the line number, the name and the word."""
    for path in sorted((TOP / "crates").rglob("*")):
        if path.suffix not in (".rt", ".antt") or "out" in path.parts:
            continue
        place = str(path.relative_to(TOP))
        for number, line in enumerate(path.read_text().splitlines(), 1):
            if "specs" in line:
                # The names there are those of a definition's file.
                continue
            for name in NAME.findall(code_of(line, path.suffix)):
                for word in parts_of(name.replace("in_turn", "").replace("InTurn", "")) & WORDS.keys():
                    if not any(stays in place for stays in WORDS[word][1]):
                        yield place, number, name, word


def main():
    status = 0
    for place, number, name, word in found():
        instead = WORDS[word][0]
        print(f"{place}:{number}: {name}: instead of `{word}`: {instead}")
        status = 1
    return status


if __name__ == "__main__":
    sys.exit(main())
