#!/usr/bin/env python3
"""Counts the instructions and the allocations of the built program's work, with valgrind.

usage: instructions.py [PROGRAM] [--check | --write COMMIT]

Each figure is the difference of two runs, one with more pieces of the work than the other, 20,000 or of a node's lines
100,000, divided by that number, so the start of the program isn't in it. Two runs of one program take the same
instructions whatever else the machine does, unlike times; they say nothing about caches. Allocations are calls of the
allocator. Those of a line that a node takes aren't counted.

With --check, each figure is compared with the one in `instructions.txt`, and the status is 1 if any is more than a
twentieth above it. With --write the figures are written to that file, as those of COMMIT.
"""

import argparse
import itertools
import pathlib
import re
import subprocess
import sys
import tempfile

from meter_lines import lines
from node_lines import FIELDS, instructions_a_line
from store import START, TOP, key

# What the figures are compared with.
KEPT = TOP / "bench/instructions.txt"

# The fraction by which a figure may grow.
GROWTH = 0.05

# Samples of one field, each in a new row, of this many series.
SERIES = 1_000

# Pieces of work in the shorter run; the longer one has twice as many.
PIECES = 20_000


def samples(count):
    """Lines of one field and two tags, minute by minute."""
    for number in range(count):
        minute, one = divmod(number, SERIES)
        names = f"meter,site=s{one // 10},unit=u{one % 10}"
        yield f"{names} kwh={(one * 7919 + minute * 104_729) % 100_000}i {START + minute * 60}000000000\n"


def writes(count):
    """A script that writes the samples."""
    yield f"schema 60 1:{2 * PIECES // SERIES + 10}:0/1\nnode a 1\n"
    yield from (f"write a {line}" for line in samples(count))


def fetches(count):
    """A script of one series that fetches this many rows, 1,000 at a time."""
    yield "schema 60 1:1000:0/1\nnode a 1\n"
    for minute in range(1_000):
        yield f"write a {key(0)} v={minute}i {START + minute * 60}000000000\n"
    for _ in range(count // 1_000):
        yield f"fetch a AVERAGE 60 {START} {START + 60_000} {key(0)} v\n"


def held(count):
    """A script of a node that holds this many cells, and another that was loaded from its snapshot."""
    yield from writes(count)
    yield "save s a\nload s b 2\n"


def saves(count):
    """A script that saves this many cells, all of a node at a time."""
    yield from held(PIECES)
    yield "save s a\n" * (count // PIECES)


def loads(count):
    """A script that loads this many cells, all of a snapshot at a time."""
    yield from held(PIECES)
    yield from (f"load s c{number} {number + 3}\n" for number in range(count // PIECES))


def differences(count):
    """A script that lists the names of this many cells of a node and compares them with another's, with nothing new."""
    yield from held(PIECES)
    yield "delta p a b 0 256\n" * (count // PIECES)


def counted(words, given):
    """The number that a valgrind tool prints for a run."""
    tool = ["valgrind", *words]
    with open(given, "rb") as file:
        told = subprocess.run(tool, stdin=file, capture_output=True, check=True).stderr.decode()
    number = re.search(r"Collected : (\d+)|total heap usage: ([\d,]+) allocs", told)
    return int((number.group(1) or number.group(2)).replace(",", ""))


def figures(folder, program, words, work):
    """Instructions and allocations of a piece of work."""
    runs = []
    for count in (PIECES, 2 * PIECES):
        given = folder / "given"
        with open(given, "w") as file:
            file.writelines(work(count))
        command = [program, *words]
        runs.append((
            counted(["--tool=callgrind", f"--callgrind-out-file={folder}/out", *command], given),
            counted(command, given),
        ))
    return [(longer - shorter) / PIECES for shorter, longer in zip(*runs)]


def works():
    """Each piece of work: what it is, the arguments of the program, and its input."""
    meters = lambda count: (line + "\n" for line in itertools.islice(lines(count, SERIES), count))
    return (
        ("a written line of one field, in a new row", [], writes),
        ("a checked line of one field", ["check-lines"], samples),
        ("a checked line of three fields", ["check-lines"], meters),
        ("a fetched row", [], fetches),
        ("a saved cell", [], saves),
        ("a loaded cell", [], loads),
        ("a cell that is listed and compared, nothing new", [], differences),
    )


def measured(program):
    """What each piece of work is, with its instructions, and its allocations if they are counted."""
    with tempfile.TemporaryDirectory() as room:
        folder = pathlib.Path(room)
        for what, words, work in works():
            yield what, figures(folder, program, words, work)
        for fields in FIELDS:
            yield f"a line that a node takes, fields {fields}", [instructions_a_line(folder, program, fields=fields)]


def kept():
    """The kept figures, by what they are of."""
    rows = (line.split(": ") for line in KEPT.read_text().splitlines() if line and not line.startswith("#"))
    return {what: [float(it.split()[0].replace(",", "")) for it in told.split(", ")] for what, told in rows}


def grown(before, now):
    """Whether one of these figures, to a tenth, exceeds the kept one by more than it may."""
    return any(round(one, 1) > old * (1 + GROWTH) for old, one in zip(before, now, strict=True))


def told(what, found):
    """The line of a piece of work."""
    words = (f"{found[0]:,.0f} instructions", *(f"{it:.1f} allocations" for it in found[1:]))
    return f"{what}: {', '.join(words)}"


def built():
    """The program, built."""
    subprocess.run([TOP / "rr"], stdin=subprocess.DEVNULL, check=True)
    return str(TOP / "crates/rr_tool/out/rr_tool")


def main():
    parser = argparse.ArgumentParser(description=__doc__.splitlines()[0])
    parser.add_argument("program", nargs="?")
    parser.add_argument("--check", action="store_true")
    parser.add_argument("--write", metavar="COMMIT")
    words = parser.parse_args()
    before = kept() if words.check else {}
    rows, failed = [], False
    for what, found in measured(words.program or built()):
        rows.append(told(what, found))
        is_grown = words.check and grown(before[what], found)
        failed |= is_grown
        print(rows[-1], f"(before: {told(what, before[what]).partition(': ')[2]})" if is_grown else "", flush=True)
    if words.write:
        head = f"# As bench/instructions.py wrote them, of the program of {words.write}."
        KEPT.write_text("\n".join([head, *rows]) + "\n")
    sys.exit(failed)


if __name__ == "__main__":
    main()
