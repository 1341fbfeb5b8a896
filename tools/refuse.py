#!/usr/bin/env python3
"""Refuses each growth of the built program in turn, and compares each run with one that is refused nothing.

usage: refuse.py PROGRAM [WHAT ..]

PROGRAM is the built program, crates/rr_tool/out/rr_tool. WHAT is `calls`, `scripts`, `lines` or `node`; all of them by
default. Scripts and lines are those of the cases, and a node serves one round, or without end (refuse_node.py). Each
growth is refused alone, and then with all after it, by a library that is loaded before the C library (refuse.c).

A run has to end as without a refusal, or with status 3, `rr: out of memory` as the only line on standard error and a
prefix of the output, which is empty for a script. The calls are those of the cases: their program,
crates/rr_cases/out/rr_cases, asks the library itself to refuse each growth of a call, compares what stands then, and
has to end with status 0.

Prints how many growths were refused, and ends with status 1 if a run ended in another way or nothing was refused. It
takes about a quarter of an hour on four cores.
"""

import argparse
import collections
import concurrent.futures
import os
import pathlib
import re
import struct
import subprocess
import sys
import tempfile
import typing

import refuse_node
from crates import TOP

CASES = TOP / "crates/rr_cases"
DATA = CASES / "data"

MEMORY = (3, b"rr: out of memory\n")

KINDS = {"calls", "scripts", "lines", "node"}

# Bytes that are shown of a wrong output.
MOST_PRINTED = 200

# Seconds that a run may take, and that the program of the cases may.
LONGEST = 20
LONGEST_OF_CASES = 1200


class Refuser:
    """The library that refuses growths, built in a folder, and the environments of runs with it."""

    def __init__(self, folder):
        self.library = folder / "refuse.so"
        source = TOP / "tools/refuse.c"
        subprocess.run(["cc", "-O2", "-Wall", "-fPIC", "-shared", "-o", self.library, source], check=True)

    def environment(self, log, nth, goes_on):
        """The environment of a run whose nth growth is refused, and those after it if it goes on; for 0, none is."""
        words = {"PATH": os.environ["PATH"], "LD_PRELOAD": str(self.library), "REFUSE_LOG": str(log)}
        if nth:
            words["REFUSE_NTH"] = str(nth)
        if goes_on:
            words["REFUSE_ON"] = "1"
        return words


def growths(log):
    """How many growths a run made, and how many of them were refused."""
    return struct.unpack("<QQ", pathlib.Path(log).read_bytes())


class Case(typing.NamedTuple):
    """The words after `rr` and the input of a run, and whether it may write a prefix of its output."""

    name: str
    words: list
    given: bytes
    has_fronts: bool


class Ran(typing.NamedTuple):
    """How a run ended, how many growths it made, and how many of these were refused."""

    ended: tuple
    made: int
    refused: int


def run(program, refuser, case, nth=0, goes_on=False):
    """Runs a case, with a growth refused. The input is a file, so that each run reads it in the same pieces."""
    with tempfile.NamedTemporaryFile() as log, tempfile.TemporaryFile() as given:
        given.write(case.given)
        given.seek(0)
        try:
            it = subprocess.run(
                [program, *case.words],
                stdin=given,
                capture_output=True,
                env=refuser.environment(log.name, nth, goes_on),
                timeout=LONGEST,
            )
        except subprocess.TimeoutExpired:
            sys.exit(f"refuse.py: {case.name} didn't end, growth {nth} refused")
        return Ran((it.returncode, it.stderr, it.stdout), *growths(log.name))


def is_right(case, whole, ended):
    """Whether a run ended in an allowed way."""
    if ended == whole:
        return True
    *how, output = ended
    return tuple(how) == MEMORY and (output == b"" or case.has_fronts and whole[2].startswith(output))


def try_case(program, refuser, case, goes_on):
    """Refuses each growth of a case: how many were refused, how many runs ended as without, and the wrong ones."""
    whole = run(program, refuser, case)
    refused, alike, wrong = 0, 0, []
    for nth in range(1, whole.made + 1):
        ran = run(program, refuser, case, nth, goes_on)
        refused += ran.refused
        alike += ran.ended == whole.ended
        if not ran.refused or not is_right(case, whole.ended, ran.ended):
            status, said, output = ran.ended
            growth = f"growth {nth}{' and on' if goes_on else ''}"
            wrong.append(f"{case.name}, {growth}: status {status}, said {said}, printed {output[:MOST_PRINTED]}")
    return refused, alike, wrong


def scripts():
    """The scripts of the cases, but for those that are run more than once."""
    for file in sorted(DATA.rglob("*.rr")):
        text = file.read_bytes()
        if b"{" not in text:
            yield Case(file.name, ["sim"], text, False)


def lines():
    """The lines of those cases whose streams have no limits."""
    for file in sorted(DATA.rglob("*.lines")):
        text = file.read_bytes()
        first, _, rest = text.partition(b"\n")
        if b";" in first or b"{" in first or b"\n+" in b"\n" + rest:
            continue
        words = first.decode().split()[1:] if first.startswith(b"# check-lines") else ["check-lines"]
        yield Case(file.name, words, text, True)


def try_cases(program, refuser, what, cases):
    """Refuses each growth of some cases, and prints the outcome. Returns whether all is well."""
    total = collections.Counter()
    wrong = []
    with concurrent.futures.ThreadPoolExecutor(os.cpu_count()) as pool:
        waiting = [
            pool.submit(try_case, program, refuser, case, goes_on) for case in cases for goes_on in (False, True)
        ]
        for it in concurrent.futures.as_completed(waiting):
            refused, alike, faults = it.result()
            total.update(cases=1, refused=refused, alike=alike)
            wrong += faults
    for line in wrong:
        print(line)
    print(f"{what}: {total['refused']} growths refused, {total['alike']} runs ended as without, {len(wrong)} wrong", flush=True)
    return total["refused"] > 0 and not wrong


def try_calls(refuser, folder):
    """Runs the program of the cases, which refuses each growth of their calls. Returns whether all is well."""
    program = CASES / "out/rr_cases"
    if not program.exists():
        print(f"calls: there is no {program}; `rt run` in {CASES} builds it")
        return False
    try:
        ran = subprocess.run(
            [program],
            cwd=CASES,
            capture_output=True,
            text=True,
            env=refuser.environment(folder / "log", 0, False),
            timeout=LONGEST_OF_CASES,
        )
    except subprocess.TimeoutExpired:
        print("calls: the program of the cases didn't end")
        return False
    print(ran.stdout, ran.stderr, sep="", end="")
    said = re.search(r"(\d+) growths refused$", ran.stdout)
    refused = int(said[1]) if said else 0
    print(f"calls: {refused} growths refused, status {ran.returncode}", flush=True)
    return refused > 0 and ran.returncode == 0


def main():
    parser = argparse.ArgumentParser(description=__doc__, formatter_class=argparse.RawDescriptionHelpFormatter)
    parser.add_argument("program", type=pathlib.Path)
    parser.add_argument("what", nargs="*", help="calls, scripts, lines or node")
    words = parser.parse_args()
    what = set(words.what or KINDS)
    if not what <= KINDS:
        parser.error(f"unknown: {', '.join(sorted(what - KINDS))}")
    program = words.program.resolve()
    with tempfile.TemporaryDirectory() as name:
        folder = pathlib.Path(name)
        refuser = Refuser(folder)
        is_well = True
        if "calls" in what:
            is_well &= try_calls(refuser, folder)
        if "scripts" in what:
            is_well &= try_cases(program, refuser, "scripts", scripts())
        if "lines" in what:
            is_well &= try_cases(program, refuser, "lines", lines())
        if "node" in what:
            is_well &= refuse_node.try_node(program, refuser)
    sys.exit(0 if is_well else 1)


if __name__ == "__main__":
    main()
