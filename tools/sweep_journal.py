#!/usr/bin/env python3
"""Cuts a journal at each of its bytes, changes each of them, and compares what the built program reads from each result
with a model that shares no code with it (journal_model.py).

usage: sweep_journal.py PROGRAM [SEED [SAMPLES]]

PROGRAM is the built program, crates/rr_tool/out/rr_tool. The journal is that of a node that took SAMPLES samples, 1,000
by default, of several series, archives and origins, with cells of its peers in between, and was restarted a few times.
It has two files: the first is cut and changed alone, and with the second after it, and so is the second, after the
first. `rr journal cells DIR` has to print what the model does: the cells, with status 0, or the line that refuses the
directory, with status 1. Where a byte is changed and a node starts all the same, nothing may be lost but the last batch,
behind which no witness shows that it was synced.

Prints how many were tried, and ends with status 1 if one was read differently. With 1,000 samples there are about
230,000, each a run of the program.
"""

import concurrent.futures
import functools
import os
import pathlib
import random
import subprocess
import sys
import tempfile

import journal_life
import journal_model as model

# How many bytes a worker tries in a row, and how many wrong ones are printed at most.
PIECE = 500
MOST_PRINTED = 5

# Seconds that a run may take.
LONGEST = 60


def cut(data, at):
    return data[:at]


def changed(data, at):
    """The bytes with another one at a place, the same one in each run."""
    return data[:at] + bytes([data[at] ^ random.Random(at).randrange(1, 256)]) + data[at + 1 :]


WAYS = {"cut": cut, "changed": changed}


class Sweep:
    """The files of a directory, one of which is cut and changed."""

    def __init__(self, program, files, name):
        self.program = program
        self.files = files
        self.name = name

    @functools.cache
    def text(self, *counts):
        """What is printed if this many records of each file are read."""
        schema, readings = model.started(self.files)
        short = [reading._replace(records=reading.records[:count]) for reading, count in zip(readings, counts)]
        return model.csv_text(model.cells_of(schema, short))

    def wanted(self, files):
        """The status that the program has to end with, and what it has to print."""
        try:
            _, readings = model.started(files)
        except model.Refused as refused:
            return 1, str(refused).encode()
        return 0, self.text(*(len(reading.records) for reading in readings))

    def loses_more(self, files):
        """Whether a node that starts from changed files lacks more than the last batch of the unchanged ones."""
        try:
            _, readings = model.started(files)
        except model.Refused:
            return False
        return len(readings[-1].records) < self.before_the_last_batch

    @functools.cached_property
    def before_the_last_batch(self):
        """How many records of the last file come before its last witness."""
        _, readings = model.started(self.files)
        kinds = [record.kind for record in readings[-1].records]
        return len(kinds) - 1 - kinds[::-1].index(model.WITNESS + model.FIRST)

    def got(self, folder):
        words = [self.program, "journal", "cells", folder]
        ran = subprocess.run(words, capture_output=True, timeout=LONGEST, check=False)
        return ran.returncode, ran.stdout

    def try_piece(self, way, places):
        """The places whose change the program reads differently from the model."""
        wrong = []
        with tempfile.TemporaryDirectory() as made:
            folder = pathlib.Path(made)
            for name, data in self.files.items():
                (folder / name).write_bytes(data)
            for at in places:
                data = WAYS[way](self.files[self.name], at)
                (folder / self.name).write_bytes(data)
                files = {**self.files, self.name: data}
                if self.got(folder) != self.wanted(files) or (way == "changed" and self.loses_more(files)):
                    wrong.append(at)
        return wrong

    def run(self, pool):
        """How many journals were tried, and how many were read differently."""
        length = len(self.files[self.name])
        wrong = 0
        for way in WAYS:
            pieces = [range(at, min(at + PIECE, length)) for at in range(0, length, PIECE)]
            found = [at for piece in pool.map(self.try_piece, [way] * len(pieces), pieces) for at in piece]
            for at in found[:MOST_PRINTED]:
                where = f"{self.name} of {len(self.files)} files {way} at {at}"
                print(f"sweep_journal: {where} is read in another way", file=sys.stderr)
            wrong += len(found)
        return length * len(WAYS), wrong


def main():
    if not 2 <= len(sys.argv) <= 4:
        sys.exit(__doc__)
    program = pathlib.Path(sys.argv[1]).resolve()
    files = journal_life.journal(*journal_life.numbers(sys.argv[2:]))
    key = {model.KEY_NAME: files[model.KEY_NAME]}
    first, second = model.journals(files)
    sweeps = [
        Sweep(program, {**key, first: files[first]}, first),
        Sweep(program, files, first),
        Sweep(program, files, second),
    ]
    with concurrent.futures.ProcessPoolExecutor(len(os.sched_getaffinity(0))) as pool:
        counts = [sweep.run(pool) for sweep in sweeps]
    tried, wrong = map(sum, zip(*counts))
    print(f"{tried} journals were read, {wrong} in another way")
    return int(wrong != 0)


if __name__ == "__main__":
    sys.exit(main())
