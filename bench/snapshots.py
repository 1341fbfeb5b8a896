#!/usr/bin/env python3
"""Times snapshots through the built program: a node is saved, and loaded under another origin.

usage: snapshots.py [--series SERIES] [--minutes MINUTES]

Each of SERIES meters (1,000 by default) takes a reading in each of MINUTES minutes (1,000 by default), each of which is
a cell. Then the node is saved, and then loaded as another node. A script keeps the bytes of a snapshot in memory.
Prints cells a second, how much memory each step takes on top of what the one before it left, and how long `sha256sum`
takes for as many bytes.
"""

import argparse
import pathlib
import subprocess
import tempfile

from store import TOP, best, key, writes

# The bytes of a snapshot besides its cells, and of a cell besides its key text.
HEAD_AND_DIGEST = 57
FIELDS = 93


def length(series, minutes):
    """How many bytes the snapshot has."""
    return HEAD_AND_DIGEST + minutes * sum(FIELDS + len(f"{key(one)} v") for one in range(series))


def digesting(folder, size):
    """The best time of a digest of this many bytes."""
    with open(folder / "bytes", "wb") as file:
        file.truncate(size)
    return best(["sha256sum"], folder / "bytes", folder / "nothing")[0]


def report(what, cells, seconds, memory):
    print(f"{what}: {cells / seconds:,.0f} cells a second in {seconds:.2f} s, {memory:,.0f} MB more")


def timed(folder, name, parts):
    """The best time of a script of these parts, and its peak memory."""
    script = folder / name
    with open(script, "w") as file:
        for part in parts:
            file.writelines(part)
    return best([str(TOP / "rr")], script, folder / "nothing")


def main():
    parser = argparse.ArgumentParser(description=__doc__.splitlines()[0])
    parser.add_argument("--series", type=int, default=1_000)
    parser.add_argument("--minutes", type=int, default=1_000)
    words = parser.parse_args()
    cells = words.series * words.minutes
    size = length(words.series, words.minutes)
    subprocess.run([str(TOP / "rr")], stdin=subprocess.DEVNULL, check=True)
    written = list(writes(words.series, words.minutes))
    with tempfile.TemporaryDirectory() as room:
        folder = pathlib.Path(room)
        writing, before = timed(folder, "writing.rr", [written])
        saving, held = timed(folder, "saving.rr", [written, ["save s a\n"]])
        loading, both = timed(folder, "loading.rr", [written, ["save s a\n", "load s b 2\n"]])
        digest = digesting(folder, size)
    report("saved", cells, saving - writing, held - before)
    report("loaded", cells, loading - saving, both - held)
    print(f"sha256sum of {size:,} bytes: {digest:.2f} s")


if __name__ == "__main__":
    main()
