#!/usr/bin/env python3
"""Times pages through the built program: made from a replica's cells, and delivered to another.

usage: pages.py [--series SERIES] [--minutes MINUTES]

Each of SERIES meters (1,000 by default) takes a reading in each of MINUTES minutes (1,000 by default), each of which is
a cell. Then all cells are put into pages of 256, kept side by side, and then all pages are delivered to an empty node.
Prints pages and cells a second, and how much memory a page takes.
"""

import argparse
import pathlib
import subprocess
import tempfile

from store import TOP, best, writes

# The most cells of a page.
CELLS = 256


def pages(cells):
    """The name of each page, and the index of its first cell."""
    return [(f"p{first // CELLS}", first) for first in range(0, cells, CELLS)]


def timed(folder, name, parts):
    """The best time of a script of these parts, and its peak memory."""
    script = folder / name
    with open(script, "w") as file:
        for part in parts:
            file.writelines(part)
    return best([str(TOP / "rr")], script, folder / "nothing")


def report(what, seconds, count, cells):
    print(f"{what}: {count / seconds:,.0f} pages and {cells / seconds:,.0f} cells a second")


def main():
    parser = argparse.ArgumentParser(description=__doc__.splitlines()[0])
    parser.add_argument("--series", type=int, default=1_000)
    parser.add_argument("--minutes", type=int, default=1_000)
    words = parser.parse_args()
    cells = words.series * words.minutes
    subprocess.run([str(TOP / "rr")], stdin=subprocess.DEVNULL, check=True)
    written = list(writes(words.series, words.minutes))
    made = [f"page {name} a {first} {CELLS}\n" for name, first in pages(cells)]
    delivered = ["node b 2\n", *(f"deliver {name} b\n" for name, _ in pages(cells))]
    with tempfile.TemporaryDirectory() as room:
        folder = pathlib.Path(room)
        writing, before = timed(folder, "writing.rr", [written])
        making, held = timed(folder, "making.rr", [written, made])
        delivering, _ = timed(folder, "delivering.rr", [written, made, delivered])
    report("made and encoded", making - writing, len(made), cells)
    report("decoded and joined", delivering - making, len(made), cells)
    print(f"a page takes {(held - before) * 1024 / len(made):.1f} KiB of memory")


if __name__ == "__main__":
    main()
