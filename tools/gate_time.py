#!/usr/bin/env python3
"""Runs the gate and writes its cost, crate by crate, in seconds of processor time, to docs/GATE.md.

Takes the commit that is checked out, in a fresh clone; what the gate prints goes to the log file, if one is given. What
an earlier gate proved on this machine isn't reused, except with --keep, which also keeps what passes for the next gate:
the times are those of a whole gate only if nothing was kept before. Times are read from /proc twice a second, so up to
half a second of each command is missed.

Processor time isn't a fixed measure: a processor is slower while its neighbours work, and on a virtual machine these
may be other people's. So a fixed piece of work is timed now and then, and its shortest, median and longest times are
printed beside the table, with the minutes that the gate would have taken if that piece had always taken what it took in
the fastest measurement so far.

What the page says from its second heading on is written by hand, and is kept.
"""

import argparse
import collections
import datetime
import itertools
import os
import pathlib
import statistics
import subprocess
import sys
import tempfile
import time

from crates import TOP, listed

PARTS = ("proof", "tests", "edits")

TICKS = os.sysconf("SC_CLK_TCK")

# Seconds between readings of the times.
INTERVAL = 0.5

# Readings between timings of the fixed piece of work.
BETWEEN = 60

# The median of the fixed piece of work, in seconds, in the fastest measurement so far, which was of 140 minutes.
FASTEST = 0.22


def fixed_work():
    """Seconds of processor time that a fixed piece of work takes now."""
    began = time.process_time()
    last = {}
    for number in range(2_000_000):
        last[number * number & 0xFFFF] = number
    return time.process_time() - began


def part_of(process):
    """What a process works on: a crate, and its proof, its tests or its must-fail edits."""
    words = (process / "cmdline").read_text(errors="replace").split("\0")
    if "--crate-name" not in words:
        return "others", "proof"
    name = words[words.index("--crate-name") + 1]
    if "rt-edit-" in os.readlink(process / "cwd"):
        return name, "edits"
    return name, "tests" if "--test" in words else "proof"


class Times:
    """The processor time of each process of a session, and what it worked on."""

    def __init__(self, session):
        self.session = session
        self.parts = {}
        self.ticks = {}

    def read(self):
        for process in pathlib.Path("/proc").glob("[0-9]*"):
            try:
                # After the name, which may have spaces: state, parent, group, session, ..
                fields = (process / "stat").read_text().rpartition(")")[2].split()
                if int(fields[3]) == self.session:
                    # A later process may get the same id, but it began at another time.
                    begun = process.name, fields[19]
                    self.ticks[begun] = int(fields[11]) + int(fields[12])
                    if begun not in self.parts:
                        self.parts[begun] = part_of(process)
            except (OSError, IndexError):
                # It has ended.
                continue

    def total(self):
        return sum(self.ticks.values()) / TICKS

    def seconds(self):
        sums = collections.Counter()
        for process, ticks in self.ticks.items():
            sums[self.parts.get(process, ("others", "proof"))] += ticks / TICKS
        return sums


def gate(keeps):
    """The gate's command, from scratch if it keeps nothing; some toolchains reuse proofs unless told otherwise."""
    if keeps:
        return ["rt", "ci"]
    told = subprocess.run(["rt", "help"], capture_output=True, text=True)
    return ["rt", "ci", *(["--anew"] if "--anew" in told.stdout + told.stderr else [])]


def row(cells):
    return "| " + " | ".join(cells) + " |\n"


def table(names, sums):
    """The table of the seconds of each crate and of all."""
    rows = [row(["Crate", "Proof", "Tests", "Edits", "In all"]), row(["---", "---:", "---:", "---:", "---:"])]
    for name in [*names, "others"]:
        times = [sums[name, part] for part in PARTS]
        rows.append(row([f"`{name}`" if name != "others" else name] + [f"{it:.0f}" for it in [*times, sum(times)]]))
    times = [sum(sums[name, part] for name in [*names, "others"]) for part in PARTS]
    rows.append(row(["all"] + [f"{it:.0f}" for it in [*times, sum(times)]]))
    return "".join(rows)


def by_hand(page):
    """What a page says from its second heading on."""
    _, heading, rest = page.partition("\n## ")
    return heading + rest


PAGE = """\
# What the gate cost

Seconds of processor time of `rt ci`, from nothing, as `tools/gate_time.py` wrote them on {day}: {minutes:.0f} minutes of
processor time in {taken:.0f} on {processors} processors, with {jobs} checks beside each other, of {commit}. A fixed
piece of work, timed now and then, took from {least:.2f} to {most:.2f} seconds, in the median {median:.2f}: how much
slower the processors were while others used them. Each half minute scaled to {fastest:.2f}, the median of the fastest
measurement so far, these are {scaled:.0f} minutes. The row `others` is what names no crate.

{table}
The gate's last line: {last}.
"""


def main():
    parser = argparse.ArgumentParser(description=__doc__, formatter_class=argparse.RawDescriptionHelpFormatter)
    parser.add_argument("log", nargs="?", help="the file for what the gate prints")
    parser.add_argument("--keep", action="store_true", help="take and keep what passes on this machine")
    args = parser.parse_args()
    with tempfile.TemporaryDirectory(prefix="rr-gate-") as room:
        clone = pathlib.Path(room) / "rr"
        subprocess.run(["git", "clone", "-q", str(TOP), str(clone)], check=True)
        said = pathlib.Path(args.log or f"{room}/said").resolve()
        began = time.monotonic()
        with said.open("w") as output:
            run = subprocess.Popen(gate(args.keep), cwd=clone, stdout=output, stderr=subprocess.STDOUT, start_new_session=True)
            times = Times(run.pid)
            works = [fixed_work()]
            before = scaled = 0
            for look in itertools.count(1):
                ended = run.poll() is not None
                times.read()
                if ended or look % BETWEEN == 0:
                    works.append(fixed_work())
                    scaled += (times.total() - before) * FASTEST / works[-1]
                    before = times.total()
                if ended:
                    break
                time.sleep(INTERVAL)
        sums = times.seconds()
        commit = subprocess.run(["git", "rev-parse", "--short", "HEAD"], cwd=clone, capture_output=True, text=True)
        page = PAGE.format(
            day=datetime.date.today(),
            minutes=sum(sums.values()) / 60,
            taken=(time.monotonic() - began) / 60,
            processors=len(os.sched_getaffinity(0)),
            jobs=os.environ.get("RT_JOBS", "several"),
            fastest=FASTEST,
            scaled=scaled / 60,
            commit=commit.stdout.strip(),
            least=min(works),
            median=statistics.median(works),
            most=max(works),
            table=table(listed(clone), sums),
            last=said.read_text().splitlines()[-1],
        )
        written = TOP / "docs/GATE.md"
        written.write_text(page + by_hand(written.read_text()))
        print(page, end="")
    return run.returncode


if __name__ == "__main__":
    sys.exit(main())
