#!/usr/bin/env python3
"""Measures what a put costs as series and archives grow in number, and the memory of cells and series.

usage: puts.py [--program PROGRAM] [--beside COMMAND] [--most SERIES]

A put is a written line of a script, one field in a new row. A figure is the difference of two runs, the longer of which
writes twice as many minutes, divided by the puts that it has more, so neither the start nor new series are in it.
Prints instructions by callgrind, and the least processor time of four runs, for 1,000 series, ten times as many and so
on up to SERIES (1,000,000 by default), each with one archive and with eight. COMMAND reads the same script on standard
input, with one archive: a prototype to compare with. `librrd` is called in process, if it is installed, with a file for
each series, for up to 100,000 of them.
"""

import argparse
import os
import pathlib
import shlex
import subprocess
import tempfile

from instructions import counted
from samples import STEPS, line, second
from store import TOP

# Puts of the shorter run, unless there are more series: counted, and timed.
COUNTED = 20_000
TIMED = 500_000
TIMED_RUNS = 4

# The most files that are made for librrd.
MOST_FILES = 100_000

# Series and rows of the run that tells how large a cell is, and of those that tell how large a series is. The first of
# the latter has few rows, as many as a list has room for at first; the second has the minutes of a day, one of which is
# written.
CELL_SERIES = 1_000
CELL_ROWS = 1_000
MANY_SERIES = 1_000_000
FEW_ROWS = 4
DAY_SERIES = 100_000
DAY_ROWS = 1_440


def write_script(file, archives, rows, lines):
    """Writes a script of one node, with this many archives that each keep the time of this many rows of the first."""
    schema = " ".join(f"{steps}:{-(-rows // steps)}:0/1" for steps in STEPS[:archives])
    with open(file, "w") as script:
        script.write(f"schema 60 {schema}\nnode a 1\n")
        script.writelines(f"write a {line}" for line in lines)


def puts(series, minutes):
    """Lines, minute by minute, of meters that don't come in the order of their keys."""
    for minute in range(minutes):
        for number in range(series):
            yield line(number * 7_919 % series, minute)


def used(words, script):
    """Processor seconds of a command on a script, and its peak memory in bytes."""
    with open(script, "rb") as given:
        child = subprocess.Popen(words, stdin=given, stdout=subprocess.DEVNULL)
        _, status, usage = os.wait4(child.pid, 0)
    if status != 0:
        raise SystemExit(f"{words[0]} failed")
    return usage.ru_utime + usage.ru_stime, usage.ru_maxrss * 1024


def put_cost(folder, series, archives, least, cost, runs):
    """What `cost` of a script tells about a put, by the least of some runs; long and short ones take turns."""
    minutes = max(1, least // series)
    scripts = []
    for count in (minutes, 2 * minutes):
        scripts.append(folder / f"{count}.rr")
        write_script(scripts[-1], archives, 2 * minutes, puts(series, count))
    shorter, longer = map(min, zip(*([cost(script) for script in scripts] for _ in range(runs))))
    return (longer - shorter) / (series * minutes)


def figures(folder, words, series, archives):
    """Instructions and nanoseconds of a put."""
    callgrind = ["--tool=callgrind", f"--callgrind-out-file={folder}/out", *words]

    def instructions(script):
        return counted(callgrind, script)

    def seconds(script):
        return used(words, script)[0]

    return (
        put_cost(folder, series, archives, COUNTED, instructions, 1),
        put_cost(folder, series, archives, TIMED, seconds, TIMED_RUNS) * 1e9,
    )


def print_updates(series, archives):
    """Prints the nanoseconds of processor time of an update by librrd."""
    minutes = max(2, 100_000 // series)
    with tempfile.TemporaryDirectory() as room:
        words = [TOP / "bench/librrd.py", room, str(series), str(minutes), str(archives), "0"]
        run = subprocess.run(words, stdout=subprocess.PIPE)
    if run.returncode == 0:
        nanoseconds = float(run.stdout.split()[1]) * 1e9 / (series * minutes)
        print(f"{series:,} series, {archives} archives: librrd: {nanoseconds:,.0f} ns an update", flush=True)


def narrow(one, time):
    """A line whose length is the same for each meter and time."""
    return f"meter,site=s{one // 10:05},unit=u{one % 10} kwh=1i {time}\n"


def memory(folder, program, rows, lines):
    script = folder / "script"
    write_script(script, 1, rows, lines)
    return used([program], script)[1]


def cell_bytes(folder, program):
    """The bytes of a cell of a full ring: those of lines in rows of their own less those of as many in one row."""
    minutes, meters = range(CELL_ROWS), range(CELL_SERIES)
    own = (narrow(one, f"{second(minute)}000000000") for minute in minutes for one in meters)
    same = (narrow(one, f"{second(0)}{minute:09}") for minute in minutes for one in meters)
    more = memory(folder, program, CELL_ROWS, own) - memory(folder, program, 1, same)
    return more / (CELL_SERIES * (CELL_ROWS - 1))


def series_bytes(folder, program, rows, series):
    """The bytes of a series of this many rows, one of them written: lines of a meter each less as many of few."""
    time = f"{second(0)}000000000"
    own = (narrow(one, time) for one in range(series))
    same = (narrow(one % CELL_SERIES, time) for one in range(series))
    more = memory(folder, program, rows, own) - memory(folder, program, rows, same)
    return more / (series - CELL_SERIES)


def print_puts(folder, name, words, series, archives):
    instructions, nanoseconds = figures(folder, words, series, archives)
    print(
        f"{series:,} series, {archives} archives: {name}: {instructions:,.0f} instructions,"
        f" {nanoseconds:,.0f} ns a put",
        flush=True,
    )


def print_memory(folder, program):
    cell = cell_bytes(folder, program)
    print(f"a cell of a full ring: {cell:.0f} bytes")
    series = series_bytes(folder, program, FEW_ROWS, MANY_SERIES) - FEW_ROWS * cell
    print(f"a series beside its rows: {series:.0f} bytes")
    series = series_bytes(folder, program, DAY_ROWS, DAY_SERIES)
    print(f"a series of {DAY_ROWS:,} rows with one written: {series:.0f} bytes", flush=True)


def main():
    parser = argparse.ArgumentParser(description=__doc__.splitlines()[0])
    parser.add_argument("--program", default=str(TOP / "crates/rr_tool/out/rr_tool"))
    parser.add_argument("--beside", type=shlex.split)
    parser.add_argument("--most", type=int, default=1_000_000)
    words = parser.parse_args()
    with tempfile.TemporaryDirectory() as room:
        folder = pathlib.Path(room)
        print_memory(folder, words.program)
        for series in [it for it in (1_000, 10_000, 100_000, 1_000_000) if it <= words.most]:
            for archives in (1, 8):
                print_puts(folder, "rr", [words.program], series, archives)
                if series <= MOST_FILES:
                    print_updates(series, archives)
            if words.beside:
                print_puts(folder, words.beside[0], words.beside, series, 1)


if __name__ == "__main__":
    main()
