#!/usr/bin/env python3
"""Times writes and fetches through the built program, and through rrdtool if that is installed.

usage: store.py [--series SERIES] [--minutes MINUTES]

Each of SERIES meters (1,000 by default) takes a reading in each of MINUTES minutes (1,000 by default); then each is
fetched whole, a row for each minute. Prints writes and rows a second, and the peak memory.
"""

import argparse
import os
import pathlib
import shutil
import subprocess
import tempfile
import time

TOP = pathlib.Path(__file__).resolve().parent.parent
START = 1_434_067_440


def reading(series, minute):
    return 229_000 + (series * 31 + minute * 17) % 1_999


def key(series):
    return f"meter,id=M{series:06}"


def writes(series, minutes):
    """A script that writes each reading."""
    yield f"schema 60 1:{minutes}:0/1\nnode a 1\n"
    for minute in range(minutes):
        second = START + minute * 60
        for one in range(series):
            yield f"write a {key(one)} v={reading(one, minute)}i {second}000000000\n"


def fetches(series, minutes):
    """Lines that fetch each series whole."""
    for one in range(series):
        yield f"fetch a AVERAGE 60 {START} {START + minutes * 60} {key(one)} v\n"


def run(words, script, output):
    """Runs a program on a script; returns the seconds that it took, and its peak memory in MB."""
    with open(script, "rb") as given, open(output, "wb") as told:
        before = time.perf_counter()
        child = subprocess.Popen(words, stdin=given, stdout=told)
        _, status, usage = os.wait4(child.pid, 0)
        after = time.perf_counter()
    if status != 0:
        raise SystemExit(f"{words[0]} failed")
    return after - before, usage.ru_maxrss / 1024


def best(words, script, output):
    """The best of three runs: the work of fetches is the difference of two, which noise would drown."""
    return min(run(words, script, output) for _ in range(3))


def report(name, took_writing, took_both, memory, words):
    writes_done = words.series * words.minutes
    print(
        f"{name}: {writes_done / took_writing:,.0f} writes a second, "
        f"{writes_done / max(took_both - took_writing, 1e-9):,.0f} rows a second, {memory:,.0f} MB at most"
    )


def store(folder, words):
    """Times the program: on a script that writes, and on the same with the fetches after it."""
    program = str(TOP / "rr")
    subprocess.run([program], stdin=subprocess.DEVNULL, check=True)
    writing, both = folder / "writing.rr", folder / "both.rr"
    with open(writing, "w") as script:
        script.writelines(writes(words.series, words.minutes))
    shutil.copy(writing, both)
    with open(both, "a") as script:
        script.writelines(fetches(words.series, words.minutes))
    took_writing, _ = best([program], writing, folder / "nothing")
    took_both, memory = best([program], both, folder / "rows")
    rows = sum(1 for _ in open(folder / "rows"))
    if rows != words.series * words.minutes:
        raise SystemExit(f"{rows} rows in place of {words.series * words.minutes}")
    report("rr", took_writing, took_both, memory, words)


def rrdtool(folder, words):
    """The same work by rrdtool, a file for each series, through one process that reads commands."""
    files = [folder / f"M{one:06}.rrd" for one in range(words.series)]
    with open(folder / "create", "w") as script:
        for file in files:
            script.write(
                f"create {file} --start {START - 60} --step 60 DS:v:GAUGE:120:U:U "
                f"RRA:AVERAGE:0:1:{words.minutes}\n"
            )
    with open(folder / "update", "w") as script:
        for minute in range(words.minutes):
            for one, file in enumerate(files):
                script.write(f"update {file} {START + minute * 60}:{reading(one, minute)}\n")
    with open(folder / "fetch", "w") as script:
        for file in files:
            end = START + (words.minutes - 1) * 60
            script.write(f"fetch {file} AVERAGE --start {START - 60} --end {end}\n")
    run(["rrdtool", "-"], folder / "create", folder / "nothing")
    took_writing, first = run(["rrdtool", "-"], folder / "update", folder / "nothing")
    took_fetching, second = best(["rrdtool", "-"], folder / "fetch", folder / "rows")
    report("rrdtool", took_writing, took_writing + took_fetching, max(first, second), words)


def main():
    parser = argparse.ArgumentParser(description=__doc__.splitlines()[0])
    parser.add_argument("--series", type=int, default=1_000)
    parser.add_argument("--minutes", type=int, default=1_000)
    words = parser.parse_args()
    with tempfile.TemporaryDirectory() as folder:
        store(pathlib.Path(folder), words)
        if shutil.which("rrdtool"):
            rrdtool(pathlib.Path(folder), words)
        else:
            print("rrdtool is not installed")


if __name__ == "__main__":
    main()
