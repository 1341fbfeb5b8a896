#!/usr/bin/python3
"""Updates of round-robin files by librrd in process: librrd.py FOLDER SERIES MINUTES ARCHIVES FETCHES

Makes a file for each series in FOLDER, writes the readings minute by minute, each by one call, and fetches the last 100
minutes of FETCHES randomly chosen series. Prints the seconds and the processor seconds of the updates, those of the
fetches, and the peak memory of the updates in MB. Runs with the system's Python, and ends with status 1 if that has no
`rrdtool`.
"""

import random
import resource
import sys
import time

import samples

try:
    import rrdtool
except ImportError:
    sys.exit("librrd for Python isn't installed")


def used():
    usage = resource.getrusage(resource.RUSAGE_SELF)
    return usage.ru_utime + usage.ru_stime


def create(file, minutes, archives):
    rows = [f"RRA:AVERAGE:0.5:{steps}:{-(-minutes // steps)}" for steps in samples.STEPS[:archives]]
    start = str(samples.second(-1))
    rrdtool.create(file, "--start", start, "--step", "60", "DS:kwh:GAUGE:120:U:U", *rows)


def fetch(file, first, minutes):
    # A row is named by the second at which it ends, which is that of its reading.
    start, end = str(samples.second(first - 1)), str(samples.second(minutes - 2))
    return rrdtool.fetch(file, "AVERAGE", "--resolution", "60", "--start", start, "--end", end)[2]


def main():
    folder, (series, minutes, archives, fetches) = sys.argv[1], map(int, sys.argv[2:6])
    files = [f"{folder}/{one}.rrd" for one in range(series)]
    for file in files:
        create(file, minutes, archives)
    before, began = used(), time.perf_counter()
    for minute in range(minutes):
        second = samples.second(minute)
        for one, file in enumerate(files):
            rrdtool.update(file, f"{second}:{samples.value(one, minute)}")
    taking, taken = time.perf_counter() - began, used() - before
    memory = resource.getrusage(resource.RUSAGE_SELF).ru_maxrss / 1024
    chosen = random.Random(7).choices(range(series), k=fetches)
    first = max(0, minutes - 100)
    before, began = used(), time.perf_counter()
    answers = [fetch(files[one], first, minutes) for one in chosen]
    fetching, fetched = time.perf_counter() - began, used() - before
    for one, rows in zip(chosen, answers):
        if [row[0] for row in rows] != [samples.value(one, it) for it in range(first, minutes)]:
            sys.exit(f"a fetch answers {rows}")
    print(taking, taken, fetching, fetched, memory)


if __name__ == "__main__":
    main()
