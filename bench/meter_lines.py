#!/usr/bin/env python3
"""Prints lines of meters in the line protocol, for measurements of speed.

usage: meter_lines.py COUNT [--meters METERS] [--script]

Each of METERS meters (1,000 by default) takes a reading of three fields in turn, one second apart. With --script each
line is a `write` of a script, after a schema and a node.
"""

import argparse
import sys

START = 1_434_067_467
FIELDS = "energy={}i,power={}i,voltage={}i"


def lines(count, meters):
    """The lines, from the first second on."""
    for number in range(count):
        meter = number % meters
        second = START + number // meters
        fields = FIELDS.format(number * 37, 1_000 + number % 997, 229_000 + number % 1_999)
        yield f"meter,id=M{meter:06},site=S{meter % 40:02} {fields} {second}000000000"


def main():
    parser = argparse.ArgumentParser(description=__doc__.splitlines()[0])
    parser.add_argument("count", type=int)
    parser.add_argument("--meters", type=int, default=1_000)
    parser.add_argument("--script", action="store_true")
    words = parser.parse_args()
    write = sys.stdout.write
    if words.script:
        write("schema 60 1:1000:0/1\nnode a 1\n")
    before = "write a " if words.script else ""
    for line in lines(words.count, words.meters):
        write(f"{before}{line}\n")


if __name__ == "__main__":
    main()
