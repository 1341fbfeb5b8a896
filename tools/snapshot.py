#!/usr/bin/env python3
"""Inspects a snapshot that `rr serve --save` wrote.

usage: rr-snapshot check FILE     its schema, origin and number of cells; status 1 if its digest is wrong
       rr-snapshot series FILE    a line for each series: key, number of cells, time of the last sample in seconds
       rr-snapshot cells FILE     a CSV record for each cell

The format is that of docs/FORMATS.md, "Snapshot", in both versions.
"""

import csv
import hashlib
import pathlib
import struct
import sys

HEAD = struct.Struct(">4sBIB")
ARCHIVE = struct.Struct(">BIHH")
COUNT = struct.Struct(">HI")
KEY_LEN = struct.Struct(">H")
DIGEST_LEN = 32

# What follows the key text of a cell, up to its mask: archive, slot, origin, version, count, the two halves of the sum,
# min, max, last time, last value.
FIELDS = struct.Struct(">BqHQQqQqqqq")

# The length of a mask in each version, in bytes.
MASK_LEN = {1: 8, 2: 16}

COLUMNS = (
    "key archive slot origin version count sum min max last_time last_value mask".split()
)


def read(path):
    """The schema of a snapshot in the words of a script, its origin, its number of cells, and its cells."""
    data = pathlib.Path(path).read_bytes()
    body, digest = data[:-DIGEST_LEN], data[-DIGEST_LEN:]
    if body[:4] != b"RRSN" or hashlib.sha256(body).digest() != digest:
        sys.exit(f"rr-snapshot: {path} isn't a whole snapshot")
    _, version, step, archives = HEAD.unpack_from(body)
    if version not in MASK_LEN:
        sys.exit(f"rr-snapshot: {path} is of version {version}")
    at = HEAD.size
    schema = [str(step)]
    for steps, rows, num, den in ARCHIVE.iter_unpack(body[at : at + archives * ARCHIVE.size]):
        schema.append(f"{steps}:{rows}:{num}/{den}")
    at += archives * ARCHIVE.size
    origin, count = COUNT.unpack_from(body, at)
    return " ".join(schema), origin, count, cells(body, at + COUNT.size, MASK_LEN[version])


def cells(body, at, mask_len):
    """Each cell, as its columns."""
    while at < len(body):
        (length,) = KEY_LEN.unpack_from(body, at)
        at += KEY_LEN.size
        key = body[at : at + length].decode(errors="backslashreplace")
        at += length
        archive, slot, origin, version, count, high, low, *rest = FIELDS.unpack_from(body, at)
        at += FIELDS.size
        mask = int.from_bytes(body[at : at + mask_len], "big")
        at += mask_len
        yield key, archive, slot, origin, version, count, (high << 64) + low, *rest, f"{mask:x}"


def print_series(found):
    series = {}
    for key, *_, last_time, _, _ in found:
        number, latest = series.get(key, (0, last_time))
        series[key] = number + 1, max(latest, last_time)
    for key, (number, latest) in series.items():
        print(f"{key}\t{number}\t{latest // 10**9}")


def main():
    if len(sys.argv) != 3 or sys.argv[1] not in ("check", "series", "cells"):
        sys.exit(__doc__)
    schema, origin, count, found = read(sys.argv[2])
    if sys.argv[1] == "check":
        print(f"schema {schema}, origin {origin}, {count} cells")
    elif sys.argv[1] == "series":
        print_series(found)
    else:
        writer = csv.writer(sys.stdout, lineterminator="\n")
        writer.writerow(COLUMNS)
        writer.writerows(found)


if __name__ == "__main__":
    main()
