#!/usr/bin/env python3
"""Writes the journal of a node that takes made-up samples, with the model of docs/FORMATS.md (journal_model.py).

usage: journal_life.py DIR [SEED [SAMPLES]]     the files of a journal of this many samples, 1,000 by default
"""

import pathlib
import random
import struct
import sys

from journal_model import CELLS, CURSOR_KIND, KEY_NAME, ORIGIN, START_DIGEST, Cursor, Record
from journal_model import cells_body, digest, file_name, header_bytes, is_live, link, witness_record, undigested
from packed_model import BILLION, Archive, Cell, Schema

class Node:
    """What a replica holds, and the names of what changed since its journal was last written."""

    def __init__(self, schema, origin):
        self.schema = schema
        self.origin = origin
        self.next = 1
        self.cells = {}
        self.newest = {}
        self.changed = set()

    def begin(self, origin):
        """Goes on under an unused origin."""
        self.origin = origin
        self.next = 1

    def put(self, key, time, value):
        for archive in range(len(self.schema.archives)):
            slot = self.schema.slot(archive, time)
            mask = 1 << self.schema.place(archive, time)
            cell = self.cells.get((key, archive, slot, self.origin))
            if cell is None:
                cell = Cell(key, archive, slot, self.origin, self.next, 1, value, value, value, time, value, mask)
            else:
                cell = with_sample(cell, mask, self.next, time, value)
            self.join(cell)
        self.next += 1

    def join(self, cell):
        there = self.cells.get(cell.name())
        if there is not None and cell.contribution() <= there.contribution():
            return
        run = cell.key, cell.archive
        self.newest[run] = max(self.newest.get(run, cell.slot), cell.slot)
        self.cells[cell.name()] = cell
        self.changed.add(cell.name())
        for name in [name for name, cell in self.cells.items() if not is_live(self.schema, self.newest, cell)]:
            del self.cells[name]

    def changes(self):
        """Takes the changed cells that are still live, by key and archive; from then on none counts as changed."""
        groups = {}
        for name in sorted(self.changed & self.cells.keys()):
            groups.setdefault(name[:2], []).append(self.cells[name])
        self.changed = set()
        return groups


def with_sample(cell, mask, number, time, value):
    """A cell with one more sample, which counts as the last one unless a later one was there."""
    return cell._replace(
        version=number,
        count=cell.count + 1,
        sum=cell.sum + value,
        min=min(cell.min, value),
        max=max(cell.max, value),
        last_time=max(cell.last_time, time),
        last_value=value if time >= cell.last_time else cell.last_value,
        mask=cell.mask | mask,
    )


# ---- its life

SCHEMA = Schema(60, (Archive(1, 30, 0, 1), Archive(5, 12, 1, 2), Archive(128, 3, 1, 2)))
KEYS = [
    b"cpu value",
    b"disk,host=a,path=/ free",
    b"disk,host=b,path=/ free",
    b"m\\ eter,no=7 a\\,b",
    b'room,say="hi" t',
]
ID = bytes(range(16))
PEER_ID = bytes(range(255, 239, -1))
KEY = bytes(range(100, 116))

# The most samples taken between two writes, and the most groups in a record.
MOST_AT_ONCE = 20
MOST_GROUPS = 8


def taken(rng, node, peers):
    """Lets the node and a peer take a sample each, and sometimes the node a cell of the peer; returns whether so."""
    peer = rng.choice(peers)
    for one in (node, peer):
        hour = BILLION * 3_600
        time = 500_000 * hour + rng.randrange(hour * 3) - (rng.random() < 0.1) * hour * 4
        one.put(rng.choice(KEYS), time, rng.choice((0, 1, rng.randrange(-5_000, 5_000), rng.getrandbits(63))))
    if rng.random() < 0.4:
        node.join(rng.choice(list(peer.cells.values())))
        return True
    return False


def batches(seed, samples):
    """The records of a life in which a node takes this many samples, a batch for each write."""
    rng = random.Random(seed)
    node = Node(SCHEMA, 1_001)
    peers = [Node(SCHEMA, 2_001), Node(SCHEMA, 2_002), Node(SCHEMA, 65_535)]
    records = [Record(ORIGIN, struct.pack(">H", node.origin))]
    left = samples
    while left > 0:
        if rng.random() < 0.05:
            node.begin(node.origin + 1)
            records.append(Record(ORIGIN, struct.pack(">H", node.origin)))
        count = min(left, rng.randrange(1, MOST_AT_ONCE + 1))
        left -= count
        pulled = [taken(rng, node, peers) for _ in range(count)]
        groups = list(node.changes().items())
        for at in range(0, len(groups), MOST_GROUPS):
            records.append(Record(CELLS, cells_body(groups[at : at + MOST_GROUPS], SCHEMA)))
        if any(pulled):
            records.append(Record(CURSOR_KIND, Cursor(PEER_ID, 4_096 + left, digest(b"%d" % left)).bytes()))
        yield records
        records = []


def appended(cursor, records):
    """The bytes of a batch that follows a cursor, behind its witness, and the cursor after it."""
    text = bytearray()
    for record in [witness_record(KEY, cursor.offset), *records]:
        text += undigested(record) + link(cursor.digest, record)
        cursor = cursor.behind(record)
    return bytes(text), cursor


def journal(seed, samples):
    """The files of a directory by name: the key, and a journal whose second file begins after half of the batches."""
    cursor = Cursor(ID, 0, START_DIGEST)
    files = {KEY_NAME: KEY}
    life = list(batches(seed, samples))
    for number, records in enumerate(life):
        if number in (0, len(life) // 2):
            name = file_name(cursor.offset)
            files[name] = header_bytes(SCHEMA, cursor)
        text, cursor = appended(cursor, records)
        files[name] += text
    return files


def numbers(words):
    """The seed and the number of samples."""
    given = [int(word) for word in words]
    return (*given, *(1, 1_000)[len(given) :])


def main():
    if not 2 <= len(sys.argv) <= 4:
        sys.exit(__doc__)
    folder = pathlib.Path(sys.argv[1])
    folder.mkdir(parents=True, exist_ok=True)
    for name, data in journal(*numbers(sys.argv[2:])).items():
        (folder / name).write_bytes(data)


if __name__ == "__main__":
    main()
