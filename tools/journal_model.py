#!/usr/bin/env python3
"""A journal as docs/FORMATS.md describes it, from a header to the directory of a node, without checkpoints.

usage: journal_model.py cells DIR     what `rr journal cells DIR` is to print of such files
       journal_model.py case FILE     what a .journal case is to print

It shares no code with `rr`, so tools/sweep_journal.py can compare what the two say about the same bytes.
"""

import csv
import functools
import hashlib
import io
import pathlib
import struct
import sys
import typing

from packed_model import ARCHIVE, STEP, Archive, Fault, Input, Schema, pack, unpack

MAGIC = b"RRJN"
VERSION = 2
VERSIONS = (1, 2)
DECIMALS = 0
DIGEST_LEN = 8
START_DIGEST = bytes(DIGEST_LEN)

# The offset of the schema's length in a header.
LENGTH_AT = 6

# The head of a record: the length of its body, and its kind.
HEAD = struct.Struct(">IB")
CURSOR = struct.Struct(">16sQ8s")
MOST_BODY = 1_048_542
MOST_UNSYNCED = 1_048_576
CELLS, ORIGIN, CURSOR_KIND, END, WITNESS = 1, 2, 3, 4, 5
FIRST = 128

# The file of a directory with the key of its witnesses, and the first bytes of a witness's record.
KEY_NAME = "key"
KEY_LEN = 16
WITNESS_HEAD = HEAD.pack(DIGEST_LEN, WITNESS + FIRST)

MOST_KEY = 1_024
MOST_TAGS = 32


class Cursor(typing.NamedTuple):
    id: bytes
    offset: int
    digest: bytes

    def bytes(self):
        return CURSOR.pack(*self)

    def behind(self, record):
        return Cursor(self.id, self.offset + HEAD.size + len(record.body) + DIGEST_LEN, link(self.digest, record))


class Record(typing.NamedTuple):
    kind: int
    body: bytes


def digest(text):
    return hashlib.sha256(text).digest()[:DIGEST_LEN]


def undigested(record):
    return HEAD.pack(len(record.body), record.kind) + record.body


def link(before, record):
    """The digest of a record, from that of the one before it."""
    return digest(before + undigested(record))


# ---- key texts


def names_of(text, specials):
    """The name at the beginning of a text, unescaped, and the rest, from the first special byte on."""
    at = 0
    name = bytearray()
    while at < len(text) and text[at] not in specials:
        if text[at] == ord("\\") and at + 1 < len(text) and text[at + 1] in specials:
            at += 1
        name.append(text[at])
        at += 1
    return bytes(name), text[at:]


def is_name(name):
    return name and b"\n" not in name and not name.endswith(b"\\")


def is_key_text(text):
    if len(text) > MOST_KEY:
        return False
    name, rest = names_of(text, b", ")
    tags = []
    while is_name(name) and rest.startswith(b","):
        tag, rest = names_of(rest[1:], b",= ")
        name, rest = names_of(rest[1:], b",= ") if rest.startswith(b"=") else (b"", rest)
        if not is_name(tag):
            return False
        tags.append(tag)
    if not is_name(name) or not rest.startswith(b" "):
        return False
    field, rest = names_of(rest[1:], b",= ")
    return is_name(field) and not rest and len(tags) <= MOST_TAGS and tags == sorted(set(tags))


# ---- records


def cells_body(groups, schema):
    """The body of a record of cells: pairs of a key and an archive, and the cells of each."""
    body = []
    for (key, archive), cells in groups:
        packed = pack(cells, schema.row(archive))
        body += [struct.pack(">H", len(key)), key, struct.pack(">BI", archive, len(packed)), packed]
    return b"".join(body)


def read_groups(schema, body):
    text = Input(body)
    groups = []
    while not groups or text.left():
        length = text.number(2)
        if not 1 <= length <= MOST_KEY:
            raise Fault("BadKey")
        key = text.take(length)
        if not is_key_text(key):
            raise Fault("BadKey")
        archive = text.number(1)
        if archive >= len(schema.archives):
            raise Fault("BadArchive")
        groups.append(unpack(schema, key, archive, text.take(text.number(4))))
    return groups


def cells_in(groups):
    return [cell for group in groups for cell in group]


@functools.cache
def meaning(schema, record):
    """What a record means: the name of its kind, and what it holds."""
    text = Input(record.body)
    kind = record.kind % FIRST
    if kind == CELLS:
        return "cells", read_groups(schema, record.body)
    if kind == ORIGIN:
        origin = text.number(2)
        if origin == 0:
            raise Fault("BadOrigin")
        text.end()
        return "origin", origin
    if kind == CURSOR_KIND:
        cursor = Cursor(*CURSOR.unpack(text.take(CURSOR.size)))
        text.end()
        return "cursor", cursor
    if kind == END:
        count = text.number(8)
        text.end()
        return "end", count
    if kind == WITNESS:
        witness = text.take(DIGEST_LEN)
        text.end()
        return "witness", witness.hex()
    raise Fault("BadKind")


def header_bytes(schema, cursor):
    layout = schema.bytes()
    head = MAGIC + bytes([VERSION, DECIMALS]) + struct.pack(">H", len(layout)) + layout + cursor.bytes()
    return head + digest(head)


def read_header(schema, text):
    """The cursor at which a file begins."""
    layout = schema.bytes()
    if text.take(len(MAGIC)) != MAGIC:
        raise Fault("BadMagic")
    if text.number(1) not in VERSIONS:
        raise Fault("BadVersion")
    if text.number(1) != DECIMALS:
        raise Fault("BadDecimals")
    if text.number(2) != len(layout) or text.take(len(layout)) != layout:
        raise Fault("SchemaDiffers")
    cursor = Cursor(*CURSOR.unpack(text.take(CURSOR.size)))
    end = text.at
    if text.take(DIGEST_LEN) != digest(text.data[:end]):
        raise Fault("BadDigest")
    return cursor


def read_record(text, cursor):
    """The record at a cursor, if a whole one that chains to it is there."""
    begin = text.at
    try:
        length, kind = HEAD.unpack(text.take(HEAD.size))
        if length <= MOST_BODY:
            record = Record(kind, text.take(length))
            if text.take(DIGEST_LEN) == link(cursor.digest, record):
                return record
    except Fault:
        pass
    text.at = begin
    return None


def read_records(text, cursor):
    """The records from a cursor on, why no more follow, and the cursor after them."""
    records = []
    while (record := read_record(text, cursor)) is not None:
        records.append(record)
        cursor = cursor.behind(record)
    return records, stop(text), cursor


def stop(text):
    left = text.left()
    if left <= MOST_UNSYNCED:
        return "Torn" if left else "End"
    (length,) = struct.unpack_from(">I", text.data, text.at)
    return "Damaged TooLong" if length > MOST_BODY else "Damaged BadDigest"


# ---- witnesses


def witness_of(key, offset):
    """The witness of an offset under a key."""
    return digest(key + struct.pack(">Q", offset))


def witness_record(key, offset):
    return Record(WITNESS + FIRST, witness_of(key, offset))


def was_synced(key, offset, left):
    """Whether bytes from an offset on have a witness behind their first byte."""
    at = left.find(WITNESS_HEAD, 1)
    while at >= 0:
        if left[at + len(WITNESS_HEAD) :].startswith(witness_of(key, offset + at)):
            return True
        at = left.find(WITNESS_HEAD, at + 1)
    return False


# ---- what a replay makes


def is_live(schema, newest, cell):
    return cell.slot > newest[cell.key, cell.archive] - schema.archives[cell.archive].rows


def joined(schema, cells):
    """Of the greatest cells of each name the live ones, in order of their names."""
    greatest = {}
    newest = {}
    for cell in cells:
        there = greatest.get(cell.name())
        if there is None or there.contribution() < cell.contribution():
            greatest[cell.name()] = cell
        run = cell.key, cell.archive
        newest[run] = max(newest.get(run, cell.slot), cell.slot)
    return [greatest[name] for name in sorted(greatest) if is_live(schema, newest, greatest[name])]


def rows(cells):
    """The CSV records of cells."""
    for cell in cells:
        yield [cell.key.decode("latin-1"), *cell[1:-1], f"{cell.mask:032x}"]


def csv_text(cells):
    text = io.StringIO()
    csv.writer(text, lineterminator="\n").writerows(rows(cells))
    return text.getvalue().encode("latin-1")


# ---- a directory of journal files, without a checkpoint


def file_name(offset):
    return f"journal-{offset:020}.rrj"


class Refused(Exception):
    """A node doesn't start from a directory; its text is the line that says so."""

    def __init__(self, name, why):
        super().__init__(f"refused {name} {why}\n")


class Reading(typing.NamedTuple):
    """What is read from a file's bytes."""

    begins: Cursor
    records: list
    stop: str
    end: Cursor


def read_file(schema, data, key=None):
    """What is read from a file; with the key, a witness among the bytes that are left shows that they were synced."""
    text = Input(data)
    cursor = read_header(schema, text)
    reading = Reading(cursor, *read_records(text, cursor))
    if key and reading.stop == "Torn" and was_synced(key, reading.end.offset, data[text.at :]):
        return reading._replace(stop="Damaged BadDigest")
    return reading


def why_apart(before, begins):
    """Why a file that begins at one cursor doesn't follow one that ends at another; none if it does."""
    if begins.id != before.id:
        return "OtherJournal"
    if begins.offset > before.offset:
        return "FileMissing"
    return "NotChained" if begins != before else None


def why_refused(schema, name, reading, before, is_last):
    """Why a node doesn't start from a file that comes after a cursor; none if it does."""
    if name != file_name(reading.begins.offset):
        return "Misnamed"
    if apart := why_apart(before, reading.begins):
        return apart
    for record in reading.records:
        meaning(schema, record)
    if reading.stop.startswith("Damaged"):
        return "Damaged"
    return "Torn" if reading.stop == "Torn" and not is_last else None


def journals(files):
    """The names of the journal's files, in order."""
    return sorted(name for name in files if name != KEY_NAME)


def read_files(schema, files):
    """What a start reads from files, given by name."""
    key = files.get(KEY_NAME)
    names = journals(files)
    readings = []
    for number, name in enumerate(names):
        is_last = number + 1 == len(names)
        try:
            reading = read_file(schema, files[name], key if is_last else None)
            before = readings[-1].end if readings else Cursor(reading.begins.id, 0, START_DIGEST)
            why = why_refused(schema, name, reading, before, is_last)
        except Fault as fault:
            why = own_fault(files[name], str(fault))
        if why:
            raise Refused(name, why)
        readings.append(reading)
    return readings


def cells_of(schema, readings):
    """The cells that a replay of files makes."""
    cells = []
    for reading in readings:
        for record in reading.records:
            kind, what = meaning(schema, record)
            cells += cells_in(what) if kind == "cells" else []
    return joined(schema, cells)


# A schema under which a header is read that has none.
NO_SCHEMA = Schema(1, (Archive(1, 1, 0, 1),))


def layout_in(data):
    """The bytes of the schema in a header, and whether all of them are there."""
    length = int.from_bytes(data[LENGTH_AT : LENGTH_AT + 2], "big")
    layout = data[LENGTH_AT + 2 : LENGTH_AT + 2 + length]
    return layout, len(data) >= LENGTH_AT + 2 and len(layout) == length


def schema_of(layout):
    """The schema with these bytes, or one that no header has."""
    if len(layout) < STEP.size or (len(layout) - STEP.size) % ARCHIVE.size:
        return NO_SCHEMA
    step, _ = STEP.unpack_from(layout)
    schema = Schema(step, tuple(Archive(*found) for found in ARCHIVE.iter_unpack(layout[STEP.size :])))
    return schema if schema.is_valid() and schema.bytes() == layout else NO_SCHEMA


def own_schema(data):
    """The schema that a file's own header names; refused if that isn't whole, but never as of another schema."""
    layout, is_there = layout_in(data)
    schema = schema_of(layout)
    try:
        read_header(schema, Input(data))
    except Fault as fault:
        if str(fault) == "SchemaDiffers":
            raise Fault("BadDigest" if is_there else "Short") from fault
        raise
    return schema


def first_schema(files):
    """The schema that the first whole header names."""
    for name in journals(files):
        try:
            return own_schema(files[name])
        except Fault:
            pass
    return NO_SCHEMA


def own_fault(data, why):
    """Why a file is refused, by its own header if that isn't whole."""
    if why == "SchemaDiffers":
        try:
            own_schema(data)
        except Fault as fault:
            return str(fault)
    return why


def started(files):
    """The schema of files, given by name, and what is read from them."""
    schema = first_schema(files)
    return schema, read_files(schema, files)


def read_directory(folder):
    found = [*pathlib.Path(folder).glob("journal-*.rrj"), *pathlib.Path(folder).glob(KEY_NAME)]
    return {file.name: file.read_bytes() for file in found}


# ---- a case: what `rr_cases` says about the changed bytes of a file (crates/rr_cases/src/journals.rt)

CASE_SCHEMA = Schema(60, (Archive(1, 3, 0, 1),))


def told(schema, record):
    """A record in the words of a case."""
    first = "first " if record.kind >= FIRST else ""
    try:
        kind, what = meaning(schema, record)
    except Fault as fault:
        return f"{first}{fault}"
    if kind == "cells":
        return f"{first}groups {len(what)}"
    if kind == "cursor":
        return f"{first}cursor {what.id.hex()} {what.offset} {what.digest.hex()}"
    return f"{first}{kind} {what}"


def replayed(schema, records, own):
    """The cells that a replay under an origin makes, in the words of a case; or its fault."""
    cells = []
    for record in records:
        kind, what = meaning(schema, record)
        new = cells_in(what) if kind == "cells" else []
        if own in [cell.origin for cell in new] or (kind == "origin" and own == what):
            raise Fault("OriginUsed")
        cells += new
    for cell in joined(schema, cells):
        yield " ".join([cell.key.decode("latin-1"), *map(str, cell[1:])])


def variant_lines(data, own):
    try:
        reading = read_file(CASE_SCHEMA, data)
        yield from (told(CASE_SCHEMA, record) for record in reading.records)
        yield f"{reading.stop} at {reading.end.offset}"
        yield from list(replayed(CASE_SCHEMA, reading.records, own))
    except Fault as fault:
        yield str(fault)


def case_lines(text):
    own = 65_535
    first, *changes = text.splitlines()
    if first.startswith("# origin "):
        own = int(first.split()[-1])
        first, *changes = changes
    data = bytes.fromhex(first)
    yield from variant_lines(data, own)
    for change in changes:
        at, what = change.split(" ")
        front, back = data[: int(at)], data[int(at) :]
        new = b"" if what == "end" else bytes.fromhex(what)
        yield "---"
        yield from variant_lines(front + (b"" if what == "end" else new + back[len(new) :]), own)


def main():
    words = sys.argv[1:]
    if words[:1] == ["cells"] and len(words) == 2:
        try:
            text = csv_text(cells_of(*started(read_directory(words[1]))))
        except Refused as refused:
            sys.stdout.write(str(refused))
            sys.exit(1)
        sys.stdout.buffer.write(text)
    elif words[:1] == ["case"] and len(words) == 2:
        print(*case_lines(pathlib.Path(words[1]).read_text()), sep="\n")
    else:
        sys.exit(__doc__)


if __name__ == "__main__":
    main()
