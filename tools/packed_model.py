"""Packed cells as docs/FORMATS.md describes them: numbers, cells, and the bytes of the cells of one key and archive."""

import struct
import typing

MOST_NUMBER = 1 << 40
BILLION = 10**9
WORD = 1 << 128

# The step of a schema with its number of archives, and one archive.
STEP = struct.Struct(">IB")
ARCHIVE = struct.Struct(">BIHH")

# How many of the origins that were seen last are kept.
RECENT = 16

# The flags of a packed cell, lowest first.
STEPS = "last_value version last_time min max sum count mask slot place origin".split()


class Fault(Exception):
    """Bytes are refused; its text is the name of the refusal."""


class Cell(typing.NamedTuple):
    """What an origin knows of a row; the fields of a contribution are compared in this order."""

    key: bytes
    archive: int
    slot: int
    origin: int
    version: int
    count: int
    sum: int
    min: int
    max: int
    last_time: int
    last_value: int
    mask: int

    def name(self):
        return self[:4]

    def contribution(self):
        return self[4:]


# What is expected if no cell of the origin came before.
NOTHING = Cell(b"", 0, 0, 0, 0, 1, 0, 0, 0, 0, 0, 1)


class Archive(typing.NamedTuple):
    steps: int
    rows: int
    num: int
    den: int

    def is_valid(self):
        return 1 <= self.steps <= 128 and 1 <= self.rows <= 100_000 and self.num < self.den <= 1_000


class Schema(typing.NamedTuple):
    step: int
    archives: tuple

    def bytes(self):
        parts = (ARCHIVE.pack(*archive) for archive in self.archives)
        return STEP.pack(self.step, len(self.archives)) + b"".join(parts)

    def slot(self, archive, time):
        return time // self.row(archive)

    def place(self, archive, time):
        return time // (self.step * BILLION) - self.slot(archive, time) * self.archives[archive].steps

    def row(self, archive):
        """The nanoseconds of a row."""
        return self.step * self.archives[archive].steps * BILLION

    def is_valid(self):
        steps = [archive.steps for archive in self.archives]
        return (
            1 <= self.step <= 86_400
            and 1 <= len(steps) <= 8
            and steps == sorted(set(steps))
            and all(archive.is_valid() for archive in self.archives)
        )


# ---- numbers


def leb128(number):
    parts = []
    while number >= 128:
        parts.append(number % 128 + 128)
        number //= 128
    return bytes([*parts, number])


def step_to(expected, number):
    difference = (number - expected) % WORD
    return 2 * difference if difference < WORD // 2 else 2 * (WORD - 1 - difference) + 1


def stepped(expected, step):
    difference = step // 2 if step % 2 == 0 else WORD - 1 - step // 2
    return (expected + difference) % WORD


def signed(number):
    """A number of 128 bits, read as two's complement."""
    return number - WORD if number >= WORD // 2 else number


class Input:
    """Bytes that are read field by field."""

    def __init__(self, data):
        self.data = data
        self.at = 0

    def left(self):
        return len(self.data) - self.at

    def take(self, length):
        if length > self.left():
            raise Fault("Short")
        self.at += length
        return self.data[self.at - length : self.at]

    def number(self, length):
        return int.from_bytes(self.take(length), "big")

    def leb128(self):
        number = 0
        shift = 0
        while True:
            (byte,) = self.take(1)
            number += byte % 128 << shift
            shift += 7
            if number >= WORD or (byte == 0 and shift > 7):
                raise Fault("BadNumber")
            if byte < 128:
                return number

    def end(self):
        if self.left():
            raise Fault("TrailingBytes")


# ---- packed cells


class Expectations:
    """The last cell of each origin that was seen recently, and what is expected of the next cell."""

    def __init__(self, row):
        self.row = row
        self.recent = []
        self.place = 0

    def place_of(self, origin):
        found = [place for place, (cell, _) in enumerate(self.recent) if cell.origin == origin]
        return found[0] if found else len(self.recent)

    def base(self, place):
        """The last cell of the origin at a place, and by how much its version exceeded the one before."""
        return self.recent[place] if place < len(self.recent) else (NOTHING, 0)

    def saw(self, cell, place):
        base, _ = self.base(place)
        if place < len(self.recent):
            del self.recent[place]
        self.recent.insert(0, (cell, cell.version - base.version))
        del self.recent[RECENT:]
        self.place = place


def pack(cells, row):
    """The bytes of the cells of one key and archive, in order, with rows of this many nanoseconds."""
    text = [leb128(len(cells)), leb128(row)]
    seen = Expectations(row)
    for cell in cells:
        place = seen.place_of(cell.origin)
        base, stride = seen.base(place)
        steps = dict.fromkeys(STEPS, 0)
        steps["place"] = step_to(seen.place, place)
        for name, expected in expected_fields(base, stride, row, cell._asdict()):
            steps[name] = step_to(expected, getattr(cell, name))
        told = [(1 << bit, steps[name]) for bit, name in enumerate(STEPS) if steps[name]]
        text.append(leb128(sum(flag for flag, _ in told)))
        text += [leb128(step) for _, step in told]
        seen.saw(cell, place)
    return b"".join(text)


def expected_fields(base, stride, row, fields):
    """Each field with what is expected of it; one that depends on another comes once `fields` has that."""
    yield "slot", base.slot + 1
    yield "origin", base.origin
    yield "count", base.count
    yield "last_value", base.last_value
    yield "mask", base.mask
    yield "version", base.version + stride
    yield "last_time", base.last_time + (fields["slot"] - base.slot) * row
    yield "min", fields["last_value"] - (base.last_value - base.min)
    yield "max", fields["last_value"] + (base.max - base.last_value)
    width = fields["count"] * (fields["max"] - fields["min"]) % WORD
    yield "sum", fields["count"] * fields["min"] + width // 2


SIGNED = {"slot": 64, "sum": 128, "min": 64, "max": 64, "last_time": 64, "last_value": 64}
UNSIGNED = {"origin": 16, "version": 64, "count": 64, "mask": 128}


def in_range(name, number):
    """The value of a field read as 128 bits, if it's in the field's range."""
    if name in UNSIGNED:
        if number >= 1 << UNSIGNED[name]:
            raise Fault("BadNumber")
        return number
    number = signed(number)
    if not -(1 << SIGNED[name] - 1) <= number < 1 << SIGNED[name] - 1:
        raise Fault("BadNumber")
    return number


def read_steps(text):
    flags = text.leb128()
    if flags >= 1 << len(STEPS):
        raise Fault("BadNumber")
    steps = dict.fromkeys(STEPS, 0)
    for bit, name in enumerate(STEPS):
        if flags >> bit & 1:
            steps[name] = text.leb128()
            if steps[name] == 0:
                raise Fault("BadNumber")
    return steps


def read_cell(text, seen):
    """The next cell, without key and archive."""
    steps = read_steps(text)
    place = stepped(seen.place, steps["place"])
    if place > len(seen.recent):
        raise Fault("BadNumber")
    base, stride = seen.base(place)
    fields = {}
    for name, expected in expected_fields(base, stride, seen.row, fields):
        fields[name] = in_range(name, stepped(expected % WORD, steps[name]))
    if seen.place_of(fields["origin"]) != place:
        raise Fault("BadNumber")
    if fields["origin"] == 0:
        raise Fault("BadOrigin")
    cell = Cell(b"", 0, **fields)
    seen.saw(cell, place)
    return cell


def is_valid(schema, cell):
    """Whether samples in the cell's row can give these numbers."""
    archive = schema.archives[cell.archive]
    return (
        1 <= cell.count <= cell.version <= MOST_NUMBER
        and cell.min <= cell.last_value <= cell.max
        and cell.count * cell.min <= cell.sum <= cell.count * cell.max
        and schema.slot(cell.archive, cell.last_time) == cell.slot
        and cell.mask < 1 << archive.steps
        and cell.mask >> schema.place(cell.archive, cell.last_time) & 1 == 1
        and cell.mask.bit_count() <= cell.count
    )


def unpack(schema, key, archive, data):
    """The cells of a group."""
    text = Input(data)
    count = text.leb128()
    if count >= 1 << 32:
        raise Fault("BadNumber")
    seen = Expectations(text.leb128())
    if seen.row >= 1 << 64:
        raise Fault("BadNumber")
    cells = []
    for _ in range(count):
        cell = read_cell(text, seen)._replace(key=key, archive=archive)
        if not is_valid(schema, cell):
            raise Fault("BadContribution")
        if cells and (cell.slot, cell.origin) <= (cells[-1].slot, cells[-1].origin):
            raise Fault("OutOfOrder")
        cells.append(cell)
    text.end()
    return cells
