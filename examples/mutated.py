#!/usr/bin/env python3
"""Mutated requests, interleaved with good ones: the node neither ends nor hangs, nor does it answer out of order.

    examples/mutated.py PROGRAM [COUNT] [SEED]

PROGRAM is the built program, crates/rr_tool/out/rr_tool. COUNT requests, 10,000 by default, have bits flipped, or bytes
cut out, inserted or doubled, and some come after others that are sent along with them. Each is sent on a connection of
its own, in pieces that are cut anywhere, after up to three good requests, and then that side ends; one in ten is reset.
The good ones have to be answered first, each as it should be, and what is answered then has to be answers as well.
After each, a good request is answered on another connection that stays open. At the end the last thousand good writes
are there. Prints a line; ends with status 1 if anything else happens. SEED, 1 by default, seeds the random choices.
"""

import random
import socket
import struct
import sys
import tempfile
import time

from http_node import Node, fail, read_answer

# A connection is ended, and a request answered, within this many seconds.
LONGEST = 10

# One in this many good requests is a write, to a row of its own.
WRITES = 20

STATUSES = {100, 200, 204, 400, 404, 405, 413, 414, 415, 431, 501}

LINES = b"m,a=1 v=1i 60000000000\nm,a=1 v=2i 120000000000\nm,a=2 v=1.5\n"
CHUNKS = b"17\r\n" + LINES[:23] + b"\r\n24;x=y\r\n" + LINES[23:] + b"\r\n0\r\nA: b\r\n\r\n"
FETCH = b"/fetch?cf=LAST&resolution=60&start=0&end=600&key=m,a%3D1+v"
HOST = b" HTTP/1.1\r\nHost: a:8086\r\n"
LENGTH = b"Content-Length: %d\r\n\r\n" % len(LINES)

# What is mutated.
REQUESTS = [
    b"GET /health" + HOST + b"\r\n",
    b"GET " + FETCH + HOST + b"Accept: */*\r\n\r\n",
    b"GET http://a:8086" + FETCH + b"&format=json" + HOST + b"Connection: keep-alive\r\n\r\n",
    b"HEAD /series?prefix=m&count=10&after=m,a%3D1+v" + HOST + b"\r\n",
    b"GET /metrics HTTP/1.0\r\n\r\n",
    b"GET /" + HOST + b"Connection: close\r\n\r\n",
    b"GET /ping?wait_for_leader=1" + HOST + b"\r\n",
    b"POST /write?db=a&precision=ns" + HOST + LENGTH + LINES,
    b"POST /api/v2/write?org=a&bucket=b" + HOST + b"Content-Encoding: identity\r\n" + LENGTH + LINES,
    b"POST /write" + HOST + b"Expect: 100-continue\r\n" + LENGTH + LINES,
    b"POST /write" + HOST + b"Transfer-Encoding: chunked\r\n\r\n" + CHUNKS,
    b"DELETE /write" + HOST + b"Transfer-Encoding: gzip, chunked\r\n\r\n0\r\n\r\n",
]


def flipped(text, chance):
    place = chance.randrange(len(text))
    return text[:place] + bytes([text[place] ^ 1 << chance.randrange(8)]) + text[place + 1 :]


def without_a_piece(text, chance):
    first, last = sorted(chance.choices(range(len(text) + 1), k=2))
    return text[:first] + text[last:] or text


def with_noise(text, chance):
    place = chance.randrange(len(text) + 1)
    return text[:place] + chance.randbytes(chance.randrange(1, 20)) + text[place:]


def doubled(text, chance):
    first, last = sorted(chance.choices(range(len(text) + 1), k=2))
    return text[:last] + text[first:]


def mutated(chance):
    """A request with one to four mutations, after up to two requests as they should be."""
    text = chance.choice(REQUESTS)
    for _ in range(chance.randrange(1, 5)):
        text = chance.choice([flipped, flipped, without_a_piece, with_noise, doubled])(text, chance)
    return b"".join(chance.choices(REQUESTS, k=chance.choice([0, 0, 1, 2]))) + text


class Good:
    """Good requests and their answers: fetches, each of a key of its own, and writes, each to a row of its own."""

    def __init__(self):
        self.asked = self.written = 0

    def next(self):
        self.asked += 1
        if self.asked % WRITES == 0:
            self.written += 1
            line = b"good v=%di %d000000000\n" % (self.written, 60 * self.written)
            return b"POST /write" + HOST + b"Content-Length: %d\r\n\r\n%s" % (len(line), line), (204, b"")
        query = b"?cf=LAST&resolution=60&start=0&end=60&key=none,n=%d+v" % self.asked
        return b"GET /fetch" + query + HOST + b"\r\n", (200, b'"none,n=%d v",0,U\n' % self.asked)


def send(stream, text, chance):
    """Sends a text in pieces, and ends this side, unless the other side ends the connection first."""
    places = sorted(chance.choices(range(len(text) + 1), k=chance.choice([0, 1, 2, 5])))
    try:
        for first, last in zip([0, *places], [*places, len(text)]):
            stream.sendall(text[first:last])
        stream.shutdown(socket.SHUT_WR)
    except OSError:
        pass


def are_answers(text, may_lack_bodies):
    """Whether a text consists of whole answers. One to HEAD has no body, whatever length it states."""
    if not text:
        return True
    head, end, rest = text.partition(b"\r\n\r\n")
    line, *fields = head.split(b"\r\n")
    words = line.split(b" ", 2)
    if not end or words[0] not in (b"HTTP/1.0", b"HTTP/1.1") or int(words[1]) not in STATUSES:
        return False
    lengths = [int(field[15:]) for field in fields if field.startswith(b"content-length:")]
    length = sum(lengths)
    if len(lengths) < 2 and len(rest) >= length and are_answers(rest[length:], may_lack_bodies):
        return True
    return may_lack_bodies and length > 0 and are_answers(rest, may_lack_bodies)


def begins_with(reader, answers):
    """Whether the answers that arrive begin with these."""
    for want in answers:
        answer = read_answer(reader)
        if answer is None or (answer[0], answer[2]) != want:
            return False
    return True


def ask(stream, reader, request, want):
    """Whether a request on a connection that stays open is answered as it should be."""
    stream.sendall(request)
    return begins_with(reader, [want])


def try_one(node, good, chance):
    """Sends good requests and one that isn't. Returns what was wrong, if anything was, and what was sent."""
    before = [good.next() for _ in range(chance.randrange(4))]
    bad = mutated(chance)
    text = b"".join(request for request, _ in before) + bad
    with node.connect(LONGEST) as stream, stream.makefile("rb") as reader:
        stream.setsockopt(socket.IPPROTO_TCP, socket.TCP_NODELAY, 1)
        send(stream, text, chance)
        try:
            if not begins_with(reader, [want for _, want in before]):
                return "a good request isn't answered as it should be", text
            if chance.randrange(10) == 0:
                stream.setsockopt(socket.SOL_SOCKET, socket.SO_LINGER, struct.pack("ii", 1, 0))
                return None, text
            answers = reader.read()
        except TimeoutError:
            return "a connection is not ended", text
    return None if are_answers(answers, b"HEAD" in text) else f"answered by {answers[:300]}", text


def run(node, count, chance):
    """Tries this many, and returns how many good requests there were."""
    good = Good()
    with node.connect(LONGEST) as stream, stream.makefile("rb") as reader:
        for number in range(count):
            fault, text = try_one(node, good, chance)
            if fault is None and not ask(stream, reader, *good.next()):
                fault = "another connection isn't answered as it should be"
            if fault or node.process.poll() is not None:
                fail(f"request {number + 1}: {fault}, status {node.process.poll()}, after {text!r}")
    first, end = max(1, good.written - 999), good.written + 1
    status, rows = node.curl(f"/fetch?cf=LAST&resolution=60&start={60 * first}&end={60 * end}&key=good+v")
    if (status, rows) != (200, "".join(f"good v,{60 * row},{row}\n" for row in range(first, end))):
        fail(f"the rows of good writes are {rows:.300}")
    return good.asked


def main():
    if not 2 <= len(sys.argv) <= 4:
        fail("give the program")
    count, seed = [int(word) for word in sys.argv[2:]] + [10_000, 1][len(sys.argv) - 2 :]
    began = time.monotonic()
    with tempfile.TemporaryDirectory() as folder:
        node = Node(sys.argv[1], folder)
        try:
            good = run(node, count, random.Random(seed))
        finally:
            node.kill()
    print(f"{count} mutated requests and {good} good ones in {time.monotonic() - began:.0f} s: each good one is answered")


main()
