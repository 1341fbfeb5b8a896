#!/usr/bin/env python3
"""A node of `rr node` among clients that ask for long answers and don't read them.

    examples/unread_answers.py PROGRAM

PROGRAM is the built program, crates/rr_tool/out/rr_tool. 400 clients ask for 100,000 rows each and read nothing. All
that the node then holds for connections, and for answers that are queued, made or being made, has to stay within its
256 MiB; each client has to get its answer or 503 at once; a client beside them that asks for ten rows has to wait less
than 100 ms each time; and once the others are gone a long answer has to come whole. Ends with status 1 if anything
else happens.
"""

import pathlib
import re
import socket
import sys
import tempfile
import threading
import time

from http_node import Node, check, fail, read_all, read_answer, within

CLIENTS = 400
# The most that a node may hold, and what it may take besides: an answer that is copied, and what comes back late to
# the system, in bytes.
MOST_HELD = 256 * 1024**2
BESIDES = 64 * 1024**2
# The longest that a client who reads may wait, in seconds.
MOST_WAIT = 0.1
# How long the clients that don't read are kept.
KEPT = 5
KEY = "meter,site=" + "n" * 120 + " value"
LONG = f"/fetch?cf=LAST&resolution=60&start=0&end=6000000&key={KEY.replace(' ', '+')}"
SHORT = "/fetch?cf=LAST&resolution=60&start=0&end=600&key=a+v"


def request(path, end=""):
    return f"GET {path} HTTP/1.1\r\nHost: a\r\n{end}\r\n".encode()


def memory(pid, name):
    """A number of the memory of a process, in bytes."""
    status = pathlib.Path(f"/proc/{pid}/status").read_text()
    return 1024 * int(re.search(rf"{name}:\s+(\d+)", status)[1])


def deaf_client(port):
    """A client that asks for a long answer and reads nothing."""
    stream = socket.socket()
    stream.setsockopt(socket.SOL_SOCKET, socket.SO_RCVBUF, 4096)
    stream.connect(("127.0.0.1", port))
    stream.sendall(request(LONG))
    return stream


class Reader(threading.Thread):
    """A client that asks for few rows again and again, and reads them."""

    def __init__(self, port):
        super().__init__(daemon=True)
        self.port, self.waits, self.is_over = port, [], threading.Event()

    def run(self):
        with socket.create_connection(("127.0.0.1", self.port)) as stream, stream.makefile("rb") as answers:
            while not self.is_over.wait(0.005):
                began = time.monotonic()
                stream.sendall(request(SHORT))
                status = read_answer(answers)[0]
                self.waits.append(time.monotonic() - began)
                if status != 200:
                    self.waits.append(float("inf"))

    def longest(self):
        self.is_over.set()
        self.join()
        return max(self.waits)


def first_status(stream):
    """The status that a client got, once it reads."""
    stream.settimeout(60)
    text = stream.recv(4096)
    stream.close()
    return int(text.split(b" ", 2)[1]) if text else 0


def trial(port, pid, most=MOST_HELD + BESIDES, most_wait=MOST_WAIT):
    """What a node at this port, of this process, has to do."""
    before = memory(pid, "VmRSS")
    reader = Reader(port)
    reader.start()
    clients = [deaf_client(port) for _ in range(CLIENTS)]
    time.sleep(KEPT)
    wait, grown = reader.longest(), memory(pid, "VmHWM") - before
    statuses = [first_status(stream) for stream in clients]
    counts = {status: statuses.count(status) for status in sorted(set(statuses))}
    print(f"{CLIENTS} clients got {counts}; the node took {grown / 1024**2:.0f} MiB more; a client waited {wait * 1000:.0f} ms")
    check("answers besides 200 and 503", set(statuses) - {200, 503}, set())
    check("some got an answer, and some 503", len(set(statuses)), 2)
    if grown > most:
        fail(f"the node took {grown} bytes more, and at most {most} are allowed")
    if wait > most_wait:
        fail(f"a client waited {wait:.3f} seconds, and at most {most_wait} are allowed")


def long_answer_comes(port):
    """Whether a long answer comes whole."""
    with socket.create_connection(("127.0.0.1", port)) as stream:
        stream.sendall(request(LONG, "Connection: close\r\n"))
        return read_all(stream).count(b"\n\"") + 1 >= 100_000


def main():
    if len(sys.argv) != 2:
        print(__doc__, file=sys.stderr)
        return 2
    with tempfile.TemporaryDirectory() as folder:
        node = Node(sys.argv[1], folder)
        try:
            trial(node.http, node.process.pid)
            check("a long answer comes whole", within(30, lambda: long_answer_comes(node.http)), True)
            node.is_well("after all")
        finally:
            node.kill()
    return 0


if __name__ == "__main__":
    sys.exit(main())
