#!/usr/bin/env python3
"""A node of `rr serve` among connections that no client should make, and a peer that answers nonsense.

    examples/hostile.py PROGRAM

PROGRAM is the built program, crates/rr_tool/out/rr_tool. A node is started with an idle time of one second. Each of
these is done to it over TCP: silence, half a line or frame, a frame of 4 GB, random bytes, an endless line, a reset,
answers that nobody reads; and it is left without a file descriptor. After each the node has to take a line and answer a
fetch; while one reader is held up, the keeper and the other reader have to go on at once. Ends with status 1 if
anything else happens. http_api.py and mutated.py do the same to `rr node`, over HTTP.
"""

import concurrent.futures
import os
import pathlib
import random
import resource
import socket
import struct
import subprocess
import sys
import tempfile
import threading
import time

IDLE = 1
# The most memory that the node may hold, in bytes.
MOST_MEMORY = 64 * 1024**2
# How much it may work while it can take no connection, as a fraction of one processor.
MOST_WORK = 0.2
CONFIG = """\
step = 60
lines = "127.0.0.1:{0}"
fetch = ["127.0.0.1:{1}", "127.0.0.1:{2}"]
peers = ["127.0.0.1:{3}"]
idle = {idle}
lead = 300_000_000_000

[[archive]]
steps = 1
rows = 100000
xff_num = 0
xff_den = 1
"""
# What a side with this schema sends first, and the end of the cells that it names.
HELLO = bytes.fromhex("0000000f 01 0000003c 01 01 000186a0 0000 0001")
SUMMARY_END = bytes.fromhex("00000001 03")
PAGE_END = bytes.fromhex("00000001 05")
HUGE = bytes.fromhex("ffffffff 02")
NOISE = random.Random(24).randbytes(1_000_000)


def fail(text):
    sys.exit(f"hostile.py: {text}")


def free_ports(count):
    """Ports of this machine on which nothing listens."""
    with_ports = [socket.create_server(("127.0.0.1", 0)) for _ in range(count)]
    ports = [listener.getsockname()[1] for listener in with_ports]
    for listener in with_ports:
        listener.close()
    return ports


def connect(port):
    return socket.create_connection(("127.0.0.1", port), timeout=10)


def rest_of(stream):
    """What arrives until the other side ends the connection, cleanly or by a reset."""
    pieces = []
    try:
        while piece := stream.recv(65536):
            pieces.append(piece)
    except (ConnectionResetError, BrokenPipeError):
        pass
    except TimeoutError:
        fail("a connection is not ended")
    return b"".join(pieces)


def ask(port, text):
    """The answer to a text on a connection of its own."""
    with connect(port) as stream:
        stream.sendall(text)
        stream.shutdown(socket.SHUT_WR)
        return rest_of(stream)


def push(stream, piece, times):
    """Sends a piece this many times. Returns whether the other side ended the connection first."""
    try:
        for _ in range(times):
            stream.sendall(piece)
    except (ConnectionResetError, BrokenPipeError):
        return True
    except TimeoutError:
        fail("a connection is not ended")
    return False


def reset(stream):
    """Closes a connection with a reset."""
    stream.setsockopt(socket.SOL_SOCKET, socket.SO_LINGER, struct.pack("ii", 1, 0))
    stream.close()


class Peer(threading.Thread):
    """The peer that the node pulls from. It reads what the node sends, gives an answer, and then closes the connection
    or stays silent, as `manner` says."""

    def __init__(self, port):
        super().__init__(daemon=True)
        self.listener = socket.create_server(("127.0.0.1", port))
        self.manner = (PAGE_END, False)

    def run(self):
        while True:
            stream, _ = self.listener.accept()
            with stream:
                stream.settimeout(10)
                try:
                    self.give(stream)
                except OSError as error:
                    print(f"the peer: {error}", file=sys.stderr)

    def give(self, stream):
        sent = b""
        while not sent.endswith(SUMMARY_END):
            piece = stream.recv(65536)
            if not piece:
                return
            sent += piece
        answer, is_silent = self.manner
        stream.sendall(answer)
        if is_silent:
            rest_of(stream)


class Node:
    """The running node, and what it was asked so far."""

    def __init__(self, program, folder):
        self.lines, self.fetch, self.other, peer = free_ports(4)
        self.peer = Peer(peer)
        self.peer.start()
        config = folder / "node.toml"
        config.write_text(CONFIG.format(self.lines, self.fetch, self.other, peer, idle=IDLE))
        self.errors = folder / "errors"
        self.writes = 0
        with self.errors.open("wb") as errors:
            words = [program, "serve", config, "--origin", "1"]
            self.process = subprocess.Popen(words, stderr=errors)
        self.await_start()

    def await_start(self):
        for _ in range(100):
            try:
                connect(self.other).close()
                return
            except ConnectionRefusedError:
                time.sleep(0.1)
        fail("the node does not listen")

    def writes_line(self):
        """Has the keeper take a line of the next minute."""
        minute = self.writes
        self.writes += 1
        line = f"m v={minute}i {minute * 60}000000000\n".encode()
        report = ask(self.lines, line)
        if report != b"points 1 samples 1 refused 0\n":
            fail(f"a line is answered by {report}")

    def fetches(self, port):
        """Has a reader answer with the last line that was written."""
        minute = self.writes - 1
        request = f"fetch LAST 60 {minute * 60} {minute * 60 + 60} m v\n".encode()
        answer = ask(port, request)
        if answer != f"m v,{minute * 60},{minute}\n\n".encode():
            fail(f"a fetch is answered by {answer}")

    def goes_on(self):
        """Has every thread of the node do its work."""
        if self.process.poll() is not None:
            fail(f"the node ended with status {self.process.returncode}")
        self.writes_line()
        self.fetches(self.fetch)
        self.fetches(self.other)

    def faults(self):
        """What the node has printed about its peer so far."""
        return self.errors.read_text().splitlines()

    def memory(self):
        """The most memory that the node has held, if the system tells; otherwise 0."""
        status = pathlib.Path(f"/proc/{self.process.pid}/status")
        if not status.exists():
            return 0
        words = dict(line.split(":", 1) for line in status.read_text().splitlines())
        return int(words["VmHWM"].split()[0]) * 1024

    def work(self):
        """The seconds that the node has worked, if the system tells; otherwise 0."""
        stat = pathlib.Path(f"/proc/{self.process.pid}/stat")
        if not stat.exists():
            return 0
        words = stat.read_text().rpartition(")")[2].split()
        return sum(map(int, words[11:13])) / os.sysconf("SC_CLK_TCK")


def expect(what, got, want):
    if got != want:
        fail(f"{what}: {got!r:.200} and not {want!r}")


def is_silent_after(port, text):
    """Sends a text and nothing else; the node has to end the connection in time, without an answer."""
    began = time.monotonic()
    with connect(port) as stream:
        stream.sendall(text)
        expect("silence", rest_of(stream), b"")
    if not IDLE * 0.9 < time.monotonic() - began < IDLE * 3:
        fail("a silent connection is not ended in time")


def line_then_silence(node):
    """A line before the silence is taken, and is published with the next ones."""
    is_silent_after(node.lines, b"late v=5i 0\n")
    node.writes_line()
    answer = ask(node.fetch, b"fetch LAST 60 0 60 late v\n")
    expect("a line before silence", answer, b"late v,0,5\n\n")


def endless_line(port, want):
    """Sends a line of 64 MB, and ends the input."""
    with connect(port) as stream:
        push(stream, b"x" * 65_536, 1_024)
        stream.shutdown(socket.SHUT_WR)
        expect("an endless line", rest_of(stream), want)


def noise(port, last):
    """Sends random bytes; the last line of the answer has to begin with `last`."""
    lines = ask(port, NOISE[:50_000]).rstrip(b"\n").split(b"\n")
    expect("random bytes", lines[-1][:len(last)], last)


def nobody_reads(node, port, piece):
    """Sends much that is answered but reads nothing, until the node ends the connection. Meanwhile the other threads
    have to go on at once."""
    with connect(port) as stream, concurrent.futures.ThreadPoolExecutor() as pool:
        pushing = pool.submit(push, stream, piece, 10_000)
        time.sleep(0.2)
        began = time.monotonic()
        node.fetches(node.other)
        if port == node.fetch:
            node.writes_line()
            node.fetches(node.other)
        if time.monotonic() - began > IDLE * 0.7 or pushing.done():
            fail("another thread of the node is held")
        expect("whether the connection is ended", pushing.result(), True)


def closes_at_once(port):
    connect(port).close()
    stream = connect(port)
    stream.sendall(b"m v=1i 0\nm v")
    reset(stream)


def no_descriptor(node, port):
    """Leaves the node no file descriptor while connections arrive. It must not keep trying to take one."""
    pid, kind = node.process.pid, resource.RLIMIT_NOFILE
    soft, hard = resource.prlimit(pid, kind)
    resource.prlimit(pid, kind, (0, hard))
    waiting = [connect(port) for _ in range(3)]
    before, began = node.work(), time.monotonic()
    time.sleep(3 * IDLE)
    part = (node.work() - before) / (time.monotonic() - began)
    resource.prlimit(pid, kind, (soft, hard))
    for stream in waiting:
        stream.close()
    if part > MOST_WORK:
        fail(f"the node works {part:.2f} of the time while it can take no connection")


def frames(port):
    """Sessions of wrong frames end without an answer."""
    for text in (b"\0\xff\xff\xff", HELLO + HUGE, HELLO + HELLO, b"\0" * 1_000, b"\0" + NOISE):
        with connect(port) as stream:
            push(stream, text, 1)
            expect("a session", rest_of(stream), b"")


def pulls(node, answer, is_silent, fault):
    """Has the node pull once or twice from a peer that answers this way: after each line connection, and before the
    next one is taken."""
    before = len(node.faults())
    node.peer.manner = (answer, is_silent)
    node.goes_on()
    node.writes_line()
    node.peer.manner = (PAGE_END, False)
    node.writes_line()
    expect("a pull", set(node.faults()[before:]), {f"peer 1: {fault}"})


def deeds(node):
    """What is done to the node, by name."""
    big = b"fetch LAST 60 0 6000000 m v\n" * 1_000
    too_long = b"line 1: LineTooLong\npoints 0 samples 0 refused 1\n"
    return {
        "lines: silence": lambda: is_silent_after(node.lines, b""),
        "lines: half a line": lambda: is_silent_after(node.lines, b"m v=1"),
        "lines: a line and silence": lambda: line_then_silence(node),
        "lines: closed at once": lambda: closes_at_once(node.lines),
        "lines: an endless line": lambda: endless_line(node.lines, too_long),
        "lines: random bytes": lambda: noise(node.lines, b"points 0 samples 0 refused "),
        "lines: nobody reads": lambda: nobody_reads(node, node.lines, b"x\n" * 65_536),
        "lines: no descriptor": lambda: no_descriptor(node, node.lines),
        "fetches: silence": lambda: is_silent_after(node.fetch, b""),
        "fetches: half a line": lambda: is_silent_after(node.fetch, b"fetch LAST"),
        "fetches: half a frame": lambda: is_silent_after(node.fetch, HELLO[:9]),
        "fetches: closed at once": lambda: closes_at_once(node.fetch),
        "fetches: an endless line": lambda: endless_line(node.fetch, b"error LineTooLong\n\n"),
        "fetches: random bytes": lambda: noise(node.fetch, b"error BadCommand"),
        "fetches: wrong frames": lambda: frames(node.fetch),
        "fetches: nobody reads": lambda: nobody_reads(node, node.fetch, big),
        "fetches: no descriptor": lambda: no_descriptor(node, node.fetch),
        "a peer: silence": lambda: pulls(node, b"", True, "ReadFailed"),
        "a peer: half a frame": lambda: pulls(node, b"\0\0", False, "Ended"),
        "a peer: a frame of 4 GB": lambda: pulls(node, HUGE, True, "FrameTooLong"),
        "a peer: an unknown frame": lambda: pulls(node, b"\0\0\0\x01\xff", True, "BadFrame"),
        "a peer: a wrong frame": lambda: pulls(node, HELLO, True, "UnexpectedFrame"),
    }


def run(node):
    node.goes_on()
    for name, deed in deeds(node).items():
        deed()
        node.goes_on()
        print(f"{name}: the node goes on", flush=True)
    if node.memory() > MOST_MEMORY:
        fail(f"the node has held {node.memory()} bytes")


def main():
    program = pathlib.Path(sys.argv[1]).resolve()
    with tempfile.TemporaryDirectory() as folder:
        node = Node(program, pathlib.Path(folder))
        try:
            run(node)
        finally:
            node.process.kill()
            node.process.wait()


if __name__ == "__main__":
    main()
