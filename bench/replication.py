#!/usr/bin/env python3
"""What it costs a node of `rr node` to follow another one.

usage: replication.py [PROGRAM] [--cells CELLS] [--seconds SECONDS] [--check]

A node takes CELLS samples (4,000,000 by default) of 4,000 series, each a new cell. Then these are printed:

- how long a new node took from its start to hold all of these, its peak memory, and the bytes that went between the
  two;
- with nothing new, for SECONDS (60 by default): the processor time of both, and the bytes between them, a minute;
- for a body of 1,000 new samples, one of each of 1,000 series, the median of 20: how long it took from the first node's
  204 until the other one answered with the last of them, and the bytes between them.

The nodes' directories are made in TMPDIR. Status 1: a node answers otherwise than expected; with --check also if
nothing new takes more than 0.05 s of a node's processor time or 10 KB a minute, or 1,000 samples more than 1.5 s or
100 KB.
"""

import argparse
import pathlib
import socket
import statistics
import sys
import tempfile
import threading
import time

from batches import SERIES, Node, bodies, processor_seconds
from goals import Goals
from node_lines import peak
from store import START, TOP


class Between:
    """Passes on what arrives at a port, and counts its bytes."""

    def __init__(self, target):
        self.target, self.bytes = target, 0
        self.listener = socket.create_server(("127.0.0.1", 0))
        self.port = self.listener.getsockname()[1]
        threading.Thread(target=self.accept, daemon=True).start()

    def accept(self):
        while True:
            one, _ = self.listener.accept()
            other = socket.create_connection(("127.0.0.1", self.target))
            for pair in ((one, other), (other, one)):
                threading.Thread(target=self.pump, args=pair, daemon=True).start()

    def pump(self, one, other):
        try:
            while piece := one.recv(65_536):
                self.bytes += len(piece)
                other.sendall(piece)
        except OSError:
            pass
        one.close()
        other.close()


class Follower(Node):
    """A node that follows another one."""

    def __init__(self, program, folder, rows, peer):
        folder.mkdir()
        self.peer = peer
        super().__init__(program, folder, rows)

    def start(self):
        text = self.config.read_text()
        if "peers" not in text:
            text = text.replace("[1, 1000]", f'[1001, 2000]\npeers = ["127.0.0.1:{self.peer}"]')
            self.config.write_text(text)
        return super().start()


def ask(node, target):
    """What a node answers to a request on a connection of its own."""
    node.connection.close()
    node.connection.request("GET", target)
    return node.connection.getresponse().read()


def answered(node, series, minute):
    """Whether the node answers with a value of a series for this minute."""
    start = START + minute * 60
    target = f"/fetch?cf=LAST&resolution=60&start={start}&end={start + 60}&key=meter%2Cunit%3Du{series}%20kwh"
    text = ask(node, target)
    return bool(text.strip()) and not text.strip().endswith(b",U")


def lag(node):
    """How many bytes of its peer's journal a node says it hasn't read."""
    for line in ask(node, "/metrics").decode().splitlines():
        if line.startswith("rr_peer_lag_bytes{"):
            return int(line.split()[1])
    return None


def new_samples(first, second, between, minute):
    """The seconds until the other node answers with a body's last sample, and the bytes between them."""
    text = next(bodies(1_000, minute, 1))
    before = between.bytes
    first.connection.close()
    first.write(text)
    began = time.perf_counter()
    while not answered(second, 999, minute):
        time.sleep(0.005)
    took = time.perf_counter() - began
    time.sleep(2)
    return took, between.bytes - before


def main():
    parser = argparse.ArgumentParser(description=__doc__.splitlines()[0])
    parser.add_argument("program", nargs="?", default=str(TOP / "crates/rr_tool/out/rr_tool"))
    parser.add_argument("--cells", type=int, default=4_000_000)
    parser.add_argument("--seconds", type=int, default=60)
    parser.add_argument("--check", action="store_true", help="end with status 1 where a figure misses its goal")
    words = parser.parse_args()
    minutes = words.cells // SERIES
    goals = Goals()
    nodes = []
    with tempfile.TemporaryDirectory() as room:
        try:
            first = Node(words.program, pathlib.Path(room), 100_000)
            nodes.append(first)
            for text in bodies(SERIES, 0, minutes):
                first.write(text)
            between = Between(first.port)
            began = time.perf_counter()
            second = Follower(words.program, pathlib.Path(room, "second"), 100_000, between.port)
            nodes.append(second)
            while not answered(second, SERIES - 1, minutes - 1) or not answered(second, 0, 0):
                time.sleep(0.05)
            took = time.perf_counter() - began
            print(f"a new node held {minutes * SERIES:,} cells after {took:.1f} s: {between.bytes / 1e6:,.1f} MB, "
                  f"{processor_seconds(second.process):.1f} s of its processor time and "
                  f"{processor_seconds(first.process):.1f} s of the other's since its start, "
                  f"{peak(second.process):,.0f} MB at most")
            time.sleep(15)
            if lag(second) != 0:
                sys.exit(f"{lag(second)} bytes of the journal aren't read")
            before = [processor_seconds(it.process) for it in nodes], between.bytes
            time.sleep(words.seconds)
            per_minute = 60 / words.seconds
            spent = [(processor_seconds(it.process) - was) * per_minute for it, was in zip(nodes, before[0])]
            size = (between.bytes - before[1]) * per_minute
            print(f"nothing new: {spent[0]:.3f} and {spent[1]:.3f} s of processor time and {size:,.0f} bytes a minute")
            goals.most("s of processor time with nothing new", max(spent), 0.05)
            goals.most("bytes with nothing new", size, 10_000)
            found = [new_samples(first, second, between, minutes + i) for i in range(20)]
            took, size = (statistics.median(it[place] for it in found) for place in (0, 1))
            print(f"1,000 new samples: answered by the other node after {took:.2f} s, "
                  f"{max(it[0] for it in found):.2f} s at most, {size:,.0f} bytes")
            goals.most("s until new samples are answered", took, 1.5)
            goals.most("bytes of new samples", size, 100_000)
        finally:
            for node in nodes:
                node.kill()
    return goals.status() if words.check else 0


if __name__ == "__main__":
    sys.exit(main())
