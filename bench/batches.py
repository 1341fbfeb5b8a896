#!/usr/bin/env python3
"""What a batch, a checkpoint and a start cost a node whose directory holds many cells: `rr node`.

usage: batches.py [PROGRAM] [--cells CELLS] [--check]

The node takes CELLS samples (4,000,000 by default) of 4,000 series, each a new cell, over HTTP. Printed are how many a
second it takes, and then:

- the node's processor time for a request with 1,000 new samples, one of each of 1,000 series, the mean of 50;
- how long a one-line write waited at most while a checkpoint was written, and how long the checkpoint took;
- the peak memory;
- how long a start after a kill took, up to the first answer, and how many bytes the directory had.

The node's directory is made in TMPDIR. Status 1: the node answers otherwise than expected; with --check also if a
request takes more than 20 ms, a write waits for more than 50 ms, or a start takes more than 5 s.
"""

import argparse
import contextlib
import http.client
import os
import pathlib
import subprocess
import sys
import tempfile
import time

from goals import Goals
from node_lines import free_port, peak
from store import START, TOP

SERIES = 4_000

# Lines of a body.
BODY = 50_000

CONFIG = """step = 60
http = "127.0.0.1:{http}"
origins = [1, 1000]
precision = "s"
lead = 300_000_000_000
quiet = true
[[archive]]
steps = 1
rows = {rows}
xff_num = 0
xff_den = 1
"""


def processor_seconds(process):
    """The processor time of a process so far."""
    fields = pathlib.Path(f"/proc/{process.pid}/stat").read_text().rpartition(")")[2].split()
    return (int(fields[11]) + int(fields[12])) / os.sysconf("SC_CLK_TCK")


class Node:
    """A node with its directory in a folder."""

    def __init__(self, program, folder, rows):
        self.port, self.data = free_port(), folder / "data"
        self.config = folder / "node.toml"
        self.config.write_text(CONFIG.format(http=self.port, rows=rows))
        self.words = [program, "node", self.config, "--data", self.data]
        self.start()

    def start(self):
        """Starts it, and returns the seconds up to its first answer."""
        before = time.perf_counter()
        self.process = subprocess.Popen(self.words)
        while True:
            with contextlib.suppress(OSError):
                self.connection = http.client.HTTPConnection("127.0.0.1", self.port)
                self.connection.request("GET", "/health")
                self.connection.getresponse().read()
                return time.perf_counter() - before
            if self.process.poll() is not None:
                sys.exit(f"the node ended with status {self.process.returncode}")
            time.sleep(0.01)

    def kill(self):
        self.process.kill()
        self.process.wait()

    def write(self, body):
        """Has it take lines, and returns the seconds up to the answer."""
        before = time.perf_counter()
        self.connection.request("POST", "/write", body=body)
        answer = self.connection.getresponse()
        told = answer.read()
        if answer.status != 204:
            sys.exit(f"a write was answered {answer.status}: {told[:200].decode()}")
        return time.perf_counter() - before

    def files(self, end):
        return [it for it in self.data.iterdir() if it.name.endswith(end)]

    def bytes(self):
        return sum(it.stat().st_size for it in self.data.iterdir())


def bodies(series, first, minutes):
    """Bodies of lines, one line for each series and minute."""
    lines = []
    for minute in range(first, first + minutes):
        for one in range(series):
            value = (one * 7919 + minute * 104_729) % 100_000
            lines.append(f"meter,unit=u{one} kwh={value}i {START + minute * 60}\n")
            if len(lines) == BODY:
                yield "".join(lines)
                lines = []
    if lines:
        yield "".join(lines)


def batch(node, minute):
    """The node's processor time for a request with 1,000 new samples."""
    count = 50
    texts = [next(bodies(1_000, minute + i, 1)) for i in range(count)]
    before = processor_seconds(node.process)
    for text in texts:
        node.write(text)
    return (processor_seconds(node.process) - before) / count


def checkpoint(node, minute):
    """How long a one-line write waited at most while a checkpoint was written, and how long the checkpoint took."""
    known = {it.name for it in node.files(".rrj")}
    for text in bodies(SERIES, minute, 4_000):
        node.write(text)
        if node.files(".new"):
            break
    else:
        sys.exit("no checkpoint began")
    began, longest, second = time.perf_counter(), 0.0, START
    while node.files(".new"):
        second += 60
        longest = max(longest, node.write(f"beside v=1i {second}\n"))
    took = time.perf_counter() - began
    if not any(it.name.startswith("checkpoint") for it in node.files(".rrj") if it.name not in known):
        sys.exit("the checkpoint was given up")
    return longest, took


def main():
    parser = argparse.ArgumentParser(description=__doc__.splitlines()[0])
    parser.add_argument("program", nargs="?", default=str(TOP / "crates/rr_tool/out/rr_tool"))
    parser.add_argument("--cells", type=int, default=4_000_000)
    parser.add_argument("--check", action="store_true", help="end with status 1 where a figure misses its goal")
    words = parser.parse_args()
    minutes = words.cells // SERIES
    goals = Goals()
    with tempfile.TemporaryDirectory() as room:
        node = Node(words.program, pathlib.Path(room), 100_000)
        try:
            seconds = sum(node.write(text) for text in bodies(SERIES, 0, minutes))
            print(f"{minutes * SERIES:,} samples in bodies of {BODY:,}: {minutes * SERIES / seconds:,.0f} a second")
            spent = batch(node, minutes) * 1e3
            print(f"a request with 1,000 new samples: {spent:.1f} ms of processor time")
            goals.most("ms of processor time of a request", spent, 20)
            longest, took = checkpoint(node, minutes + 50)
            print(f"a line beside a checkpoint of {took:.1f} s waited {longest * 1e3:.0f} ms at most")
            goals.most("ms that a line waited", longest * 1e3, 50)
            print(f"memory: {peak(node.process):,.0f} MB at most")
            node.kill()
            size = node.bytes()
            took = node.start()
            print(f"a start: {took:.1f} s, from {size / 1e6:,.0f} MB")
            goals.most("s of a start", took, 5)
        finally:
            node.kill()
    return goals.status() if words.check else 0


if __name__ == "__main__":
    sys.exit(main())
