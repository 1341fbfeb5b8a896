#!/usr/bin/env python3
"""One-line writes a second into a node over HTTP, one after the other on one connection, and their processor time.

usage: http_writes.py [PROGRAM] [--series SERIES ..] [--check]

Each node of `rr node` holds one sample of each of SERIES series (100 and 100,000 by default), and then takes a sample a
minute of the first one, eight times for a second, in turn with the other nodes. So the figures show how much more a
write costs if the node holds more. Each is synced before it is answered, so the rate, the median of eight, is that of
the disk of TMPDIR. With --check it ends with status 1 if the last node takes less than nine tenths of what the first
one takes.
"""

import argparse
import contextlib
import http.client
import itertools
import os
import pathlib
import statistics
import subprocess
import sys
import tempfile
import time

from goals import Goals
from node_lines import free_port, send
from store import START, TOP

# How many turns each node takes, and the seconds of a turn.
TURNS, SECONDS = 8, 1

CONFIG = """\
step = 60
http = "127.0.0.1:{http}"
lines = "127.0.0.1:{lines}"
origins = [1, 1000]
precision = "s"
quiet = true
lead = 300_000_000_000
[[archive]]
steps = 1
rows = 10
xff_num = 0
xff_den = 1
"""


def processor_seconds(process):
    """The processor time of a process so far."""
    fields = pathlib.Path(f"/proc/{process.pid}/stat").read_text().rpartition(")")[2].split()
    return (int(fields[11]) + int(fields[12])) / os.sysconf("SC_CLK_TCK")


class Writes:
    """The writes into a node that holds a sample of each of its series."""

    def __init__(self, process, port, series):
        self.process, self.series = process, series
        self.connection = http.client.HTTPConnection("127.0.0.1", port)
        self.rows = itertools.count(1)
        self.rates, self.times = [], []

    def write(self):
        """Makes one write, and waits for its answer."""
        row = next(self.rows)
        self.connection.request("POST", "/write?precision=s", body=f"meter,unit=u0 kwh={row}i {START + row * 60}\n")
        answer = self.connection.getresponse()
        answer.read()
        if answer.status != 204:
            sys.exit(f"write {row}: status {answer.status}")

    def take_turn(self):
        """Keeps how many writes were answered a second, and the node's processor time for each."""
        count, work, began = 0, processor_seconds(self.process), time.perf_counter()
        while time.perf_counter() - began < SECONDS:
            self.write()
            count += 1
        self.rates.append(count / (time.perf_counter() - began))
        self.times.append((processor_seconds(self.process) - work) / count)

    def rate(self):
        return statistics.median(self.rates)

    def text(self):
        each = statistics.median(self.times) * 1e6
        return f"{self.series:,} series: {self.rate():,.0f} writes a second, {each:.0f} us of processor time each"


@contextlib.contextmanager
def writes_into(program, series):
    """A node that holds this many series."""
    with tempfile.TemporaryDirectory() as folder:
        ports = {name: free_port() for name in ("lines", "http")}
        config = pathlib.Path(folder, "node.toml")
        config.write_text(CONFIG.format(**ports))
        node = subprocess.Popen([program, "node", config, "--data", pathlib.Path(folder, "data")])
        try:
            send(ports["lines"], "".join(f"meter,unit=u{i} kwh=1i {START}\n" for i in range(series)).encode())
            yield Writes(node, ports["http"], series)
        finally:
            node.kill()
            node.wait()


def main():
    parser = argparse.ArgumentParser(description=__doc__.splitlines()[0])
    parser.add_argument("program", nargs="?", default=str(TOP / "crates/rr_tool/out/rr_tool"))
    parser.add_argument("--series", type=int, nargs="+", default=[100, 100_000])
    parser.add_argument("--check", action="store_true", help="end with status 1 where the last node takes less than the first")
    arguments = parser.parse_args()
    with contextlib.ExitStack() as stack:
        nodes = [stack.enter_context(writes_into(arguments.program, series)) for series in arguments.series]
        for _ in range(TURNS):
            for node in nodes:
                node.take_turn()
    for node in nodes:
        print(node.text())
    goals = Goals()
    first, last = nodes[0], nodes[-1]
    goals.least(f"writes into {last.series:,} series, of those into {first.series:,}", last.rate() / first.rate(), 0.9)
    return goals.status() if arguments.check else 0


if __name__ == "__main__":
    sys.exit(main())
