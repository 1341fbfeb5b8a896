#!/usr/bin/env python3
"""Times the same samples into `rr serve`, `rr node` and other servers, and fetches of them.

usage: peers.py [--series SERIES] [--minutes MINUTES] [--runs RUNS] [--program PROGRAM]

Each of SERIES meters (1,000 by default) has a reading in each of MINUTES minutes (1,000 by default). Each server takes
all of them minute by minute, over one connection, and then answers 5,000 fetches of 100 rows of randomly chosen series,
one after another over one connection; the values are compared with what was sent. `rr serve` is asked over TCP, and
`rr node` over HTTP, as VictoriaMetrics and InfluxDB are; `rr node` and InfluxDB have each request in a synced journal
before they answer it. `librrd` isn't a server: it is called in process. Prints, each from the best of RUNS runs (3
by default), samples and fetches a second, and the server's processor time for each; and of the last run the peak memory
and the bytes on disk. What isn't installed is left out.
"""

import argparse
import contextlib
import http.client
import itertools
import json
import os
import pathlib
import random
import shutil
import socket
import subprocess
import sys
import tempfile
import time
import urllib.parse

from samples import key, line, second, value
from store import TOP

# Samples that are sent at a time.
PIECE = 5_000

# Rows of a fetch, and how many fetches there are.
ROWS = 100
FETCHES = 5_000

TICKS = os.sysconf("SC_CLK_TCK")


class Work:
    """The samples, and what a fetch of the last rows has to answer."""

    def __init__(self, series, minutes):
        self.series, self.minutes = series, minutes
        self.last_minutes = range(max(0, minutes - ROWS), minutes)
        self.first, self.end = second(self.last_minutes.start), second(minutes)
        self.chosen = random.Random(7).choices(range(series), k=FETCHES)

    def pieces(self, text):
        """The samples in order of time, in pieces, each sample as `text` of its meter and minute."""
        samples = (text(one, minute) for minute in range(self.minutes) for one in range(self.series))
        while piece := "".join(itertools.islice(samples, PIECE)):
            yield piece.encode()

    def values(self, one):
        return [value(one, minute) for minute in self.last_minutes]


def processor_time(pid):
    """Seconds of processor time of a process, with all its threads."""
    fields = pathlib.Path(f"/proc/{pid}/stat").read_text().rpartition(")")[2].split()
    return (int(fields[11]) + int(fields[12])) / TICKS


def peak_memory(pid):
    """The peak resident memory of a process, in MB."""
    status = pathlib.Path(f"/proc/{pid}/status").read_text()
    return int(status.partition("VmHWM:")[2].split()[0]) / 1024


def connected(address, family=socket.AF_INET):
    """A stream to a server, which may still be starting."""
    for _ in range(300):
        stream = socket.socket(family)
        try:
            stream.connect(address)
            return stream
        except OSError:
            stream.close()
            time.sleep(0.1)
    raise SystemExit(f"nothing listens on {address}")


class Server:
    """A server that takes the samples."""

    def __init__(self, work):
        self.work = work

    def settle(self):
        """Waits for what is left to do once all samples are taken."""


class Rr(Server):
    """`rr serve` with one reader, which saves a snapshot after the line connection."""

    name, needs = "rr serve", None

    def __init__(self, folder, work, program):
        super().__init__(work)
        self.snapshot = folder / "snapshot"
        config = folder / "node.toml"
        config.write_text(
            'step = 60\nlines = "127.0.0.1:17001"\nfetch = ["127.0.0.1:17002"]\n'
            f"[[archive]]\nsteps = 1\nrows = {work.minutes}\nxff_num = 0\nxff_den = 1\n"
        )
        self.words = [program, "serve", config, "--origin", "1", "--save", self.snapshot]
        self.pieces = list(work.pieces(line))

    def begin(self):
        self.fetches = connected(("127.0.0.1", 17002)).makefile("rwb")
        self.lines = connected(("127.0.0.1", 17001))

    def take(self):
        for piece in self.pieces:
            self.lines.sendall(piece)
        self.lines.shutdown(socket.SHUT_WR)
        report = b"".join(iter(lambda: self.lines.recv(65_536), b""))
        if not report.endswith(b" refused 0\n"):
            raise SystemExit(f"rr serve: {report[-200:]}")

    def settle(self):
        """Waits for the snapshot, which is saved after the report."""
        while not self.snapshot.exists():
            time.sleep(0.1)

    def fetch(self, one):
        self.fetches.write(f"fetch AVERAGE 60 {self.work.first} {self.work.end} {key(one)}\n".encode())
        self.fetches.flush()
        return list(iter(self.fetches.readline, b"\n"))

    def values(self, answer):
        return [int(record.rpartition(b",")[2]) for record in answer]


class Http(Server):
    """A server that takes lines and queries over HTTP."""

    def __init__(self, work):
        super().__init__(work)
        self.pieces = list(work.pieces(line))

    def begin(self):
        connected(("127.0.0.1", self.port)).close()
        self.connection = http.client.HTTPConnection("127.0.0.1", self.port)

    def ask(self, method, path, body=None):
        self.connection.request(method, path, body)
        response = self.connection.getresponse()
        answer = response.read()
        if response.status >= 300:
            raise SystemExit(f"{self.name}: {path}: {response.status} {answer[:200]}")
        return answer


class RrNode(Http):
    """`rr node`, with its directory on the same disk as the others'."""

    name, needs, port = "rr node", None, 17_003

    def __init__(self, folder, work, program):
        super().__init__(work)
        config = folder / "node.toml"
        config.write_text(
            f'step = 60\nhttp = "127.0.0.1:{self.port}"\norigins = [1, 1000]\n'
            f"[[archive]]\nsteps = 1\nrows = {work.minutes}\nxff_num = 0\nxff_den = 1\n"
        )
        self.words = [program, "node", config, "--data", folder / "data"]

    def take(self):
        for piece in self.pieces:
            self.ask("POST", "/write", piece)

    def fetch(self, one):
        times = f"start={self.work.first}&end={self.work.end}"
        return self.ask("GET", f"/fetch?cf=AVERAGE&resolution=60&{times}&key={urllib.parse.quote(key(one))}")

    def values(self, answer):
        return [int(record.rpartition(b",")[2]) for record in answer.splitlines()]


class VictoriaMetrics(Http):
    """A sample can be queried once it is flushed."""

    name, needs, port = "VictoriaMetrics", "victoria-metrics", 18_428

    def __init__(self, folder, work, _):
        super().__init__(work)
        self.words = [
            "victoria-metrics", "-storageDataPath", folder, "-httpListenAddr", f"127.0.0.1:{self.port}",
            "-retentionPeriod", "100y", "-search.latencyOffset", "0s", "-memory.allowedPercent", "30",
        ]  # fmt: skip

    def take(self):
        for piece in self.pieces:
            self.ask("POST", "/write?precision=ns", piece)
        self.ask("GET", "/internal/force_flush")

    def fetch(self, one):
        query = f'avg_over_time(meter_kwh{{site="s{one // 10}",unit="u{one % 10}"}}[1m])'
        times = f"start={self.work.first}&end={self.work.end - 60}&step=60&nocache=1"
        return self.ask("GET", f"/api/v1/query_range?query={urllib.parse.quote(query)}&{times}")

    def values(self, answer):
        return [int(value) for _, value in json.loads(answer)["data"]["result"][0]["values"]]


INFLUX_CONFIG = """reporting-disabled = true
bind-address = "127.0.0.1:18088"
[meta]
dir = "{0}/meta"
[data]
dir = "{0}/data"
wal-dir = "{0}/wal"
query-log-enabled = false
[http]
bind-address = "127.0.0.1:{1}"
log-enabled = false
[monitor]
store-enabled = false
[logging]
level = "error"
"""


class InfluxDb(Http):
    name, needs, port = "InfluxDB", "influxd", 18_086

    def __init__(self, folder, work, _):
        super().__init__(work)
        config = folder / "influx.toml"
        config.write_text(INFLUX_CONFIG.format(folder, self.port))
        self.words = ["influxd", "-config", config]

    def begin(self):
        super().begin()
        self.ask("POST", "/query?q=CREATE%20DATABASE%20m")

    def take(self):
        for piece in self.pieces:
            self.ask("POST", "/write?db=m&precision=ns", piece)

    def fetch(self, one):
        query = (
            f"SELECT mean(kwh) FROM meter WHERE site='s{one // 10}' AND unit='u{one % 10}'"
            f" AND time >= {self.work.first}s AND time < {self.work.end}s GROUP BY time(60s)"
        )
        return self.ask("GET", f"/query?db=m&epoch=s&q={urllib.parse.quote(query)}")

    def values(self, answer):
        return [int(value) for _, value in json.loads(answer)["results"][0]["series"][0]["values"]]


def update(one, minute):
    return f"UPDATE {one}.rrd {second(minute)}:{value(one, minute)}\n"


class Rrdcached(Server):
    """A file for each series, and updates in batches over a socket; they are written later, or at a fetch."""

    name, needs = "rrdcached", "rrdcached"

    def __init__(self, folder, work, _):
        super().__init__(work)
        self.socket = folder / "socket"
        rows = f"RRA:AVERAGE:0.5:1:{work.minutes}"
        words = ["--start", str(second(-1)), "--step", "60", "DS:kwh:GAUGE:120:U:U", rows]
        subprocess.run(["rrdtool", "create", folder / "0.rrd", *words], check=True)
        for one in range(1, work.series):
            shutil.copyfile(folder / "0.rrd", folder / f"{one}.rrd")
        self.words = [
            "rrdcached", "-g", "-b", folder, "-j", folder, "-l", f"unix:{self.socket}",
            "-p", folder / "pid", "-w", "3600", "-f", "7200",
        ]  # fmt: skip
        self.pieces = list(work.pieces(update))

    def begin(self):
        self.stream = connected(str(self.socket), socket.AF_UNIX).makefile("rwb")

    def ask(self, text):
        """Sends a command, and returns the lines of its answer after the first, which has their number."""
        self.stream.write(text)
        self.stream.flush()
        said = self.stream.readline()
        count = int(said.split()[0])
        if count < 0:
            raise SystemExit(f"rrdcached: {said}")
        return [self.stream.readline() for _ in range(count)]

    def take(self):
        for piece in self.pieces:
            self.ask(b"BATCH\n")
            if faults := self.ask(piece + b".\n"):
                raise SystemExit(f"rrdcached: {faults[0]}")

    def fetch(self, one):
        # A row is named by the second at which it ends, which is that of its sample.
        return self.ask(f"FETCH {one}.rrd AVERAGE {self.work.first - 60} {self.work.end - 120}\n".encode())

    def values(self, answer):
        rows = [row.partition(b": ")[2] for row in answer if row[:1].isdigit()]
        return [int(float(row)) for row in rows]


@contextlib.contextmanager
def running(words, log):
    process = subprocess.Popen([str(word) for word in words], stdout=log, stderr=log)
    try:
        yield process
    finally:
        process.terminate()
        process.wait()


def timed(pid, act):
    """The seconds that an act takes, and the processor seconds of a process for it; and its answer."""
    used, began = processor_time(pid), time.perf_counter()
    answer = act()
    return (time.perf_counter() - began, processor_time(pid) - used), answer


def served(kind, folder, work, program):
    """Seconds to take the samples and to fetch, each with the server's seconds; its peak memory and size on disk."""
    server = kind(folder, work, program)
    with open(folder / "log", "wb") as log, running(server.words, log) as process:
        server.begin()
        taking, _ = timed(process.pid, server.take)
        server.settle()
        fetching, answers = timed(process.pid, lambda: [server.fetch(one) for one in work.chosen])
        for one, answer in zip(work.chosen, answers):
            if server.values(answer) != work.values(one):
                raise SystemExit(f"{kind.name}: a fetch answers {answer!r:.300}")
        return *taking, *fetching, peak_memory(process.pid), on_disk(folder)


def on_disk(folder):
    """The size of what is below a folder, in MB."""
    files = (file for file in folder.rglob("*") if file.is_file() and file.name != "log")
    return sum(file.stat().st_size for file in files) / 1e6


def called(folder, work):
    """The same for librrd, which is called in process."""
    script = TOP / "bench/librrd.py"
    words = [script, folder, str(work.series), str(work.minutes), "1", str(FETCHES)]
    run = subprocess.run(words, stdout=subprocess.PIPE)
    if run.returncode:
        sys.exit(1)
    return *map(float, run.stdout.split()), on_disk(folder)


def best(measure, runs):
    """The least seconds of some runs, and the memory and the size on disk of the last."""
    all_runs = []
    for _ in range(runs):
        with tempfile.TemporaryDirectory() as room:
            all_runs.append(measure(pathlib.Path(room)))
    return [min(times) for times in list(zip(*all_runs))[:4]] + list(all_runs[-1][4:])


def report(name, work, figures):
    taking, taken, fetching, fetched, memory, disk = figures
    samples = work.series * work.minutes
    print(
        f"{name:16} {samples / taking:11,.0f} {taken * 1e9 / samples:11,.0f} {FETCHES / fetching:10,.0f}"
        f" {fetched * 1e6 / FETCHES:10,.0f} {memory:8,.0f} {disk:8,.1f}",
        flush=True,
    )


def main():
    parser = argparse.ArgumentParser(description=__doc__.splitlines()[0])
    parser.add_argument("--series", type=int, default=1_000)
    parser.add_argument("--minutes", type=int, default=1_000)
    parser.add_argument("--runs", type=int, default=3)
    parser.add_argument("--program", default=str(TOP / "crates/rr_tool/out/rr_tool"))
    words = parser.parse_args()
    work = Work(words.series, words.minutes)
    print(f"{work.series * work.minutes:,} samples of {work.series:,} series")
    heads = f"{'samples/s':>11} {'ns a sample':>11} {'fetches/s':>10} {'us a fetch':>10}"
    print(f"{'':16} {heads} {'peak MB':>8} {'disk MB':>8}")
    for kind in [Rr, RrNode, VictoriaMetrics, InfluxDb, Rrdcached]:
        if kind.needs and not shutil.which(kind.needs):
            print(f"{kind.name} isn't installed")
            continue
        report(kind.name, work, best(lambda folder: served(kind, folder, work, words.program), words.runs))
    report("librrd", work, best(lambda folder: called(folder, work), words.runs))


if __name__ == "__main__":
    main()
