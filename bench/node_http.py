#!/usr/bin/env python3
"""Samples a second into a node over HTTP, from 16 senders at once, beside 4 readers, and into other servers.

    bench/node_http.py PROGRAM [--requests N] [--runs N] [--check]

PROGRAM is the built program, crates/rr_tool/out/rr_tool. Each of 16 senders posts N requests (20 by default) of 1,000
lines each, over a connection that stays open, and posts again what was answered 503: to a node that does nothing else,
and to one from which 4 readers keep fetching 100 rows. Then as many lines are sent over one line connection, and the
same requests to VictoriaMetrics and InfluxDB, if they are installed. A node of `rr node` syncs what it takes to its
journal, in TMPDIR, before it answers; VictoriaMetrics doesn't. Prints samples a second, the server's processor time for
each, including that of the fetches, and how many answers were 503; all this --runs times, each time with new servers.
Run it on an idle machine. With --check it ends with status 1 if the node takes less than 1.5 times what InfluxDB takes
of the same requests, in the median of all runs.
"""

import argparse
import concurrent.futures
import contextlib
import http.client
import os
import pathlib
import shutil
import socket
import statistics
import subprocess
import sys
import tempfile
import threading
import time

from goals import Goals
from peers import InfluxDb, VictoriaMetrics, Work

SENDERS, READERS, LINES = 16, 4, 1000
CONFIG = """\
step = 60
http = "127.0.0.1:{0}"
lines = "127.0.0.1:{1}"
origins = [1, 1000]
lead = 300_000_000_000
quiet = true

[[archive]]
steps = 1
rows = 100000
xff_num = 0
xff_den = 1
"""


def free_ports(count):
    with_ports = [socket.create_server(("127.0.0.1", 0)) for _ in range(count)]
    ports = [listener.getsockname()[1] for listener in with_ports]
    for listener in with_ports:
        listener.close()
    return ports


def lines_of(sender, request):
    start = request * LINES
    return "".join(f"load,from={sender} n={i}i {(start + i) * 60}000000000\n" for i in range(LINES)).encode()


def connected(port):
    """A connection that stays open, and is opened at its first request."""
    return contextlib.closing(http.client.HTTPConnection("127.0.0.1", port, timeout=60))


def post(connection, path, body):
    """Posts a body until it is answered 204. Returns how many answers were 503 before."""
    for tries in range(1000):
        connection.request("POST", path, body)
        answer = connection.getresponse()
        answer.read()
        if answer.status == 204:
            return tries
        if answer.status != 503:
            raise SystemExit(f"node_http.py: {answer.status}")
        time.sleep(0.01)
    raise SystemExit("node_http.py: the node is behind for too long")


def send(port, path, bodies):
    """The same for a sender's bodies."""
    with connected(port) as connection:
        return sum(post(connection, path, body) for body in bodies)


def send_all(port, bodies, path="/write"):
    """The same for all senders, side by side."""
    with concurrent.futures.ThreadPoolExecutor(SENDERS) as pool:
        return sum(pool.map(lambda own: send(port, path, own), bodies))


def send_lines(port, bodies):
    with socket.create_connection(("127.0.0.1", port)) as stream:
        for body in bodies:
            stream.sendall(body)
        stream.shutdown(socket.SHUT_WR)
        while stream.recv(65536):
            pass


def work_of(process):
    """The processor time of a process so far, in seconds."""
    fields = pathlib.Path(f"/proc/{process.pid}/stat").read_text().rsplit(")", 1)[1].split()
    return (int(fields[11]) + int(fields[12])) / os.sysconf("SC_CLK_TCK")


def measured(process, what, samples, run):
    """The result of a run, and how many samples a second it sent to a process."""
    work, began = work_of(process), time.monotonic()
    result = run()
    seconds, work = time.monotonic() - began, work_of(process) - work
    print(f"{what}: {samples / seconds:,.0f} samples a second, {work / samples * 1e6:.2f} us of processor time each", flush=True)
    return result, samples / seconds


def fetch_until(port, ended, counts):
    """Keeps fetching 100 rows, and counts the fetches."""
    with connected(port) as connection:
        while not ended.is_set():
            connection.request("GET", "/fetch?cf=AVERAGE&resolution=60&start=0&end=6000&key=load,from=0+n")
            counts.append(connection.getresponse().read())


def beside_readers(port, run):
    """The result of a run while readers fetch, and how many fetches they made."""
    ended, counts = threading.Event(), []
    readers = [threading.Thread(target=fetch_until, args=(port, ended, counts)) for _ in range(READERS)]
    for reader in readers:
        reader.start()
    result = run()
    ended.set()
    for reader in readers:
        reader.join()
    return result, len(counts)


def await_start(port):
    for _ in range(200):
        try:
            socket.create_connection(("127.0.0.1", port)).close()
            return
        except ConnectionRefusedError:
            time.sleep(0.05)
    raise SystemExit("node_http.py: the node doesn't listen")


@contextlib.contextmanager
def node(program):
    """An empty node: its process, and its ports for HTTP and for lines."""
    with tempfile.TemporaryDirectory() as folder:
        ports = free_ports(2)
        config = pathlib.Path(folder, "node.toml")
        config.write_text(CONFIG.format(*ports))
        process = subprocess.Popen([program, "node", config, "--data", pathlib.Path(folder, "data")])
        try:
            await_start(ports[0])
            yield process, *ports
        finally:
            process.kill()
            process.wait()


class Requests:
    """What all senders post."""

    def __init__(self, requests):
        self.bodies = [[lines_of(sender, i) for i in range(requests)] for sender in range(SENDERS)]
        self.samples = SENDERS * requests * LINES

    def to_node(self, program):
        """How many samples a second a node takes if it does nothing else."""
        with node(program) as (process, web, _):
            what = f"{SENDERS} senders over HTTP"
            behind, rate = measured(process, what, self.samples, lambda: send_all(web, self.bodies))
        print(f"answers that the node is behind: {behind}")
        return rate

    def beside_readers(self, program):
        with node(program) as (process, web, _):
            what, run = f"the same beside {READERS} readers", lambda: send_all(web, self.bodies)
            (behind, count), _ = measured(process, what, self.samples, lambda: beside_readers(web, run))
        print(f"fetches meanwhile: {count}; answers that the node is behind: {behind}")

    def as_lines(self, program):
        flat = [body for own in self.bodies for body in own]
        with node(program) as (process, _, lines):
            measured(process, "one line connection", self.samples, lambda: send_lines(lines, flat))

    def to_peer(self, kind, path):
        """How many samples a second another server takes, if it is installed."""
        if not shutil.which(kind.needs):
            print(f"{kind.name} isn't installed")
            return None
        with tempfile.TemporaryDirectory() as folder:
            server = kind(pathlib.Path(folder), Work(1, 1), None)
            process = subprocess.Popen(server.words, stdout=subprocess.DEVNULL, stderr=subprocess.DEVNULL)
            try:
                server.begin()
                return measured(process, kind.name, self.samples, lambda: send_all(server.port, self.bodies, path))[1]
            finally:
                process.kill()
                process.wait()


def main():
    parser = argparse.ArgumentParser()
    parser.add_argument("program")
    parser.add_argument("--requests", type=int, default=20)
    parser.add_argument("--runs", type=int, default=1)
    parser.add_argument("--check", action="store_true", help="end with status 1 where it is less than 1.5 times InfluxDB's")
    asked = parser.parse_args()
    requests = Requests(asked.requests)
    ours, theirs = [], []
    for _ in range(asked.runs):
        ours.append(requests.to_node(asked.program))
        requests.beside_readers(asked.program)
        requests.as_lines(asked.program)
        requests.to_peer(VictoriaMetrics, "/write?precision=ns")
        theirs.append(requests.to_peer(InfluxDb, "/write?db=m&precision=ns"))
    if not asked.check:
        return 0
    if None in theirs:
        sys.exit("node_http.py: there is no InfluxDB to compare with")
    goals = Goals()
    goals.least("samples a second, of InfluxDB's", statistics.median(ours) / statistics.median(theirs), 1.5)
    return goals.status()


if __name__ == "__main__":
    sys.exit(main())
