#!/usr/bin/env python3
"""What a node can bear over HTTP: requests a second, by wrk, and how long a good client waits among bad ones.

    bench/http_load.py PROGRAM [--seconds SECONDS] [--parts PART ..] [--check]

PROGRAM is the built program, crates/rr_tool/out/rr_tool; wrk is Debian's package of that name. Each figure is taken
over SECONDS seconds, 5 by default. PART is one of these; all of them are the default:

- reads: wrk with 64 and with 1,000 connections that stay open, for fetches of 100 rows and for /health
- writes: wrk with 16 connections that post 1,000 lines a request, and with 64 that post one; each line is a new row,
  and is synced to the journal, in TMPDIR, before it is answered
- crowd: a client that makes one request after another, alone and beside 1,000 heads and 1,000 bodies that arrive at a
  byte a second, 1,000 connections that send nothing, 300 uploads of 8 MiB that stop before their end, and 1,000 line
  connections that stop within a line. Each of these is opened again a second after the node has ended it. Then the
  node's memory

Prints a line for each figure, and before them how busy the machine was. Run it on an idle machine. With --check it ends
with status 1 if a figure misses its goal: 45,000 fetches and 40,000 requests for /health a second on 64 connections,
39,500 writes of a line; in the crowd, and alone, 20 ms for 99 of 100 short requests, none unanswered; and 300 MB.
"""

import argparse
import asyncio
import contextlib
import http.client
import multiprocessing
import os
import pathlib
import re
import resource
import shutil
import subprocess
import sys
import tempfile
import time

from goals import Goals
from node_http import await_start, connected, free_ports, lines_of, post, work_of

CONFIG = """\
step = 60
http = "127.0.0.1:{0}"
lines = "127.0.0.1:{1}"
origins = [1, 1000]
lead = 300_000_000_000
quiet = true

[[archive]]
steps = 1
rows = 100000
xff_num = 0
xff_den = 1
"""

# File descriptors of the node and of the crowd: a connection has one at either end.
DESCRIPTORS = 10_000

FETCH = "/fetch?cf=AVERAGE&resolution=60&start=0&end=6000&key=load,from=0+n"

# Each thread of wrk writes to 64 series of its own in turn, more than it has requests in flight, so the rows of each
# come in order.
SCRIPT = """\
local threads = 0
function setup(thread)
    thread:set("number", threads)
    threads = threads + 1
end
local sent = 0
function request()
    local series, first = sent % 64, math.floor(sent / 64) * {lines}
    local lines = {{}}
    for row = first, first + {lines} - 1 do
        lines[#lines + 1] = string.format("load,from=%d,part=%d n=%di %d000000000\\n", number, series, row, row * 60)
    end
    sent = sent + 1
    return wrk.format("POST", "/write", nil, table.concat(lines))
end
"""

MIB = 1024**2
HEAD = b"POST /write HTTP/1.1\r\nHost: a\r\nContent-Length: %d\r\n\r\n"

# Those who do what no client should: how many, to which port, what each sends at once, and then each second.
CROWD = {
    "heads at a byte a second": (1_000, "http", b"POST /write HTTP/1.1\r\nHo", b"o"),
    "bodies at a byte a second": (1_000, "http", HEAD % MIB, b"m"),
    "silent connections": (1_000, "http", b"", b""),
    "stalled uploads of 8 MiB": (300, "http", HEAD % (8 * MIB) + b"#" * (8 * MIB - 1), b""),
    "line connections within a line": (1_000, "lines", b"m v=1", b""),
}

# The request of a good client that isn't short.
LONG = "a write of 10,000 lines"

# The requests of a good client: the method, the path, and the body.
ASKED = {
    "/health": ("GET", "/health", None),
    "a fetch of 100 rows": ("GET", FETCH, None),
    "a write of a line": ("POST", "/write", b"good v=1i 0\n"),
    LONG: ("POST", "/write", b"".join(lines_of(1, request) for request in range(10))),
}


class Node:
    """A node with 1,000 rows of a series."""

    def __init__(self, program, folder):
        self.http, self.lines = free_ports(2)
        config = pathlib.Path(folder, "node.toml")
        config.write_text(CONFIG.format(self.http, self.lines))
        self.process = subprocess.Popen([program, "node", config, "--data", pathlib.Path(folder, "data")])
        await_start(self.http)
        with connected(self.http) as connection:
            post(connection, "/write", lines_of(0, 0))

    def memory(self):
        """Its current and its peak memory, in MB."""
        status = pathlib.Path(f"/proc/{self.process.pid}/status").read_text()
        return [int(re.search(rf"{name}:\s+(\d+)", status).group(1)) / 1024 for name in ("VmRSS", "VmHWM")]

    def numbers(self):
        """Its own counts, by name."""
        with connected(self.http) as connection:
            connection.request("GET", "/metrics")
            lines = connection.getresponse().read().decode().splitlines()
        return {name: number for name, _, number in (line.rpartition(" ") for line in lines)}

    def kill(self):
        self.process.kill()
        self.process.wait()


@contextlib.contextmanager
def node(program):
    with tempfile.TemporaryDirectory() as folder:
        it = Node(program, folder)
        try:
            yield it
        finally:
            it.kill()


def wrk(url, connections, seconds, *words):
    """What wrk says about requests to an address: how many a second, and a text of their waits and faults."""
    threads = min(connections, max(2, (os.cpu_count() or 2) // 2))
    words = ["wrk", f"-t{threads}", f"-c{connections}", f"-d{seconds}s", "--latency", *words, url]
    said = subprocess.run(words, capture_output=True, text=True, check=True).stdout
    rate = float(re.search(r"Requests/sec:\s+([\d.]+)", said).group(1))
    waits = [f"{part} % within {wait}" for part, wait in re.findall(r"(?m)^\s*(50|99)%\s+(\S+)", said)]
    faults = re.findall(r"(?:Socket errors|Non-2xx).*", said)
    return rate, "; ".join([", ".join(waits), *faults])


def reads(program, seconds, goals):
    with node(program) as it:
        for what, path, goal in (("a fetch of 100 rows", FETCH, 45_000), ("/health", "/health", 40_000)):
            for connections in (64, 1_000):
                rate, rest = wrk(f"http://127.0.0.1:{it.http}{path}", connections, seconds)
                print(f"{what}, {connections} connections: {rate:,.0f} a second, {rest}", flush=True)
                if connections == 64:
                    goals.least(f"{what} a second", rate, goal)


def writes(program, seconds, goals):
    for connections, lines in ((16, 1_000), (64, 1)):
        with node(program) as it, tempfile.NamedTemporaryFile("w", suffix=".lua") as script:
            script.write(SCRIPT.format(lines=lines))
            script.flush()
            before = work_of(it.process)
            rate, rest = wrk(f"http://127.0.0.1:{it.http}/write", connections, seconds, "-s", script.name)
            each = (work_of(it.process) - before) / (rate * lines * seconds) * 1e6
            what = f"{connections} connections, {lines:,} lines a request: {rate * lines:,.0f} lines a second"
            print(f"{what}, {each:.2f} us of processor time each, {rest}; {it.memory()[1]:,.0f} MB at most", flush=True)
            if lines == 1:
                goals.least("writes of a line a second", rate, 39_500)


async def hold_once(port, begin, more, opened):
    """Holds a connection until the node ends it."""
    reader, writer = await asyncio.open_connection("127.0.0.1", port)
    opened.value += 1
    ended = asyncio.create_task(reader.read())
    try:
        for place in range(0, len(begin), MIB // 16):
            writer.write(begin[place : place + MIB // 16])
            await writer.drain()
        while more and not ended.done():
            writer.write(more)
            await asyncio.wait([ended], timeout=1)
        await ended
    finally:
        ended.cancel()
        writer.close()


async def hold(*what):
    """Holds a connection, and opens it again a second after it has ended."""
    while True:
        with contextlib.suppress(OSError):
            await hold_once(*what)
        await asyncio.sleep(1)


async def hold_all(ports, opened):
    """Holds all connections of the crowd, a thousand of which are opened a second."""
    # A connection that is reset reports it twice.
    asyncio.get_running_loop().set_exception_handler(lambda *_: None)
    held = []
    for count, name, begin, more in CROWD.values():
        for _ in range(count):
            held.append(asyncio.create_task(hold(ports[name], begin, more, opened)))
            await asyncio.sleep(0.001)
    await asyncio.gather(*held)


def crowd_of(ports, opened):
    asyncio.run(hold_all(ports, opened))


@contextlib.contextmanager
def crowd(it):
    """The crowd, in a process of its own; yields how many connections it has opened so far."""
    opened = multiprocessing.Value("l", 0, lock=False)
    ports = {"http": it.http, "lines": it.lines}
    process = multiprocessing.Process(target=crowd_of, args=(ports, opened), daemon=True)
    process.start()
    try:
        while opened.value < sum(count for count, *_ in CROWD.values()):
            time.sleep(0.1)
        yield opened
    finally:
        process.kill()
        process.join()


def asked_once(connection, method, path, body):
    """Whether a request is answered as it should be."""
    try:
        connection.request(method, path, body)
        answer = connection.getresponse()
        answer.read()
        return answer.status in (200, 204)
    except (OSError, http.client.HTTPException):
        connection.close()
        return False


def waits_of(port, seconds, asked, stays):
    """How long each answered request takes, in ms, ascending; and how many aren't answered."""
    waits, faults, end = [], 0, time.monotonic() + seconds
    with connected(port) as connection:
        while time.monotonic() < end:
            began = time.perf_counter()
            if asked_once(connection, *asked):
                waits.append((time.perf_counter() - began) * 1e3)
            else:
                faults += 1
            if not stays:
                connection.close()
    return sorted(waits), faults


def report_waits(it, seconds, among, goals):
    for what, asked in ASKED.items():
        for how, stays in (("on one connection", True), ("on a connection each", False)):
            waits, faults = waits_of(it.http, seconds, asked, stays)
            p50, p99 = (waits[len(waits) * part // 100] if waits else float("nan") for part in (50, 99))
            rest = f"50 % within {p50:.2f} ms, 99 % within {p99:.2f} ms, all within {max(waits, default=0):.1f} ms"
            print(f"{among}, {what} {how}: {rest}, of {len(waits):,}; {faults} not answered", flush=True)
            goals.most(f"{among}, {what} {how}: not answered", faults, 0)
            if what != LONG:
                goals.most(f"{among}, {what} {how}: ms in 99 of 100", p99, 20)


def crowd_part(program, seconds, goals):
    with node(program) as it:
        report_waits(it, seconds, "alone", goals)
        with crowd(it) as opened:
            report_waits(it, seconds, "in the crowd", goals)
            time.sleep(2)
            numbers, (has, most) = it.numbers(), it.memory()
            print(f"opened by the crowd: {opened.value:,}; held by the node: {numbers['rr_connections']}")
        print(f"memory in the crowd: {has:,.0f} MB, {most:,.0f} MB at most; for connections "
              f"{int(numbers['rr_connection_bytes']) / 1e6:,.0f} MB by its own count", flush=True)
        goals.most("MB in the crowd", most, 300)


PARTS = {"reads": reads, "writes": writes, "crowd": crowd_part}


def main():
    words = argparse.ArgumentParser(description=__doc__.splitlines()[0])
    words.add_argument("program")
    words.add_argument("--seconds", type=int, default=5)
    words.add_argument("--parts", nargs="+", choices=PARTS, default=list(PARTS))
    words.add_argument("--check", action="store_true", help="end with status 1 where a figure misses its goal")
    words = words.parse_args()
    if not shutil.which("wrk"):
        sys.exit("http_load.py: there is no wrk: install it")
    _, most = resource.getrlimit(resource.RLIMIT_NOFILE)
    if most < DESCRIPTORS:
        sys.exit(f"http_load.py: {DESCRIPTORS} file descriptors are needed, and {most} may be had")
    resource.setrlimit(resource.RLIMIT_NOFILE, (DESCRIPTORS, most))
    print(f"{os.cpu_count()} processors; their load before: {', '.join(f'{load:.1f}' for load in os.getloadavg())}")
    goals = Goals()
    for part in words.parts:
        PARTS[part](words.program, words.seconds, goals)
    return goals.status() if words.check else 0


if __name__ == "__main__":
    sys.exit(main())
