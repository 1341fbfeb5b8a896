#!/usr/bin/env python3
"""Times lines over TCP into a node: `rr serve`, one line connection.

usage: node_lines.py [PROGRAM] [--series SERIES] [--minutes MINUTES] [--fields 1|3] [--count]

Each of SERIES meters (1,000 by default) sends a line in each of MINUTES minutes (1,000 by default). A line has one
field unless --fields is 3, and each field is a sample of a series of its own and a new cell. Prints how many lines a
second are taken, from the first byte sent to the report, the best of three nodes, and the peak memory. With --count,
prints the instructions of a line instead, by valgrind: the difference of two runs, one with 100,000 more lines.
"""

import argparse
import pathlib
import re
import signal
import socket
import subprocess
import sys
import tempfile
import time
import tomllib

from store import START, TOP

# Lines of the shorter counted run; the longer one has twice as many.
COUNTED = 100_000

CONFIG = """step = 60
lines = "127.0.0.1:{lines}"
fetch = ["127.0.0.1:{fetch}"]
rounds = 1
visits = 1

[[archive]]
steps = 1
rows = {rows}
xff_num = 0
xff_den = 1
"""


# The fields of a line, as a sender sorts them.
FIELDS = {1: ("kwh",), 3: ("kwh", "volt", "watt")}


def lines(series, minutes, fields=1):
    """Lines of this many fields and two tags, minute by minute."""
    for minute in range(minutes):
        for one in range(series):
            names = f"meter,site=s{one // 10},unit=u{one % 10}"
            value = (one * 7919 + minute * 104_729) % 100_000
            said = ",".join(f"{field}={value}i" for field in FIELDS[fields])
            yield f"{names} {said} {START + minute * 60}000000000\n"


def plant_config(keys):
    """A configuration of `rr serve` with these keys, and with the step and the archives of examples/rr.toml."""
    text = (TOP / "examples/rr.toml").read_text()
    archives = text[text.index("\n[[archive]]") :]
    return f"step = {tomllib.loads(text)['step']}\n{keys}{archives}"


def free_port():
    with socket.create_server(("127.0.0.1", 0)) as server:
        return server.getsockname()[1]


def connected(port):
    """A connection to a port, as soon as something listens there."""
    for _ in range(600):
        try:
            return socket.create_connection(("127.0.0.1", port))
        except ConnectionRefusedError:
            time.sleep(0.1)
    sys.exit(f"nothing listens on port {port}")


def send(port, text):
    """Sends a text on one connection, and returns the report and the seconds up to it."""
    with connected(port) as stream:
        before = time.perf_counter()
        stream.sendall(text)
        stream.shutdown(socket.SHUT_WR)
        report = b"".join(iter(lambda: stream.recv(65536), b""))
        return report, time.perf_counter() - before


def peak(process):
    """The peak memory of a process in MB."""
    text = pathlib.Path(f"/proc/{process.pid}/status").read_text()
    return int(re.search(r"VmHWM:\s+(\d+)", text).group(1)) / 1024


def taken(folder, words, text, minutes):
    """Has a node take a text; returns the seconds, the peak memory, and what it said on standard error."""
    ports = {"lines": free_port(), "fetch": free_port()}
    config = folder / "node.toml"
    config.write_text(CONFIG.format(rows=minutes, **ports))
    node = subprocess.Popen([*words, "serve", config, "--origin", "1"], stderr=subprocess.PIPE)
    try:
        report, seconds = send(ports["lines"], text)
        memory = peak(node)
        if b" refused 0\n" not in report or b"line" in report:
            sys.exit(f"the node answered: {report[-200:].decode()}")
        # The one visit that the node's reader waits for, after which the node ends.
        connected(ports["fetch"]).close()
        return seconds, memory, node.communicate(timeout=60)[1].decode()
    finally:
        node.kill()


def instructions(folder, program, text, minutes):
    """The instructions of a node that takes a text."""
    tool = ["valgrind", "--tool=callgrind", f"--callgrind-out-file={folder}/callgrind", program]
    _, _, told = taken(folder, tool, text, minutes)
    return int(re.search(r"Collected : (\d+)", told).group(1))


def instructions_a_line(folder, program, series=1_000, fields=1):
    """The instructions of a line that a node takes."""
    minutes = COUNTED // series
    short, long = (
        instructions(folder, program, "".join(lines(series, n, fields)).encode(), 2 * minutes)
        for n in (minutes, 2 * minutes)
    )
    return (long - short) / (minutes * series)


def main():
    parser = argparse.ArgumentParser(description=__doc__.splitlines()[0])
    parser.add_argument("program", nargs="?", default=str(TOP / "crates/rr_tool/out/rr_tool"))
    parser.add_argument("--series", type=int, default=1_000)
    parser.add_argument("--minutes", type=int, default=1_000)
    parser.add_argument("--fields", type=int, default=1, choices=FIELDS)
    parser.add_argument("--count", action="store_true")
    words = parser.parse_args()
    with tempfile.TemporaryDirectory() as room:
        folder = pathlib.Path(room)
        if words.count:
            count = instructions_a_line(folder, words.program, words.series, words.fields)
            print(f"{count:,.0f} instructions a line")
            return
        text = "".join(lines(words.series, words.minutes, words.fields)).encode()
        runs = [taken(folder, [words.program], text, words.minutes) for _ in range(3)]
        rate = words.series * words.minutes / min(seconds for seconds, _, _ in runs)
        print(f"{rate:,.0f} lines a second, {max(memory for _, memory, _ in runs):,.0f} MB at most")


if __name__ == "__main__":
    main()
