#!/usr/bin/env python3
"""Counts the instructions of a fetch from a node over TCP, with valgrind.

usage: node_fetches.py [PROGRAM] [--rows ROWS] [--minutes MINUTES]

The node has a sample in each of MINUTES minutes (1,000 by default), and answers fetches of ROWS minutes (100 by
default) on one connection. The figure is the difference of two runs, one with 100 more fetches, divided by that number,
so the start of the node and its lines aren't in it.
"""

import argparse
import pathlib
import re
import socket
import subprocess
import sys
import tempfile

from node_lines import CONFIG, connected, free_port, lines, send
from store import START, TOP

# Fetches of the shorter run; the longer one has twice as many.
FETCHES = 100

KEY = "meter,site=s0,unit=u0 kwh"


def requests(count, rows, minutes):
    """This many fetches, each from another minute on."""
    for number in range(count):
        first = START + number * 37 % (minutes - rows + 1) * 60
        yield f"fetch AVERAGE 60 {first} {first + rows * 60} {KEY}\n"


def instructions(folder, program, count, rows, minutes):
    """The instructions of a node that answers this many fetches."""
    ports = {"lines": free_port(), "fetch": free_port()}
    config = folder / "node.toml"
    config.write_text(CONFIG.format(rows=minutes, **ports))
    tool = ["valgrind", "--tool=callgrind", f"--callgrind-out-file={folder}/callgrind", program]
    node = subprocess.Popen([*tool, "serve", config, "--origin", "1"], stderr=subprocess.PIPE)
    try:
        send(ports["lines"], "".join(lines(1, minutes)).encode())
        with connected(ports["fetch"]) as stream:
            stream.sendall("".join(requests(count, rows, minutes)).encode())
            stream.shutdown(socket.SHUT_WR)
            answer = b"".join(iter(lambda: stream.recv(65536), b""))
        if answer.count(b"\n") != count * (rows + 1) or b",U\n" in answer:
            sys.exit(f"the node answered: {answer[-200:].decode()}")
        told = node.communicate(timeout=60)[1].decode()
        return int(re.search(r"Collected : (\d+)", told).group(1))
    finally:
        node.kill()


def main():
    parser = argparse.ArgumentParser(description=__doc__.splitlines()[0])
    parser.add_argument("program", nargs="?", default=str(TOP / "crates/rr_tool/out/rr_tool"))
    parser.add_argument("--rows", type=int, default=100)
    parser.add_argument("--minutes", type=int, default=1_000)
    words = parser.parse_args()
    with tempfile.TemporaryDirectory() as room:
        shorter, longer = (
            instructions(pathlib.Path(room), words.program, count, words.rows, words.minutes)
            for count in (FETCHES, 2 * FETCHES)
        )
        print(f"a fetch of {words.rows} rows: {(longer - shorter) / FETCHES:,.0f} instructions")


if __name__ == "__main__":
    main()
