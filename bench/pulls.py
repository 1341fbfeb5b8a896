#!/usr/bin/env python3
"""Times pulls over TCP: an empty node pulls from a full one, and then again, with nothing new.

usage: pulls.py [PROGRAM] [--series SERIES] [--minutes MINUTES]

Each of SERIES series (1,000 by default) has a cell in each of MINUTES minutes (1,000 by default). Both nodes run side
by side, and a relay between them counts the bytes. Meanwhile lines are sent to the full one, 1,000 on a connection, one
connection after another. Prints for each pull how long it takes, the processor time of either side, the bytes each way,
and how long the lines waited for their report; and at the end the peak memory of either side.
"""

import argparse
import contextlib
import os
import pathlib
import selectors
import socket
import statistics
import subprocess
import tempfile
import threading
import time

from node_lines import connected, free_port, lines, peak, send
from store import START, TOP

CONFIG = """step = 60
lines = "127.0.0.1:{lines}"
fetch = ["127.0.0.1:{fetch}"]
{more}

[[archive]]
steps = 1
rows = {rows}
xff_num = 0
xff_den = 1
"""

TICKS = os.sysconf("SC_CLK_TCK")

# Lines of a connection that comes while a peer pulls.
BESIDE = 1_000


class Node:
    """A node of the built program, with ports of its own."""

    def __init__(self, folder, program, origin, rows, more=""):
        self.lines, self.fetch = free_port(), free_port()
        config = folder / f"{origin}.toml"
        config.write_text(CONFIG.format(lines=self.lines, fetch=self.fetch, rows=rows, more=more))
        self.process = subprocess.Popen([program, "serve", config, "--origin", str(origin)])

    def seconds(self):
        """Processor time so far."""
        words = pathlib.Path(f"/proc/{self.process.pid}/stat").read_text().rpartition(")")[2].split()
        return (int(words[11]) + int(words[12])) / TICKS


class Relay:
    """Passes each connection on to a port, and counts the bytes each way."""

    def __init__(self, port):
        self.to = port
        self.listener = socket.create_server(("127.0.0.1", 0))
        self.port = self.listener.getsockname()[1]
        self.counts = [0, 0]
        threading.Thread(target=self.serve, daemon=True).start()

    def serve(self):
        while True:
            caller, _ = self.listener.accept()
            with caller, connected(self.to) as called, selectors.DefaultSelector() as waits:
                waits.register(caller, selectors.EVENT_READ, (called, 0))
                waits.register(called, selectors.EVENT_READ, (caller, 1))
                self.pass_on(waits)

    def pass_on(self, waits):
        while waits.get_map():
            for key, _ in waits.select():
                to, way = key.data
                piece = key.fileobj.recv(1 << 18)
                self.counts[way] += len(piece)
                if piece:
                    to.sendall(piece)
                else:
                    waits.unregister(key.fileobj)
                    to.shutdown(socket.SHUT_WR)


class Sender(threading.Thread):
    """Sends lines to a node, one connection after another, until it is told to end."""

    def __init__(self, port, minute):
        super().__init__()
        text = "".join(f"beside,id={one} v=1i {START + minute * 60}000000000\n" for one in range(BESIDE))
        self.port, self.text, self.waits, self.ends = port, text.encode(), [], threading.Event()

    def run(self):
        while not self.ends.is_set():
            self.waits.append(send(self.port, self.text)[1])

    def told(self):
        self.ends.set()
        self.join()
        return f"{BESIDE:,} lines waited {statistics.median(self.waits) * 1e3:.0f} ms in the middle, " \
            f"{max(self.waits) * 1e3:.0f} at most, {len(self.waits)} times"


def pulled(name, giver, puller, relay, minute):
    """Times a pull, which follows the empty line connection: the next one is taken once the pull has ended."""
    send(puller.lines, b"")
    beside = Sender(giver.lines, minute)
    beside.start()
    began, used = time.perf_counter(), (giver.seconds(), puller.seconds())
    relay.counts = [0, 0]
    with contextlib.suppress(ConnectionError):
        send(puller.lines, b"")
    seconds = time.perf_counter() - began
    gave, took = giver.seconds() - used[0], puller.seconds() - used[1]
    print(
        f"{name}: {seconds:.2f} s; processor time of the giver, with the lines, {gave:.2f} s, of the puller {took:.2f} s; "
        f"{relay.counts[0]:,} bytes there, {relay.counts[1]:,} back; {beside.told()}",
        flush=True,
    )


def main():
    parser = argparse.ArgumentParser(description=__doc__.splitlines()[0])
    parser.add_argument("program", nargs="?", default=str(TOP / "crates/rr_tool/out/rr_tool"))
    parser.add_argument("--series", type=int, default=1_000)
    parser.add_argument("--minutes", type=int, default=1_000)
    words = parser.parse_args()
    with tempfile.TemporaryDirectory() as room:
        folder = pathlib.Path(room)
        giver = Node(folder, words.program, 1, words.minutes)
        relay = Relay(giver.fetch)
        puller = Node(folder, words.program, 2, words.minutes, f'peers = ["127.0.0.1:{relay.port}"]')
        try:
            send(giver.lines, "".join(lines(words.series, words.minutes)).encode())
            pulled("first pull", giver, puller, relay, words.minutes - 1)
            pulled("second pull", giver, puller, relay, words.minutes - 1)
            print(f"peak memory: giver {peak(giver.process):,.0f} MB, puller {peak(puller.process):,.0f} MB")
        finally:
            giver.process.kill()
            puller.process.kill()


if __name__ == "__main__":
    main()
