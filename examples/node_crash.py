#!/usr/bin/env python3
"""Kills a node at random moments while it takes lines, and checks that nothing that it acknowledged is lost.

usage: node_crash.py PROGRAM [KILLS] [SEED]

Senders write over HTTP and over line connections, each to a series of its own and each sample to a row of its own, and
note what is acknowledged: a body by 204, a connection by its report. At a random moment the node is killed with
SIGKILL, restarted from its directory, and asked for all rows since the previous kill; at the end it is asked for all
rows. A row that was acknowledged has the value that was written; one that was only sent may have it or not. KILLS is
500 and SEED 1 by default. Status 1: something was lost.
"""

import bisect
import http.client
import pathlib
import random
import socket
import subprocess
import sys
import tempfile
import threading
import time

CONFIG = """\
step = 1
http = "127.0.0.1:{http}"
lines = "127.0.0.1:{lines}"
origins = [1, 60000]
lead = 1_000_000_000_000_000_000
quiet = true

[[archive]]
steps = 1
rows = 100000
xff_num = 0
xff_den = 1
"""

# The second of each series' first row.
BEGIN = 1_700_000_000

# Rows of a series, after which its sender goes on with another one.
ROWS = 50_000


def free_port():
    with socket.socket() as it:
        it.bind(("127.0.0.1", 0))
        return it.getsockname()[1]


class Sender:
    """Writes to a series, row by row, and notes which rows are acknowledged."""

    def __init__(self, name, batch):
        self.name, self.batch = name, batch
        self.next, self.acknowledged = 0, []

    def lines(self):
        rows = range(self.next, self.next + self.batch)
        self.next += self.batch
        return rows, "".join(self.line(row) for row in rows).encode()

    def series(self, row):
        return f"{self.name}g{row // ROWS}"

    def line(self, row):
        return f"{self.series(row)} v={row}i {BEGIN + row % ROWS}000000000\n"

    def run(self, ports, stopped):
        while not stopped.is_set():
            try:
                self.send_all(ports, stopped)
            except (OSError, http.client.HTTPException):
                time.sleep(0.005)


class HttpSender(Sender):
    """Writes bodies over a connection that stays open."""

    def send_all(self, ports, stopped):
        connection = http.client.HTTPConnection("127.0.0.1", ports["http"], timeout=10)
        try:
            while not stopped.is_set():
                rows, text = self.lines()
                connection.request("POST", "/write", text)
                answer = connection.getresponse()
                answer.read()
                if answer.status == 204:
                    self.acknowledged.extend(rows)
        finally:
            connection.close()


class LineSender(Sender):
    """Writes each batch over a connection of its own, in two pieces that split a line."""

    def send_all(self, ports, stopped):
        while not stopped.is_set():
            rows, text = self.lines()
            with socket.create_connection(("127.0.0.1", ports["lines"]), 10) as it:
                it.sendall(text[: len(text) // 2])
                it.sendall(text[len(text) // 2 :])
                it.shutdown(socket.SHUT_WR)
                answer = b""
                while piece := it.recv(4096):
                    answer += piece
            if answer == f"points {len(rows)} samples {len(rows)} refused 0\n".encode():
                self.acknowledged.extend(rows)


class Node:
    """The program as a node."""

    def __init__(self, program, folder, ports):
        self.words = [program, "node", str(folder / "node.toml"), "--data", str(folder / "data")]
        self.ports = ports
        self.process = None

    def start(self):
        self.process = subprocess.Popen(self.words)
        for _ in range(2_000):
            try:
                connection = http.client.HTTPConnection("127.0.0.1", self.ports["http"], timeout=10)
                connection.request("GET", "/ping")
                if connection.getresponse().status == 204:
                    connection.close()
                    return
            except (OSError, http.client.HTTPException):
                if self.process.poll() is not None:
                    sys.exit(f"node_crash.py: the node ended with status {self.process.returncode}")
                time.sleep(0.01)
        sys.exit("node_crash.py: the node doesn't answer")

    def kill(self):
        self.process.kill()
        self.process.wait()

    def values(self, sender, first, last):
        """The value of each known row from `first` on and before `last`, all of one series."""
        start, end = BEGIN + first % ROWS, BEGIN + (last - 1) % ROWS + 1
        query = f"cf=LAST&resolution=1&start={start}&end={end}&key={sender.series(first)}%20v"
        connection = http.client.HTTPConnection("127.0.0.1", self.ports["http"], timeout=60)
        connection.request("GET", f"/fetch?{query}")
        text = connection.getresponse().read().decode()
        connection.close()
        records = [record.rsplit(",", 2) for record in text.splitlines()]
        base = first - first % ROWS
        return {base + int(second) - BEGIN: int(value) for _, second, value in records if value != "U"}


def lost(node, sender, since, until):
    """The acknowledged rows that aren't there or have another value."""
    known = sender.acknowledged
    rows = known[bisect.bisect_left(known, since) : bisect.bisect_left(known, until)]
    found = {}
    while since < until:
        last = min(until, since - since % ROWS + ROWS)
        found |= node.values(sender, since, last)
        since = last
    return [row for row in rows if found.get(row) != row]


def main():
    program = str(pathlib.Path(sys.argv[1]).resolve())
    kills = int(sys.argv[2]) if len(sys.argv) > 2 else 500
    chance = random.Random(int(sys.argv[3]) if len(sys.argv) > 3 else 1)
    ports = {"http": free_port(), "lines": free_port()}
    senders = [HttpSender(f"h{i}", 1 + 9 * i) for i in range(4)] + [LineSender(f"l{i}", 1 + 9 * i) for i in range(2)]
    checked = {sender: 0 for sender in senders}
    count = 0
    with tempfile.TemporaryDirectory(prefix="rr-crash-") as room:
        folder = pathlib.Path(room)
        (folder / "node.toml").write_text(CONFIG.format(**ports))
        node = Node(program, folder, ports)
        node.start()
        stopped = threading.Event()
        threads = [threading.Thread(target=it.run, args=(ports, stopped), daemon=True) for it in senders]
        for it in threads:
            it.start()
        for kill in range(kills):
            time.sleep(chance.uniform(0.01, 0.3))
            node.kill()
            ends = {sender: sender.next for sender in senders}
            node.start()
            for sender in senders:
                if rows := lost(node, sender, checked[sender], ends[sender]):
                    print(f"kill {kill + 1}: {sender.name} lost {len(rows)} acknowledged rows, the first is {rows[0]}")
                    count += len(rows)
                checked[sender] = ends[sender]
        stopped.set()
        for it in threads:
            it.join()
        for sender in senders:
            count += len(lost(node, sender, 0, sender.next))
        node.kill()
        known = sum(len(sender.acknowledged) for sender in senders)
        print(f"{kill + 1} kills, {known} rows acknowledged, {count} lost")
    sys.exit(1 if count or not known else 0)


if __name__ == "__main__":
    main()
