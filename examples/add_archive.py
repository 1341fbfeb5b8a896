#!/usr/bin/env python3
"""Nodes with directories that are restarted with one more archive.

usage: add_archive.py PROGRAM [KILLS] [SEED]

A node with one-minute rows takes rows of 500 series, and another one follows it. Both are killed. An archive with five-
minute rows is added to the configuration of the first, which is killed with SIGKILL at random moments while it starts,
each time from a copy of its directory; then it starts for good: the minutes are there, and the new archive has no row,
but takes what comes from then on. The other one is refused as SchemaDiffers until it has the archive too, and then
answers as the first does. Without the archive the first no longer starts, and says why. KILLS is 30 and SEED 1 by
default. Ends with status 1 if anything else happens.
"""

import http.client
import pathlib
import random
import shutil
import subprocess
import sys
import tempfile
import time

from http_node import check, fail, free_ports

CONFIG = """\
step = 60
http = "127.0.0.1:{0}"
origins = [{1}, {2}]
lead = 1_000_000_000_000_000_000
quiet = true
"""
PEER = 'peers = ["127.0.0.1:{0}"]\n'
MINUTES = "[[archive]]\nsteps = 1\nrows = 2000\nxff_num = 0\nxff_den = 1\n"
FIVE = "[[archive]]\nsteps = 5\nrows = 400\nxff_num = 0\nxff_den = 1\n"

# The second of the first row, the number of series, and how many rows each has at first and gets with the new archive.
BEGIN, SERIES, ROWS, MORE = 1_700_000_100, 500, 400, 10


def value(series, row):
    return (series * 7919 + row * 104_729) % 1_000_000


class Node:
    """A node in a folder, and what it is asked."""

    def __init__(self, program, folder, name, origins):
        self.program, self.origins = program, origins
        self.config, self.data = folder / f"{name}.toml", folder / name
        (self.port,) = free_ports(1)
        self.process = None

    def start(self, archives, peer=None):
        text = CONFIG.format(self.port, *self.origins) + (PEER.format(peer.port) if peer else "") + archives
        self.config.write_text(text)
        words = [self.program, "node", self.config, "--data", self.data]
        self.process = subprocess.Popen(words, stderr=subprocess.PIPE, text=True)

    def ask(self, method, path, body=None):
        connection = http.client.HTTPConnection("127.0.0.1", self.port, timeout=60)
        connection.request(method, path, body)
        answer = connection.getresponse()
        return answer.status, answer.read().decode()

    def await_health(self):
        while True:
            try:
                self.ask("GET", "/health")
                return
            except OSError:
                if self.process.poll() is not None:
                    fail(f"a node ended: {self.process.stderr.read()}")
                time.sleep(0.01)

    def kill(self):
        self.process.kill()
        return self.process.communicate()[1]

    def write(self, rows):
        for row in rows:
            seconds = BEGIN + row * 60
            lines = "".join(f"m,n={n} v={value(n, row)}i {seconds}000000000\n" for n in range(SERIES))
            if self.ask("POST", "/write", lines)[0] != 204:
                fail("a write isn't taken")

    def values(self, series, resolution, first, count):
        """The values of this many rows of a series, at a resolution in seconds, from a second on."""
        end = first + count * resolution
        query = f"cf=LAST&resolution={resolution}&start={first}&end={end}&key=m,n={series}+v"
        status, text = self.ask("GET", f"/fetch?{query}")
        return [row.rpartition(",")[2] for row in text.splitlines()] if status == 200 else [str(status)]


def minutes(rows):
    """What is expected of each minute."""
    return {n: [str(value(n, row)) for row in rows] for n in range(0, SERIES, 61)}


def all_minutes(node, count):
    return {n: node.values(n, 60, BEGIN, count) for n in range(0, SERIES, 61)}


def names_in(folder):
    return {it.name for it in folder.iterdir() if it.suffix == ".rrj"}


def moment_of(old, now):
    """Where in an upgrade a node was killed, judging by the files that it left."""
    new = now - old
    if not new:
        return "before"
    return "within" if len(new) == 1 or old & now else "after"


def seconds_of_start(node, kept):
    """How long a start with the archive takes from a copy of a directory."""
    shutil.rmtree(node.data)
    shutil.copytree(kept, node.data)
    began = time.monotonic()
    node.start(MINUTES + FIVE)
    node.await_health()
    took = time.monotonic() - began
    node.kill()
    return took


def killed_starts(node, kills, draw, kept):
    """Kills the node while it starts with the archive, each time from a copy of its directory. Returns how often it was
    killed at which moment."""
    seen = {"before": 0, "within": 0, "after": 0}
    took = seconds_of_start(node, kept)
    for _ in range(kills):
        shutil.rmtree(node.data)
        shutil.copytree(kept, node.data)
        node.start(MINUTES + FIVE)
        time.sleep(draw.uniform(0.5 * took, 1.05 * took))
        node.kill()
        seen[moment_of(names_in(kept), names_in(node.data))] += 1
        node.start(MINUTES + FIVE)
        node.await_health()
        if all_minutes(node, ROWS) != minutes(range(ROWS)):
            fail("rows are lost in an upgrade that was killed")
        node.kill()
    return seen


def main():
    if not 2 <= len(sys.argv) <= 4:
        sys.exit(__doc__)
    program = pathlib.Path(sys.argv[1]).resolve()
    kills = int(sys.argv[2]) if len(sys.argv) > 2 else 30
    draw = random.Random(int(sys.argv[3]) if len(sys.argv) > 3 else 1)
    with tempfile.TemporaryDirectory() as room:
        folder = pathlib.Path(room)
        first = Node(program, folder, "first", (1, 1000))
        other = Node(program, folder, "other", (1001, 2000))
        first.start(MINUTES)
        first.await_health()
        other.start(MINUTES, first)
        other.await_health()
        first.write(range(ROWS))
        await_alike(other, ROWS)
        print(f"{SERIES * ROWS:,} samples are at both nodes")
        first.kill()
        other.kill()
        kept = folder / "kept"
        shutil.copytree(first.data, kept)
        seen = killed_starts(first, kills, draw, kept)
        print(f"{kills} starts killed, {seen['before']} before the checkpoint, {seen['within']} before the journal's "
              f"first file or with older files, {seen['after']} after: nothing is lost")
        first.start(MINUTES + FIVE)
        first.await_health()
        check("the minutes", all_minutes(first, ROWS), minutes(range(ROWS)))
        five = BEGIN - BEGIN % 300
        check("five minutes, at first", first.values(0, 300, five, 10), ["U"] * 10)
        first.write(range(ROWS, ROWS + MORE))
        later = BEGIN + ROWS * 60
        five = later - later % 300 + 300
        row = (five + 240 - BEGIN) // 60
        check("five minutes, of what came since", first.values(0, 300, five, 1), [str(value(0, row))])
        other.start(MINUTES, first)
        other.await_health()
        time.sleep(2)
        said = other.kill()
        check("the other one, without the archive", set(said.splitlines()), {"peer 1: SchemaDiffers"})
        other.start(MINUTES + FIVE, first)
        other.await_health()
        await_alike(other, ROWS + MORE)
        check("the other one, with the archive", other.values(0, 300, five, 1), [str(value(0, row))])
        first.kill()
        other.kill()
        first.start(MINUTES)
        said = first.process.communicate(timeout=60)[1].splitlines()
        check("without the archive it ends with", first.process.returncode, 3)
        own, has = "step 60, archives 1x2000 0/1", "step 60, archives 1x2000 0/1 5x400 0/1"
        check("and says", said[0], f"rr: {first.data}: has {has}; the configuration has {own}")


def await_alike(node, count):
    """Waits until a node has this many rows of each series, for a minute at most."""
    until = time.monotonic() + 60
    while all_minutes(node, count) != minutes(range(count)):
        if time.monotonic() > until:
            fail("the other node doesn't have the rows of the first")
        time.sleep(0.2)


if __name__ == "__main__":
    main()
