#!/usr/bin/env python3
"""A node that pulls and saves at intervals, and what it tells its operator.

    examples/operating.py PROGRAM

PROGRAM is the built program. Refused configurations, snapshots and addresses are reported with the reason. A node with
`every` saves even if no line comes, calls a silent peer less and less often, and says what its rounds did, on standard
error and in a file of counts. A node that saves once an hour saves at once if an empty line connection asks it to. Two
nodes under one origin, and two of different steps, are reported. Ends with status 1 if anything else happens.
"""

import atexit
import pathlib
import re
import socket
import subprocess
import sys
import tempfile
import time

LINES, FETCH, PEER = 8141, 8142, 8143
OTHER_LINES, OTHER_FETCH = 8144, 8145

# Nanoseconds of a year, which is past the horizon of the archive below.
YEAR = 31_536_000_000_000_000

ARCHIVE = "[[archive]]\nsteps = 1\nrows = 1440\nxff_num = 0\nxff_den = 1\n"


def config(more="", step=60, lines=LINES, fetch=FETCH):
    """The text of a configuration, with additional keys."""
    return (
        f'step = {step}\nlines = "127.0.0.1:{lines}"\nfetch = ["127.0.0.1:{fetch}"]\n'
        f"lead = 300_000_000_000\n{more}{ARCHIVE}"
    )


def check(what, is_so, said=""):
    print(f"{what}: {'yes' if is_so else 'no'}")
    if not is_so:
        sys.exit(said)


def send(text, port=LINES):
    """The answer to lines."""
    for _ in range(100):
        try:
            with socket.create_connection(("127.0.0.1", port), timeout=20) as stream:
                stream.sendall(text.encode())
                stream.shutdown(socket.SHUT_WR)
                return b"".join(iter(lambda: stream.recv(65536), b"")).decode()
        except ConnectionRefusedError:
            time.sleep(0.1)
    sys.exit(f"nothing listens on port {port}")


class Node:
    """A node in a folder, with a configuration and more arguments."""

    def __init__(self, program, folder, text, *words):
        self.file = folder / "node.toml"
        self.file.write_text(text)
        self.snapshot = folder / "node.snapshot"
        words = [program, "serve", self.file, "--origin", "1", *words]
        self.process = subprocess.Popen(words, stderr=subprocess.PIPE, text=True, cwd=folder)
        atexit.register(self.process.kill)

    def end(self):
        """Ends it, and returns its lines on standard error."""
        self.process.kill()
        return self.process.communicate()[1].splitlines()


def refused(program, folder, what, text, status, last, *words):
    """Checks a node that doesn't start: its last line, and the one before it, which says why."""
    node = Node(program, folder, text, *words)
    *_, why, line = node.process.communicate(timeout=60)[1].splitlines()
    print(f"{what}: {why.replace(str(node.file), 'node.toml')}")
    if (node.process.returncode, line) != (status, last) or not why.startswith("rr: "):
        sys.exit(f"status {node.process.returncode}, {why}, {line}")


def refusals(program, folder):
    rows = ARCHIVE.replace("1440", "0")
    refused(program, folder, "no rows", config().replace(ARCHIVE, rows), 2, "config: BadRows")
    refused(program, folder, "a text for a number", config('idle = "1"\n'), 2, "config: WrongKind")
    refused(program, folder, "no TOML", config("idle =\n"), 2, "config: BadToml")
    refused(program, folder, "no snapshot", config(), 2, "load: BadMagic", "--load", "node.toml")
    refused(program, folder, "no folder", config(), 3, "rr: write failed", "--save", "no/folder")
    with socket.create_server(("127.0.0.1", LINES)):
        refused(program, folder, "an address in use", config(), 3, "rr: bad address")


def by_time(program, folder):
    """A node with an interval of a second and a silent peer."""
    status = folder / "node.prom"
    keys = f'every = 1\nidle = 1\nstatus = "{status}"\npeers = ["127.0.0.1:{PEER}"]\n'
    with socket.create_server(("127.0.0.1", PEER)):
        node = Node(program, folder, config(keys) + "every = 2\n", "--save", "node.snapshot")
        now = time.time_ns()
        report = send(f"m v=1i {now}\nm v\nm v=2i {now - YEAR}\n")
        check("lines are taken", report == "line 2: MissingFieldValue\npoints 2 samples 2 refused 1\n", report)
        time.sleep(12)
        first = node.snapshot.stat().st_mtime
        time.sleep(4)
        check("a snapshot is saved without lines", node.snapshot.stat().st_mtime > first)
        counts = dict(line.split() for line in status.read_text().splitlines() if line[0] != "#")
        found = [counts[f"rr_{name}"] for name in ("connections_total", "refused_total", "past_horizon_total", "cells")]
        check("counts", found == ["1", "1", "1", "1"], counts)
    said = node.end()
    addresses = f"lines 127.0.0.1:{LINES} fetch 127.0.0.1:{FETCH}"
    check("the start", said[1] == f"rr: version 2 origin 1 {addresses} series 0 cells 0", said)
    last = config(keys).count("\n") + 1
    unknown = f"node.toml: line {last}: every of archive 1: this key is unknown, and ignored"
    check("an unknown key", said[0].endswith(unknown), said)
    counts = r"connections (\d+) points (\d+) samples (\d+) refused (\d+) past (\d+)"
    form = re.compile(rf"round: {counts} cells 1 pulls \d+\.\d{{3}} save \d+\.\d{{3}}")
    rounds = [found.groups() for line in said if (found := form.fullmatch(line))]
    check("a line an interval", rounds.count(("1", "2", "2", "1", "1")) == 1 and rounds.count(("0",) * 5) >= 5, said)
    # It is called in intervals 1, 3, 6 and 11, and each time holds the node up for a second.
    calls = said.count("peer 1: ReadFailed")
    check("a silent peer is passed over", 2 <= calls <= 4, said)


def stop(program, folder):
    """A node that saves once an hour, and is asked to at once."""
    node = Node(program, folder, config("every = 3600\nquiet = true\n"), "--save", "node.snapshot")
    send("m v=1i\n")
    send("m v=2i\n")
    before = node.snapshot.read_bytes()
    send("m w=3i\n")
    send("m w=4i\n")
    check("nothing is saved before its time", node.snapshot.read_bytes() == before)
    send("")
    send("")
    check("an empty connection has it save", b"m w" in node.snapshot.read_bytes())
    check("a quiet node says nothing", node.end() == [])


def pair(program, folder, step):
    """A node, and one with this step that pulls from it under the same origin."""
    (folder / "other").mkdir()
    first = Node(program, folder, config("quiet = true\n"))
    keys = f'idle = 20\nquiet = true\npeers = ["127.0.0.1:{FETCH}"]\n'
    text = config(keys, step=step, lines=OTHER_LINES, fetch=OTHER_FETCH)
    return first, Node(program, folder / "other", text)


def one_origin(program, folder):
    """Two nodes under one origin: the one that pulls says so, once."""
    first, other = pair(program, folder, 60)
    for value in 1, 2, 3:
        send(f"m v={value}i\n")
        send("", OTHER_LINES)
    # This connection is taken once the pull of the last round is over.
    send("", OTHER_LINES)
    check("an origin that is used twice is told", other.end() == ["peer 1: own origin"])
    check("the one that gives says nothing", first.end() == [])


def two_schemas(program, folder):
    """A node with another step pulls, with more names than connections buffer: both sides learn of it."""
    first, other = pair(program, folder, 30)
    send("".join(f"m{number} v=1i\n" for number in range(50_000)), OTHER_LINES)
    send("", OTHER_LINES)
    # It says so in its next round, which is over once another connection is taken.
    send("")
    send("")
    # The one that pulls is ended first, so that it doesn't call a peer that is gone.
    pulled, gave = other.end(), first.end()
    check("the side that gives says why", set(gave) == {"session: SchemaDiffers"}, gave)
    check("the side that pulls learns that it was ended", set(pulled) == {"peer 1: Ended"}, pulled)


def main():
    program = pathlib.Path(sys.argv[1]).resolve()
    for part in refusals, by_time, stop, one_origin, two_schemas:
        with tempfile.TemporaryDirectory() as name:
            part(program, pathlib.Path(name))


if __name__ == "__main__":
    main()
