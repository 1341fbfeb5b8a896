#!/usr/bin/env python3
"""Nodes whose disk is full for a while, or whose folder is read-only, and whether they keep what they acknowledged.

usage: full_disk.py PROGRAM

The script runs itself again with mounts of its own (`unshare`), as root or in a user namespace, where the directory of
a node is a tmpfs of 24 MiB.

- The disk is full: from some body on bodies are answered 500, /health 503, and fetches as ever, within a second. Once
  there is room, all that was taken is saved by itself. The node is killed with SIGKILL: the next one has every row of
  every body that was answered 204 or, before there was room again, 500.
- The directory is read-only at a start: the node says so and ends with status 3, and the next one has all rows.
- No file can be made in the directory while a node runs (as another user, if this is root): before its first line the
  node takes none, since it can take no origin, until a file can be made; later no checkpoint is begun, the node says so,
  and all bodies are still answered 204; the next node has all rows.
- The directory is removed while a node runs: within two seconds bodies are answered 500, and /health is 503.

Status 1: anything else happened.
"""

import os
import pathlib
import shutil
import subprocess
import sys
import tempfile
import time

import http_node
from http_node import check, fail, free_ports

MIB = 1024**2

CONFIG = """\
step = 60
http = "127.0.0.1:{http}"
origins = [1, 1000]
lead = 1_000_000_000_000_000_000
precision = "s"
quiet = true

[[archive]]
steps = 1
rows = 100000
xff_num = 0
xff_den = 1
"""

# How many series each body has a row of, and their tag, which makes their records long.
SERIES, TAG = 1_000, "u" * 60

# The user who runs a node whose folder is closed to it, if this is root.
NOBODY = 65_534


def value(series, row):
    return series * 7_919 + row * 104_729


def body(row):
    return "".join(f"disk,{TAG}={n} v={value(n, row)}i {row * 60}\n" for n in range(SERIES)).encode()


class Node(http_node.Node):
    """A node over a directory, and what it says on standard error."""

    def __init__(self, program, folder, data, user=None):
        self.http, = free_ports(1)
        self.data, self.user = data, user
        config = pathlib.Path(folder, "node.toml")
        config.write_text(CONFIG.format(http=self.http))
        self.words = [program, "node", str(config), "--data", str(data)]
        self.errors = pathlib.Path(folder, "errors")
        self.start()

    def start(self):
        with self.errors.open("ab") as errors:
            self.process = subprocess.Popen(self.words, stderr=errors, user=self.user, group=self.user)
        self.await_start()

    def said(self):
        return self.errors.read_text()

    def write(self, row):
        """Writes a body with a row of each series; returns the status."""
        return self.curl("/write", body=body(row))[0]

    def rows_of(self, series, rows):
        """The values of some rows, each None if it is unknown."""
        key = f"disk,{TAG}={series}+v"
        _, text = self.curl(f"/fetch?cf=LAST&resolution=60&start=0&end={rows * 60}&key={key}")
        values = [line.rpartition(",")[2] for line in text.splitlines()]
        return [None if it == "U" else int(it) for it in values]

    def lost(self, rows):
        """How many of these rows of all series aren't there as they were sent."""
        most, lost = max(rows) + 1, 0
        for series in range(SERIES):
            found = self.rows_of(series, most)
            lost += sum(len(found) <= row or found[row] != value(series, row) for row in rows)
        return lost


def disk_is_full(program, folder, data):
    filler = data / "filler"
    filler.write_bytes(b"#" * (18 * MIB))
    node = Node(program, folder, data)
    try:
        row, sent = 0, []
        while (status := node.write(row)) == 204:
            sent.append(row)
            row += 1
        check("a body that the disk has no room for", status, 500)
        sent.append(row)
        check("the next one", node.write(row + 1), 500)
        sent.append(row + 1)
        check("/health", node.curl("/health")[0], 503)
        began = time.monotonic()
        check("a fetch meanwhile", node.rows_of(0, len(sent)), [value(0, it) for it in sent])
        check("it took less than a second", time.monotonic() - began < 1, True)
        filler.unlink()
        is_well = http_node.within(10, lambda: node.curl("/health")[0] == 200)
        check("/health once there is room", is_well, True)
        check("a body then", node.write(row + 2), 204)
        sent.append(row + 2)
        node.kill()
        node.start()
        check(f"rows that are lost, of {len(sent):,} of each series", node.lost(sent), 0)
        return sent
    finally:
        node.kill()


def folder_is_read_only(program, folder, data, sent):
    subprocess.run(["mount", "-o", "remount,ro", data], check=True)
    config = pathlib.Path(folder, "node.toml")
    words = [program, "node", config, "--data", data]
    run = subprocess.run(words, capture_output=True, text=True, timeout=30, check=False)
    check("a start in a folder that is read-only", (run.returncode, "Read-only file system" in run.stderr), (3, True))
    subprocess.run(["mount", "-o", "remount,rw", data], check=True)
    node = Node(program, folder, data)
    try:
        check("rows that are lost by that", node.lost(sent), 0)
    finally:
        node.kill()


def no_file_is_made(program, folder):
    user = NOBODY if os.geteuid() == 0 else None
    data = pathlib.Path(folder, "data")
    data.mkdir()
    if user:
        os.chown(data, user, user)
    node = Node(program, folder, data, user)
    try:
        data.chmod(0o555)
        status, answer = node.curl("/write", body=body(0))
        check("a body when no origin can be named", (status, "the origin can't be recorded" in answer), (503, True))
        check("/health", node.curl("/health")[0], 503)
        data.chmod(0o755)
        check("/health once one can be", http_node.within(10, lambda: node.curl("/health")[0] == 200), True)
        sent, statuses = [0], {node.write(0)}
        data.chmod(0o555)
        while "Permission denied" not in node.said():
            sent.append(len(sent))
            statuses.add(node.write(sent[-1]))
            if len(sent) > 5_000:
                fail("no checkpoint was tried")
        for _ in range(5):
            sent.append(len(sent))
            statuses.add(node.write(sent[-1]))
        check("bodies while no file can be made", statuses, {204})
        check("checkpoints", list(data.glob("checkpoint-*")), [])
        node.kill()
        data.chmod(0o755)
        node.start()
        check(f"rows that are lost, of {len(sent):,} of each series", node.lost(sent), 0)
    finally:
        data.chmod(0o755)
        node.kill()


def folder_is_removed(program, folder):
    node = Node(program, folder, pathlib.Path(folder, "removed"))
    try:
        check("a body", node.write(0), 204)
        shutil.rmtree(node.data)
        check("bodies once the folder is removed", http_node.within(2, lambda: node.write(1) == 500), True)
        check("the next one", node.write(2), 500)
        check("/health", node.curl("/health")[0], 503)
    finally:
        node.kill()


def try_all(program):
    with tempfile.TemporaryDirectory() as folder:
        data = pathlib.Path(folder, "disk")
        data.mkdir()
        subprocess.run(["mount", "-t", "tmpfs", "-o", "size=24m", "none", data], check=True)
        try:
            sent = disk_is_full(program, folder, data)
            folder_is_read_only(program, folder, data, sent)
        finally:
            subprocess.run(["umount", data], check=True)


def main():
    if len(sys.argv) not in (2, 3):
        sys.exit(__doc__)
    program = str(pathlib.Path(sys.argv[1]).resolve())
    if sys.argv[2:] == ["--mounted"]:
        try_all(program)
        return
    if not shutil.which("unshare"):
        fail("there is no unshare")
    words = ["unshare", "--mount", *([] if os.geteuid() == 0 else ["--map-root-user"])]
    subprocess.run([*words, sys.executable, __file__, program, "--mounted"], check=True)
    with tempfile.TemporaryDirectory() as folder:
        os.chmod(folder, 0o755)
        no_file_is_made(program, folder)
        folder_is_removed(program, folder)


if __name__ == "__main__":
    main()
