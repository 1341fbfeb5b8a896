#!/usr/bin/env python3
"""Measures what series take in a node that has a sample of each in every minute of a year.

usage: year.py [PROGRAM] [--series SERIES] [--kinds KIND ..]

Makes a snapshot of SERIES series (50 by default) with the archives of examples/rr.toml, all 12,216 rows of each full,
loads it into a node of `rr serve`, fetches a row of the first and of the last series, and prints the seconds of
processor time that loading took, the memory at most and while it serves, and what the latter is for each series, less
that of a node without any. KIND is `meter`, whose value is always the same, `noise`, a temperature that varies, or
`octets`, a counter that grows unevenly; all three by default. The snapshot of ten thousand series takes 15 GB of disk,
in TMPDIR.
"""

import argparse
import hashlib
import pathlib
import random
import socket
import subprocess
import sys
import tempfile
import time
import tomllib

from node_lines import connected, free_port, plant_config
from store import TOP

sys.path.insert(0, str(TOP / "tools"))
from snapshot import ARCHIVE, COUNT, FIELDS, HEAD, KEY_LEN, MASK_LEN  # noqa: E402

CONFIG = """\
lines = "127.0.0.1:{lines}"
fetch = ["127.0.0.1:{fetch}"]
every = 60
"""
VERSION = 2
SECOND = 1_000_000_000
KINDS = ("meter", "noise", "octets")

# The values of this many series differ; the others repeat them.
PATTERNS = 4


def values_of(kind, minutes, seed):
    """The value of a series in each minute."""
    draw = random.Random(seed)
    if kind == "meter":
        return [21_500] * minutes
    if kind == "noise":
        return [21_500 + int(draw.gauss(0, 60)) for _ in range(minutes)]
    total, values = 1_000_000, []
    for _ in range(minutes):
        total += draw.randrange(40_000_000)
        values.append(total)
    return values


def cells_of(values, step, archives, now, stride):
    """What follows the key in each cell of a series that has a value in each step up to now."""
    first = now // step - len(values) + 1
    for number, archive in enumerate(archives):
        steps, rows = archive["steps"], archive["rows"]
        newest = (now // step + 1) // steps - 1
        mask = ((1 << steps) - 1).to_bytes(MASK_LEN[VERSION], "big")
        for slot in range(newest - rows + 1, newest + 1):
            at = slot * steps - first
            part = values[at : at + steps]
            last = ((slot * steps + steps - 1) * step + 1) * SECOND
            high, low = divmod(sum(part), 1 << 64)
            yield FIELDS.pack(
                number, slot, 1, (at + steps) * stride, steps, high, low, min(part), max(part), last, part[-1]
            ) + mask


def name(one):
    return f"plant,line=l{one // 100:03},meter=m{one:05} temp".encode()


def write_snapshot(path, kind, series, config, now):
    """Writes a snapshot of full series, saved under origin 1."""
    step, archives = config["step"], config["archive"]
    minutes = max(one["steps"] * (one["rows"] + 2) for one in archives)
    patterns = [
        list(cells_of(values_of(kind, minutes, seed), step, archives, now, max(series, 1)))
        for seed in range(min(PATTERNS, series))
    ]
    head = HEAD.pack(b"RRSN", VERSION, step, len(archives))
    for one in archives:
        head += ARCHIVE.pack(one["steps"], one["rows"], one["xff_num"], one["xff_den"])
    digest = hashlib.sha256()
    with open(path, "wb") as file:

        def put(data):
            digest.update(data)
            file.write(data)

        put(head + COUNT.pack(1, series * sum(one["rows"] for one in archives)))
        for one in range(series):
            key = name(one)
            start = KEY_LEN.pack(len(key)) + key
            put(start + start.join(patterns[one % PATTERNS]))
        file.write(digest.digest())


def memory(node, field):
    """A field of the process's status, in MB."""
    for line in pathlib.Path(f"/proc/{node.pid}/status").read_text().splitlines():
        if line.startswith(field):
            return int(line.split()[1]) / 1024
    sys.exit(f"no {field}")


def fetched(port, one, now):
    """Whether a row of a series is known."""
    key, field = name(one).decode().split(" ")
    hour = now // 3600 * 3600 - 7200
    with connected(port) as stream:
        stream.sendall(f"fetch AVERAGE 3600 {hour} {hour + 3600} {key} {field}\n".encode())
        stream.shutdown(1)
        answer = b"".join(iter(lambda: stream.recv(65536), b""))
    return answer.startswith(b'"') and not answer.endswith(b",U\n")


def measure(program, folder, kind, series, now):
    """The MB at most and while it serves, and the processor seconds that loading took."""
    fetch = free_port()
    text = plant_config(CONFIG.format(lines=free_port(), fetch=fetch))
    (folder / "node.toml").write_text(text)
    write_snapshot(folder / "full", kind, series, tomllib.loads(text), now)
    words = [program, "serve", folder / "node.toml", "--origin", "2", "--load", folder / "full"]
    node = subprocess.Popen(words, stderr=subprocess.DEVNULL)
    try:
        while True:
            try:
                socket.create_connection(("127.0.0.1", fetch)).close()
                break
            except OSError:
                if node.poll() is not None:
                    sys.exit("the node ended")
                time.sleep(0.2)
        ticks = pathlib.Path(f"/proc/{node.pid}/stat").read_text().rsplit(")", 1)[1].split()
        for one in {0, series - 1} if series else ():
            if not fetched(fetch, one, now):
                sys.exit(f"series {one} isn't answered")
        return memory(node, "VmHWM"), memory(node, "VmRSS"), (int(ticks[11]) + int(ticks[12])) / 100
    finally:
        node.kill()
        node.wait()


def main():
    words = argparse.ArgumentParser()
    words.add_argument("program", nargs="?", default=str(TOP / "rr"))
    words.add_argument("--series", type=int, default=50)
    words.add_argument("--kinds", nargs="+", choices=KINDS, default=KINDS)
    words = words.parse_args()
    now = int(time.time())
    with tempfile.TemporaryDirectory() as folder:
        folder = pathlib.Path(folder)
        _, none, _ = measure(words.program, folder, "meter", 0, now)
        for kind in words.kinds:
            most, serving, seconds = measure(words.program, folder, kind, words.series, now)
            each = (serving - none) * 1024 / words.series
            print(
                f"{kind}: {words.series} series, loaded in {seconds:.1f} s of processor time, {most:,.0f} MB at most, "
                f"{serving:,.0f} MB while it serves, {each:,.1f} KiB a series",
                flush=True,
            )


if __name__ == "__main__":
    main()
