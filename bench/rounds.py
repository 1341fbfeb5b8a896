#!/usr/bin/env python3
"""Times how long senders wait for their reports while a node saves, with `every` and without.

usage: rounds.py [PROGRAM] [--series SERIES] [--between SECONDS] [--times TIMES] [--times-without TIMES]

A node of `rr serve` with the archives of examples/rr.toml begins with SERIES series (50 by default) that have a sample
in each step of a year, from a snapshot that this script makes. Ten senders send a line for each of their series every
SECONDS seconds (10 by default), each over a connection of its own: TIMES times (7 by default) to a node with
`every = 60`, which saves twice meanwhile, and 2 times by default to one without `every`, which saves after each
connection. Prints the median and the greatest wait, from the call to the end of the report. It takes less than two
minutes.
"""

import argparse
import hashlib
import pathlib
import statistics
import subprocess
import sys
import tempfile
import threading
import time
import tomllib

from node_lines import connected, free_port, peak, plant_config, send
from store import TOP

sys.path.insert(0, str(TOP / "tools"))
from snapshot import ARCHIVE, COUNT, FIELDS, HEAD, KEY_LEN, MASK_LEN  # noqa: E402

SENDERS = 10
CONFIG = """\
lines = "127.0.0.1:{lines}"
fetch = ["127.0.0.1:{fetch}"]
lead = 300_000_000_000
idle = 60
{every}
"""
VERSION = 2
SECOND = 1_000_000_000
VALUE = 21_500


def name(one):
    return f"plant,line=l{one // 5},meter=m{one:04}"


def cells_of(key, step, archives, now):
    """The cells of a series that has a sample in each step up to now."""
    head = KEY_LEN.pack(len(key)) + key
    for number, archive in enumerate(archives):
        steps, rows = archive["steps"], archive["rows"]
        span = step * steps
        newest = now // span
        mask = ((1 << steps) - 1).to_bytes(MASK_LEN[VERSION], "big")
        for slot in range(newest - rows + 1, newest + 1):
            # The number of its last sample: its steps since 8,760 hours ago, and 10,000 more.
            number_then = (slot * steps + steps) - (now // step - 8_760 * 60) + 10_000
            last = (slot * span + span - 1) * SECOND
            yield head + FIELDS.pack(
                number, slot, 1, number_then, steps, 0, steps * VALUE, VALUE, VALUE, last, VALUE
            ) + mask


def snapshot(schema, series, now):
    """The bytes of a snapshot of full series, saved under origin 1."""
    archives = schema["archive"]
    head = HEAD.pack(b"RRSN", VERSION, schema["step"], len(archives))
    for one in archives:
        head += ARCHIVE.pack(one["steps"], one["rows"], one["xff_num"], one["xff_den"])
    cells = [
        cell
        for one in range(series)
        for cell in cells_of(f"{name(one)} temp".encode(), schema["step"], archives, now)
    ]
    body = head + COUNT.pack(1, len(cells)) + b"".join(cells)
    return body + hashlib.sha256(body).digest()


def config(every):
    """The text of a configuration with free ports, and its port for lines."""
    lines = free_port()
    every = f"every = {every}" if every else ""
    return plant_config(CONFIG.format(lines=lines, fetch=free_port(), every=every)), lines


def report_of(port, series):
    """Sends a line for each of these series, and returns the seconds up to the end of the report."""
    began = time.perf_counter()
    now = time.time_ns()
    report, _ = send(port, "".join(f"{name(one)} temp={VALUE}i {now}\n" for one in series).encode())
    if not report.endswith(b" refused 0\n"):
        sys.exit(f"the node answered: {report.decode()}")
    return time.perf_counter() - began


def waits_of(port, series, between, times):
    """How long each sender waits, each time."""
    waits = []
    began = time.perf_counter()

    def run(sender):
        for turn in range(times):
            due = began + (turn + sender / SENDERS) * between
            time.sleep(max(0, due - time.perf_counter()))
            waits.append(report_of(port, range(sender, series, SENDERS)))

    senders = [threading.Thread(target=run, args=(one,)) for one in range(SENDERS)]
    for sender in senders:
        sender.start()
    for sender in senders:
        sender.join()
    if len(waits) != SENDERS * times:
        sys.exit("a sender failed")
    return waits


def measure(folder, program, every, series, between, times):
    text, port = config(every)
    file = folder / "node.toml"
    file.write_text(text)
    words = [program, "serve", file, "--origin", "2", "--load", folder / "full", "--save", folder / "saved"]
    node = subprocess.Popen(words, stderr=subprocess.DEVNULL)
    try:
        # This connection sends nothing, so that the node saves once before it is measured.
        with connected(port):
            pass
        waits = waits_of(port, series, between, times)
        print(
            f"{f'every = {every}' if every else 'without every'}: {len(waits)} reports waited "
            f"{statistics.median(waits):.3f} s in the median, {max(waits):.3f} s at most; {peak(node):,.0f} MB",
            flush=True,
        )
    finally:
        node.kill()
        node.wait()


def main():
    parser = argparse.ArgumentParser(description=__doc__.splitlines()[0])
    parser.add_argument("program", nargs="?", default=str(TOP / "crates/rr_tool/out/rr_tool"))
    parser.add_argument("--series", type=int, default=50)
    parser.add_argument("--between", type=float, default=10)
    parser.add_argument("--times", type=int, default=7)
    parser.add_argument("--times-without", type=int, default=2)
    words = parser.parse_args()
    with tempfile.TemporaryDirectory() as room:
        folder = pathlib.Path(room)
        full = snapshot(tomllib.loads(plant_config("")), words.series, int(time.time()))
        (folder / "full").write_bytes(full)
        print(f"{words.series} series, a snapshot of {len(full):,} bytes", flush=True)
        measure(folder, words.program, 60, words.series, words.between, words.times)
        measure(folder, words.program, None, words.series, words.between, words.times_without)


if __name__ == "__main__":
    main()
