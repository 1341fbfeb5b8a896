#!/usr/bin/env python3
"""Kills a node at random moments while it writes checkpoints, and checks that it restarts with all it acknowledged.

usage: checkpoint_crash.py PROGRAM [KILLS] [SEED]

Two senders write bodies with a sample for each of 2,000 series, row by row, as fast as they are answered, so a
checkpoint is begun every few seconds. The node is killed with SIGKILL at a random moment and restarted from its
directory, and some series of each sender are asked for all rows since the previous kill: a row that was acknowledged
has its value, one that wasn't has it or none. KILLS is 12 and SEED 1 by default. Status 1: a row is lost, the node
doesn't start, or no checkpoint was finished.
"""

import http.client
import pathlib
import random
import subprocess
import sys
import tempfile
import threading
import time

CONFIG = """\
step = 1
http = "127.0.0.1:{0}"
origins = [1, 60000]
precision = "s"
lead = 1_000_000_000_000_000_000
quiet = true

[[archive]]
steps = 1
rows = 100000
xff_num = 0
xff_den = 1
"""

# The second of the first row, and the number of a sender's series.
BEGIN, SERIES = 1_700_000_000, 2_000

# How many series of a sender are asked for after a kill.
ASKED = 5


def value(series, row):
    return (series * 7919 + row * 104_729) % 1_000_000


class Sender:
    """Writes rows one after another, and knows up to which one they are acknowledged."""

    def __init__(self, name, port):
        self.name, self.port = name, port
        self.next = self.checked = self.acknowledged = 0
        self.unanswered = set()

    def send(self, stopped):
        connection = http.client.HTTPConnection("127.0.0.1", self.port, timeout=60)
        while not stopped.is_set():
            row = self.next
            self.next += 1
            lines = (f"{self.name},n={n} v={value(n, row)}i {BEGIN + row}\n" for n in range(SERIES))
            try:
                connection.request("POST", "/write", body="".join(lines))
                answer = connection.getresponse()
                answer.read()
            except (OSError, http.client.HTTPException):
                self.unanswered.add(row)
                return
            if answer.status != 204:
                sys.exit(f"checkpoint_crash.py: a write was answered {answer.status}")
            self.acknowledged = row + 1

    def lost(self, draw):
        """How many rows of some series are lost, of those acknowledged since the last check."""
        lost = 0
        for series in draw.sample(range(SERIES), ASKED):
            first, end = BEGIN + self.checked, BEGIN + self.acknowledged
            query = f"cf=LAST&resolution=1&start={first}&end={end}&key={self.name},n={series}+v"
            connection = http.client.HTTPConnection("127.0.0.1", self.port, timeout=60)
            connection.request("GET", f"/fetch?{query}")
            rows = connection.getresponse().read().decode().splitlines()
            asked = range(self.checked, self.acknowledged)
            got = [row.rpartition(",")[2] for row in rows]
            lost += abs(len(got) - len(asked))
            for row, it in zip(asked, got):
                may_lack = row in self.unanswered and it == "U"
                lost += it != str(value(series, row)) and not may_lack
        self.checked = self.acknowledged
        return lost


def started(words, port):
    """Starts a node, and returns it once it answers."""
    process = subprocess.Popen(words)
    while True:
        try:
            connection = http.client.HTTPConnection("127.0.0.1", port, timeout=60)
            connection.request("GET", "/health")
            connection.getresponse().read()
            return process
        except OSError:
            if process.poll() is not None:
                sys.exit(f"checkpoint_crash.py: the node ended with status {process.returncode}")
            time.sleep(0.01)


def killed(process, senders, draw, data, seen):
    """Has senders write until the node is killed, and notes the checkpoints seen meanwhile."""
    stopped = threading.Event()
    threads = [threading.Thread(target=sender.send, args=(stopped,)) for sender in senders]
    for thread in threads:
        thread.start()
    until = time.monotonic() + draw.uniform(2, 9)
    while time.monotonic() < until:
        seen.update(it.name for it in data.iterdir() if it.name.startswith("checkpoint"))
        time.sleep(0.01)
    process.kill()
    process.wait()
    stopped.set()
    for thread in threads:
        thread.join()


def main():
    if not 2 <= len(sys.argv) <= 4:
        sys.exit(__doc__)
    kills = int(sys.argv[2]) if len(sys.argv) > 2 else 12
    seed = int(sys.argv[3]) if len(sys.argv) > 3 else 1
    draw, lost, seen = random.Random(seed), 0, set()
    with tempfile.TemporaryDirectory() as room:
        folder = pathlib.Path(room)
        port = draw.randrange(20_000, 30_000)
        config, data = folder / "node.toml", folder / "data"
        config.write_text(CONFIG.format(port))
        words = [sys.argv[1], "node", config, "--data", data]
        senders = [Sender(name, port) for name in ("a", "b")]
        process = started(words, port)
        for _ in range(kills):
            killed(process, senders, draw, data, seen)
            process = started(words, port)
            lost += sum(sender.lost(draw) for sender in senders)
        process.kill()
        process.wait()
    begun, whole = (sum(it.endswith(end) for it in seen) for end in (".new", ".rrj"))
    rows = sum(sender.acknowledged for sender in senders) * SERIES
    print(f"{kills} kills, {begun} checkpoints begun and {whole} finished, {rows:,} samples acknowledged, {lost} lost")
    return int(lost != 0 or whole == 0)


if __name__ == "__main__":
    sys.exit(main())
