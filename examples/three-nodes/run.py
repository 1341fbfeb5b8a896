#!/usr/bin/env python3
"""Three nodes that follow each other's journals through proxies that drop, cut, delay and repeat answers.

usage: examples/three-nodes/run.py PROGRAM [SECONDS] [SEED]

PROGRAM is the built program, crates/rr_tool/out/rr_tool. Senders write to all three nodes, and send again what isn't
acknowledged. Meanwhile nodes are killed with SIGKILL and restarted from their directories, and one is stopped for half
of the time, while the others have to take lines and answer fetches as before. SECONDS is 120 and SEED 1 by default. In
the end the proxies pass on everything, and all three have to give the same answers for each series, those of a model
that keeps every sample. Ends with status 1 if anything else happens.
"""

import http.client
import pathlib
import random
import signal
import socket
import subprocess
import sys
import tempfile
import threading
import time

CONFIG = """\
step = 60
http = "127.0.0.1:{http}"
origins = [{first}, {last}]
peers = [{peers}]
lead = 1_000_000_000_000_000_000
quiet = true

[[archive]]
steps = 1
rows = 20000
xff_num = 0
xff_den = 1
"""

NAMES = "abc"
BEGIN = 1_700_000_040
SERIES = 20
# Seconds that the nodes may take until they answer alike in the end.
PATIENCE = 120
# Seconds that a fetch may take, whatever a peer does.
LONGEST = 2


def free_ports(count):
    listeners = [socket.create_server(("127.0.0.1", 0)) for _ in range(count)]
    ports = [listener.getsockname()[1] for listener in listeners]
    for listener in listeners:
        listener.close()
    return ports


class Proxy:
    """Passes on what one node asks another, and does to the answers what a bad network does."""

    def __init__(self, port, target, seed):
        self.target, self.random = target, random.Random(seed)
        self.is_bad, self.before, self.bytes = True, {}, 0
        self.listener = socket.create_server(("127.0.0.1", port))
        threading.Thread(target=self.accept, daemon=True).start()

    def accept(self):
        while True:
            stream, _ = self.listener.accept()
            threading.Thread(target=self.serve, args=(stream,), daemon=True).start()

    def serve(self, stream):
        try:
            with stream, stream.makefile("rb") as reader:
                while self.pass_on(stream, reader):
                    pass
        except OSError:
            pass

    def pass_on(self, stream, reader):
        """Passes on a request and its answer, and returns whether the connection stays open."""
        request = b""
        while not request.endswith(b"\r\n\r\n"):
            line = reader.readline()
            if not line:
                return False
            request += line
        answer = self.ask(request)
        self.bytes += len(request) + len(answer)
        if not self.is_bad:
            stream.sendall(answer)
            return True
        kind = request.split(b"?")[0]
        what = self.random.choices(["pass", "drop", "cut", "delay", "repeat"], [80, 5, 5, 5, 5])[0]
        before, self.before[kind] = self.before.get(kind, answer), answer
        if what == "drop":
            return False
        if what == "cut":
            stream.sendall(answer[:self.random.randrange(len(answer))])
            return False
        if what == "delay":
            time.sleep(self.random.random() * 2)
        stream.sendall(before if what == "repeat" else answer)
        return True

    def ask(self, request):
        """The whole answer of the node behind the proxy."""
        with socket.create_connection(("127.0.0.1", self.target), timeout=10) as stream, \
                stream.makefile("rb") as reader:
            stream.sendall(request)
            answer, length = b"", 0
            while not answer.endswith(b"\r\n\r\n"):
                line = reader.readline()
                if not line:
                    raise ConnectionError
                if line.lower().startswith(b"content-length:"):
                    length = int(line.split(b":")[1])
                answer += line
            return answer + reader.read(length)


class Node:
    """One of the three, in a folder."""

    def __init__(self, program, folder, place, port, peers):
        self.port, self.lock, self.is_stopped = port, threading.Lock(), False
        config = folder / f"{NAMES[place]}.toml"
        first = 1 + 20_000 * place
        config.write_text(CONFIG.format(
            http=port, first=first, last=first + 19_999, peers=", ".join(f'"127.0.0.1:{it}"' for it in peers)))
        self.words = [program, "node", str(config), "--data", str(folder / NAMES[place])]
        self.start()

    def start(self):
        self.process = subprocess.Popen(self.words, stderr=subprocess.DEVNULL)
        for _ in range(400):
            try:
                socket.create_connection(("127.0.0.1", self.port), timeout=1).close()
                return
            except OSError:
                if self.process.poll() is not None:
                    sys.exit(f"a node ended with status {self.process.returncode}")
                time.sleep(0.05)
        sys.exit("a node doesn't listen")

    def restart(self):
        with self.lock:
            self.process.kill()
            self.process.wait()
            self.start()

    def ask(self, method, target, body=None):
        """The status and the text of the answer, and the seconds until then."""
        began = time.monotonic()
        connection = http.client.HTTPConnection("127.0.0.1", self.port, timeout=30)
        try:
            connection.request(method, target, body)
            answer = connection.getresponse()
            text = answer.read()
        finally:
            connection.close()
        return answer.status, text, time.monotonic() - began


class Sender(threading.Thread):
    """Writes to one node, and keeps each sample."""

    def __init__(self, node, place, seed):
        super().__init__(daemon=True)
        self.node, self.place, self.random = node, place, random.Random(seed)
        self.samples, self.is_over, self.again = [], False, 0

    def run(self):
        row = 0
        while not self.is_over:
            batch = []
            for series in range(SERIES):
                # The three nodes write to the same rows, each at a second of its own.
                second = BEGIN + 60 * row + 10 * (self.place + 1)
                batch.append((series, second, self.random.randrange(-1000, 1000)))
            row += 1
            body = "".join(f"m,s=s{it[0]} v={it[2]}i {it[1]}000000000\n" for it in batch)
            while not self.send(body):
                self.again += 1
                time.sleep(0.05)
            self.samples += batch
            time.sleep(0.02)

    def send(self, body):
        if self.node.is_stopped:
            time.sleep(0.2)
            return False
        try:
            status, _, _ = self.node.ask("POST", "/write", body)
        except (OSError, http.client.HTTPException):
            return False
        return status == 204


def expected(samples):
    """The rows of a model that keeps each sample: by series and row."""
    rows = {}
    for series, second, value in samples:
        rows.setdefault(series, {}).setdefault(second // 60 * 60, []).append((second, value))
    return rows


def answer(node, series, function, last):
    target = f"/fetch?cf={function}&resolution=60&start={BEGIN // 60 * 60}&end={last}&key=m%2Cs%3Ds{series}%20v"
    status, text, _ = node.ask("GET", target)
    if status != 200:
        return None
    records = [line.rsplit(",", 2) for line in text.decode().splitlines() if line]
    return {int(second): value for _, second, value in records if value != "U"}


def wanted(rows, function):
    pick = {"MIN": lambda it: min(v for _, v in it), "MAX": lambda it: max(v for _, v in it),
            "LAST": lambda it: max(it)[1]}[function]
    return {row: str(pick(found)) for row, found in rows.items()}


def are_alike(nodes, rows, last):
    """The first series and node that answer differently from the model, or none."""
    for series in range(SERIES):
        for function in ("LAST", "MIN", "MAX"):
            want = wanted(rows.get(series, {}), function)
            for name, node in zip(NAMES, nodes):
                got = answer(node, series, function, last)
                if got != want:
                    missing = sum(got is None or got.get(row) != value for row, value in want.items())
                    return f"{name}: series {series}, {function}: {missing} of {len(want)} rows"
    return None


def disturb(nodes, senders, seconds, seed):
    """Kills nodes, and stops one for half of the time."""
    dice = random.Random(seed)
    until = time.monotonic() + seconds
    stopped = nodes[dice.randrange(3)]
    time.sleep(seconds / 4)
    stopped.is_stopped = True
    stopped.process.send_signal(signal.SIGSTOP)
    middle = time.monotonic() + seconds / 2
    slowest, kills = 0, 0
    while time.monotonic() < until:
        if stopped.is_stopped and time.monotonic() > middle:
            stopped.process.send_signal(signal.SIGCONT)
            stopped.is_stopped = False
        others = [it for it in nodes if not it.is_stopped]
        for node in others:
            slowest = max(slowest, node.ask("GET", "/fetch?cf=LAST&resolution=60&last=600&key=m%2Cs%3Ds1%20v")[2])
        if not stopped.is_stopped and dice.random() < 0.2:
            dice.choice(others).restart()
            kills += 1
        time.sleep(0.5)
    if stopped.is_stopped:
        stopped.process.send_signal(signal.SIGCONT)
        stopped.is_stopped = False
    print(f"killed {kills} times; the slowest fetch took {slowest:.3f} s")
    if slowest > LONGEST:
        sys.exit(f"a fetch took more than {LONGEST} s")


def run(program, folder, seconds, seed, nodes):
    ports, between = free_ports(3), free_ports(6)
    pairs = [(i, j) for i in range(3) for j in range(3) if i != j]
    proxies = [Proxy(port, ports[j], seed + place) for place, ((_, j), port) in enumerate(zip(pairs, between))]
    for place in range(3):
        peers = [port for (i, _), port in zip(pairs, between) if i == place]
        nodes.append(Node(program, folder, place, ports[place], peers))
    senders = [Sender(node, place, seed + place) for place, node in enumerate(nodes)]
    for sender in senders:
        sender.start()
    disturb(nodes, senders, seconds, seed)
    for sender in senders:
        sender.is_over = True
    for sender in senders:
        sender.join()
    for proxy in proxies:
        proxy.is_bad = False
    samples = [it for sender in senders for it in sender.samples]
    print(f"{len(samples)} samples acknowledged, {sum(it.again for it in senders)} times sent again")
    last = max(it[1] for it in samples) // 60 * 60 + 60
    rows, began, wrong = expected(samples), time.monotonic(), "nothing was asked"
    while wrong and time.monotonic() < began + PATIENCE:
        wrong = are_alike(nodes, rows, last)
        time.sleep(0.5)
    if wrong:
        sys.exit(f"not alike after {PATIENCE} s: {wrong}")
    print(f"all three answer each series as the model, after {time.monotonic() - began:.1f} s")


def main():
    program = str(pathlib.Path(sys.argv[1]).resolve())
    seconds = int(sys.argv[2]) if len(sys.argv) > 2 else 120
    seed = int(sys.argv[3]) if len(sys.argv) > 3 else 1
    nodes = []
    with tempfile.TemporaryDirectory() as folder:
        try:
            run(program, pathlib.Path(folder), seconds, seed, nodes)
        finally:
            for node in nodes:
                node.process.kill()
                node.process.wait()


if __name__ == "__main__":
    main()
