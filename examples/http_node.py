"""A node that is asked over HTTP, for full_disk.py, http_api.py, influx_client.py, mutated.py and page.py."""

import pathlib
import socket
import subprocess
import sys
import time

IDLE = 5
CONFIG = """\
step = 60
http = "127.0.0.1:{http}"
lines = "127.0.0.1:{lines}"
origins = [1, 1000]
idle = {idle}
lead = 300_000_000_000
quiet = true

[[archive]]
steps = 1
rows = 2000
xff_num = 0
xff_den = 1
"""


def fail(text):
    sys.exit(f"{pathlib.Path(sys.argv[0]).name}: {text}")


def check(what, got, want):
    if got != want:
        fail(f"{what}: {got!r:.300} in place of {want!r:.300}")
    print(f"{what}: as expected")


def within(seconds, is_so):
    """Waits until a condition holds. Returns whether it did in time."""
    end = time.monotonic() + seconds
    while not is_so():
        if time.monotonic() > end:
            return False
        time.sleep(0.05)
    return True


def free_ports(count):
    """Ports of this machine on which nothing listens."""
    with_ports = [socket.create_server(("127.0.0.1", 0)) for _ in range(count)]
    ports = [listener.getsockname()[1] for listener in with_ports]
    for listener in with_ports:
        listener.close()
    return ports


def read_all(stream):
    """What arrives until the other side ends the connection, cleanly or by a reset."""
    text = b""
    try:
        while piece := stream.recv(65536):
            text += piece
    except ConnectionError:
        pass
    return text


def read_answer(reader, has_body=True):
    """The status, the fields and the text of the next answer on a connection; none if it has ended."""
    line = reader.readline()
    if not line:
        return None
    fields = {}
    while field := reader.readline().strip():
        name, _, value = field.decode().partition(":")
        fields[name.lower()] = value.strip()
    length = int(fields.get("content-length", "0")) if has_body else 0
    return int(line.split(b" ", 2)[1]), fields, reader.read(length)


class Node:
    """A node in a folder, with its data in a directory there, and what it answers."""

    def __init__(self, program, folder):
        self.http, self.lines = free_ports(2)
        self.data = pathlib.Path(folder, "data")
        config = pathlib.Path(folder, "node.toml")
        config.write_text(CONFIG.format(http=self.http, lines=self.lines, idle=IDLE))
        # If a file may grow no more, the write is to fail, rather than a signal to end the node.
        self.words = ["env", "--ignore-signal=XFSZ", program, "node", str(config), "--data", str(self.data)]
        self.start()

    def start(self):
        self.process = subprocess.Popen(self.words)
        self.await_start()

    def await_start(self):
        if not within(10, self.listens):
            fail("the node doesn't listen")

    def listens(self):
        if self.process.poll() is not None:
            fail(f"the node ended with status {self.process.returncode}")
        try:
            self.connect().close()
            return True
        except ConnectionRefusedError:
            return False

    def kill(self):
        self.process.kill()
        self.process.wait()

    def connect(self, timeout=30):
        return socket.create_connection(("127.0.0.1", self.http), timeout=timeout)

    def connect_lines(self, timeout=30):
        return socket.create_connection(("127.0.0.1", self.lines), timeout=timeout)

    def curl(self, path, *words, body=None):
        """The status and the text of the answer that curl gets."""
        if body is not None:
            words += ("--data-binary", "@-")
        url = f"http://127.0.0.1:{self.http}{path}"
        run = subprocess.run(
            ["curl", "-sS", "-g", "--max-time", "30", "-w", "\n%{http_code}", *words, url],
            input=body, capture_output=True, check=False)
        text, _, status = run.stdout.rpartition(b"\n")
        return int(status), text.decode()

    def ask(self, request, count=1, has_body=True):
        """The first answers to bytes on a connection of their own."""
        with self.connect() as stream, stream.makefile("rb") as reader:
            stream.sendall(request)
            return [read_answer(reader, has_body) for _ in range(count)]

    def ask_and_end(self, request):
        """The whole answer to bytes, after which the node has to end the connection."""
        with self.connect() as stream:
            try:
                stream.sendall(request)
            except ConnectionError:
                pass
            return read_all(stream)

    def is_well(self, what):
        check(f"{what}: then /health", self.curl("/health")[0], 200)
