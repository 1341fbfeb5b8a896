#!/usr/bin/env python3
"""A node whose peers can't be reached, are silent, lie or have another schema, beside a good one.

usage: bad_peers.py PROGRAM

PROGRAM is the built program, crates/rr_tool/out/rr_tool. The node has to say what is wrong with each, by the names of
docs/FORMATS.md, and meanwhile has to take lines, answer fetches, and have what the good peer has. Ends with status 1 if
anything else happens.
"""

import pathlib
import re
import socket
import subprocess
import sys
import tempfile
import threading
import time

from http_node import check, fail, free_ports

CONFIG = """\
step = 60
http = "127.0.0.1:{http}"
origins = [{first}, {last}]
peers = [{peers}]
lead = 1_000_000_000_000_000_000
quiet = true

[[archive]]
steps = 1
rows = {rows}
xff_num = 0
xff_den = 1
"""

GREETING = b"HTTP/1.1 204 No Content\r\nrr-journal-id: " + b"ab" * 16 + b"\r\nrr-journal-end: 1000\r\n\r\n"


# The requests that a peer with empty answers got.
EMPTY = []


def silent(stream):
    """Takes what comes, and says nothing."""
    while stream.recv(65536):
        pass


def garbage(stream):
    stream.recv(65536)
    stream.sendall(b"SSH-2.0-OpenSSH_9.2\r\n" * 10)


def endless(stream):
    """Sends an answer without an end."""
    stream.recv(65536)
    stream.sendall(b"HTTP/1.1 200 OK\r\ntransfer-encoding: chunked\r\n\r\n")
    while True:
        stream.sendall(b"10000\r\n" + bytes(65536) + b"\r\n")


def lying(stream):
    """Greets as a node does, and sends bytes that aren't records."""
    while request := stream.recv(65536):
        if b"from=" not in request:
            stream.sendall(GREETING)
        else:
            body = bytes(range(256)) * 8192
            stream.sendall(b"HTTP/1.1 200 OK\r\ncontent-length: %d\r\n\r\n" % len(body) + body)


def gone(stream):
    """Greets as a node does, and has nothing."""
    while request := stream.recv(65536):
        stream.sendall(GREETING if b"from=" not in request else b"HTTP/1.1 410 Gone\r\ncontent-length: 0\r\n\r\n")


def empty(stream):
    """Greets as a node does, and answers with nothing."""
    while request := stream.recv(65536):
        EMPTY.append(request)
        stream.sendall(GREETING if b"from=" not in request else b"HTTP/1.1 200 OK\r\ncontent-length: 0\r\n\r\n")


def serve(how):
    """The port at which each connection is served this way."""
    listener = socket.create_server(("127.0.0.1", 0))

    def one(stream):
        try:
            with stream:
                how(stream)
        except OSError:
            pass

    def accept():
        while True:
            threading.Thread(target=one, args=(listener.accept()[0],), daemon=True).start()

    threading.Thread(target=accept, daemon=True).start()
    return listener.getsockname()[1]


class Node:
    """A node in a folder."""

    def __init__(self, program, folder, name, port, first, peers=(), rows=2000):
        config = folder / f"{name}.toml"
        self.port, self.log = port, folder / f"{name}.log"
        config.write_text(CONFIG.format(http=port, first=first, last=first + 9, rows=rows,
                                        peers=", ".join(f'"127.0.0.1:{it}"' for it in peers)))
        with self.log.open("wb") as log:
            self.process = subprocess.Popen([program, "node", config, "--data", folder / name], stderr=log)
        for _ in range(200):
            try:
                socket.create_connection(("127.0.0.1", port)).close()
                return
            except ConnectionRefusedError:
                time.sleep(0.05)
        fail(f"{name} doesn't listen")

    def curl(self, path, body=None):
        """The answer that curl gets, and the seconds until then."""
        words = ["curl", "-sS", "-g", "--max-time", "10", f"http://127.0.0.1:{self.port}{path}"]
        began = time.monotonic()
        run = subprocess.run(words + (["--data-binary", "@-"] if body else []), input=body, capture_output=True, check=False)
        return run.stdout.decode(), time.monotonic() - began

    def told(self):
        return set(self.log.read_text().splitlines())


def value(node, second):
    key = f"/fetch?cf=LAST&resolution=60&start={second}&end={second + 60}&key=m+v"
    text, seconds = node.curl(key)
    return text.strip().rpartition(",")[2], seconds


def run(program, folder, nodes):
    ports = free_ports(5)
    good = Node(program, folder, "good", ports[0], 1)
    nodes.append(good)
    nodes.append(Node(program, folder, "other", ports[1], 11, rows=3000))
    # This one writes under the origins of the node under test, as a copied directory would, and more than that does.
    twin = Node(program, folder, "twin", ports[2], 101)
    nodes.append(twin)
    twin.curl("/write", "".join(f"t v={minute}i {minute * 60}000000000\n" for minute in range(100)).encode())
    peers = [ports[4], serve(silent), serve(garbage), serve(endless), serve(lying), serve(gone), ports[1], ports[2],
             serve(empty), ports[0]]
    node = Node(program, folder, "node", ports[3], 101, peers)
    nodes.append(node)
    slowest = 0
    for second in range(0, 20 * 60, 60):
        good.curl("/write", f"m v={second}i {second}000000000\n".encode())
        _, wrote = node.curl("/write", f"own v={second}i {second}000000000\n".encode())
        _, fetched = value(node, second)
        slowest = max(slowest, wrote, fetched)
        time.sleep(0.8)
    for second in range(0, 20 * 60, 60):
        for _ in range(30):
            if value(node, second)[0] == str(second):
                break
            time.sleep(0.1)
        else:
            fail(f"the good peer's value of {second} isn't there")
    print(f"the good peer's values are there; a line or a fetch took {slowest:.3f} s at most")
    if slowest > 0.5:
        fail("that is too long")
    wanted = {f"peer {number}: {name}" for number, name in enumerate(
        ["BadAddress", "ReadFailed", "BadAnswer", "BadAnswer", "Damaged", "Gone", "SchemaDiffers", "own origin",
         "BadAnswer"], 1)}
    # After a part of its journal that isn't one, the peer that lies is asked for its checkpoint.
    wanted.add("peer 5: BadAnswer")
    check("what is told of the peers", sorted(node.told()), sorted(wanted))
    check("what the peer of another schema tells", nodes[1].told(),
          {"rr: a peer asks for the journal with another schema"})
    ups, own = (re.findall(rf"^{name}\{{.*\}} (\d)$", node.curl("/metrics")[0], re.M)
                for name in ("rr_peer_up", "rr_peer_own_origin"))
    check("rr_peer_up", ups, list("0000000001"))
    check("rr_peer_own_origin", own, list("0000000100"))
    check("/health", "another node writes under this one's origin" in node.curl("/health")[0], True)
    check("keys of the peer that writes under the node's origin", node.curl("/series?prefix=t")[0], "")
    check("a peer with empty answers is called with growing pauses", len(EMPTY) <= 14, True)


def main():
    program = str(pathlib.Path(sys.argv[1]).resolve())
    nodes = []
    with tempfile.TemporaryDirectory() as folder:
        try:
            run(program, pathlib.Path(folder), nodes)
        finally:
            for node in nodes:
                node.process.kill()
                node.process.wait()


if __name__ == "__main__":
    main()
