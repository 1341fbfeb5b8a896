#!/usr/bin/env python3
"""A node that is restarted with one more archive in its configuration.

    examples/upgrade.py PROGRAM

PROGRAM is the built program, crates/rr_tool/out/rr_tool. A node with ten one-minute rows takes two readings and is
stopped. An archive with five-minute rows is added to its configuration, and it is started from its snapshot under a new
origin: the minutes are there, and the new archive fills with what comes then. Without the new archive its snapshot is
refused. Ends with status 1 if anything else happens.
"""

import pathlib
import socket
import subprocess
import sys
import tempfile
import time

LINES, FETCH = 8131, 8132

NODE = f'step = 60\nlines = "127.0.0.1:{LINES}"\nfetch = ["127.0.0.1:{FETCH}"]\nlead = 60000000000\n'
MINUTES = "[[archive]]\nsteps = 1\nrows = 10\nxff_num = 0\nxff_den = 1\n"
FIVE = "[[archive]]\nsteps = 5\nrows = 12\nxff_num = 2\nxff_den = 5\n"


def ask(port, text):
    """The answer to a text on a connection of its own."""
    for _ in range(100):
        try:
            with socket.create_connection(("127.0.0.1", port), timeout=10) as stream:
                stream.sendall(text.encode())
                stream.shutdown(socket.SHUT_WR)
                return b"".join(iter(lambda: stream.recv(65536), b"")).decode()
        except ConnectionRefusedError:
            time.sleep(0.1)
    sys.exit(f"nothing listens on port {port}")


def check(what, got, want):
    print(f"{what}: {' '.join(got.split())}")
    if got != want:
        sys.exit(f"expected: {want}")


def send(readings):
    """Sends readings of the boiler, each a minute and a value, and waits until they are saved."""
    lines = "".join(f"boiler temp={value}i {minute * 60}000000000\n" for minute, value in readings)
    check("lines", ask(LINES, lines), f"points {len(readings)} samples {len(readings)} refused 0\n")
    # The report comes before the save of its round; the next connection is taken after it.
    ask(LINES, "")


def rows(resolution, end):
    return ask(FETCH, f"fetch AVERAGE {resolution} 0 {end} boiler temp\n")


class Node:
    """A node with these archives under an origin, from its snapshot unless this is the first start."""

    def __init__(self, program, folder, archives, origin):
        config = folder / "node.toml"
        config.write_text(NODE + archives)
        snapshot = folder / "node.snapshot"
        words = [program, "serve", config, "--origin", str(origin), "--save", snapshot]
        if snapshot.exists():
            words += ["--load", snapshot]
        self.process = subprocess.Popen(words, stderr=subprocess.PIPE, text=True)

    def __enter__(self):
        return self

    def __exit__(self, *_):
        self.process.kill()
        self.process.communicate()


def main():
    program = pathlib.Path(sys.argv[1]).resolve()
    with tempfile.TemporaryDirectory() as name:
        folder = pathlib.Path(name)
        with Node(program, folder, MINUTES, 1):
            send([(0, 71200), (1, 71600)])
            check("minutes", rows(60, 120), "boiler temp,0,71200\nboiler temp,60,71600\n\n")
        with Node(program, folder, MINUTES + FIVE, 2):
            check("minutes", rows(60, 120), "boiler temp,0,71200\nboiler temp,60,71600\n\n")
            check("five minutes", rows(300, 300), "boiler temp,0,U\n\n")
            send([(2, 71900), (3, 72100), (4, 72000)])
            check("five minutes", rows(300, 300), "boiler temp,0,72000\n\n")
            check("minutes", rows(60, 180), "boiler temp,0,71200\nboiler temp,60,71600\nboiler temp,120,71900\n\n")
        with Node(program, folder, MINUTES, 3) as node:
            said = node.process.communicate(timeout=60)[1]
            last = said.splitlines()[-1]
            check("without the new archive", f"{node.process.returncode} {last}", "2 load: SchemaDiffers")


if __name__ == "__main__":
    main()
