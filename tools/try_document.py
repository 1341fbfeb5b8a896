#!/usr/bin/env python3
"""Runs the commands that documents show, and compares what they print with what is shown.

usage: try_document.py PROGRAM FILE ..

PROGRAM is the built program. In a FILE of Markdown, `$ COMMAND` at the beginning of an indented line is a command,
whose further lines begin with `>`, and the indented lines after it are what it prints. All commands of a file are run
by one shell, in a folder of their own with `rr`, which is PROGRAM, the examples and the tools; /tmp is a folder in it;
`./build` does nothing there, and what proves or installs is left out. A number of nine digits or more, such as a time,
stands for any. A file is tried once more if anything differs, since a minute may end between two commands. Status 1:
something differs again.
"""

import os
import pathlib
import re
import signal
import subprocess
import sys
import tempfile
import threading
import time

from crates import TOP

# Commands that are left out, by their first words.
LEFT_OUT = ("rt ", "git ", "sudo ", "./install")

# What an interpreted run says, and not PROGRAM.
UNPROVED = "rr: this run is checked, not proved;"

# What the shell says of a process that was ended.
ENDED = re.compile(r"bash: line \d+: +\d+ (Killed|Terminated) .*")

# Seconds that a command may take to print what is shown, and that are waited for more.
LONGEST, MORE = 20, 0.3


def commands(text):
    """The commands of a document, each with the lines that it prints."""
    found = []
    for line in text.splitlines():
        shown = line[4:] if line.startswith("    ") else None
        if shown is None:
            if line.strip():
                found.append(None)
        elif shown.startswith("$ "):
            found.append([shown[2:], []])
        elif found and found[-1] is not None:
            command, printed = found[-1]
            if shown.startswith(">") and not printed:
                found[-1][0] = f"{command}\n{shown[2:]}"
            else:
                printed.append(shown)
    return [it for it in found if it is not None]


def alike(line):
    """A line, with its long numbers as one."""
    return re.sub(r"\d{9,}", "N", line)


class Shell:
    """A shell in a folder, and what its commands printed."""

    def __init__(self, folder):
        self.lines = []
        self.process = subprocess.Popen(
            ["bash"], cwd=folder, stdin=subprocess.PIPE, stdout=subprocess.PIPE, stderr=subprocess.STDOUT,
            text=True, start_new_session=True)
        threading.Thread(target=self.read, daemon=True).start()

    def read(self):
        for line in self.process.stdout:
            self.lines.append(line.rstrip("\n"))

    def printed(self, begin):
        return [it for it in self.lines[begin:] if it and not it.startswith("ended ") and not ENDED.fullmatch(it)]

    def run(self, command, count):
        """What a command prints, of which so many lines are waited for."""
        begin, mark = len(self.lines), f"ended {time.monotonic_ns()}"
        self.process.stdin.write(f"{command}\necho; echo {mark}\n")
        self.process.stdin.flush()
        end = time.monotonic() + LONGEST
        while time.monotonic() < end and (mark not in self.lines[begin:] or len(self.printed(begin)) < count):
            time.sleep(0.02)
        time.sleep(MORE)
        return self.printed(begin)

    def end(self):
        os.killpg(self.process.pid, signal.SIGKILL)
        self.process.wait()


def make_room(folder, program):
    """Puts what commands need into a folder."""
    room = pathlib.Path(folder)
    (room / "rr").symlink_to(program)
    for name in ("examples", "tools", "docs"):
        (room / name).symlink_to(TOP / name)
    (room / "tmp").mkdir()
    (room / "build").write_text("#!/bin/sh\n")
    (room / "build").chmod(0o755)


def difference(program, file):
    """The first command of a document that prints something else, if there is one."""
    with tempfile.TemporaryDirectory() as folder:
        make_room(folder, program)
        shell = Shell(folder)
        try:
            for command, shown in commands(file.read_text()):
                if command.startswith(LEFT_OUT):
                    continue
                shown = [it for it in shown if it and not it.startswith(UNPROVED)]
                printed = shell.run(command.replace("/tmp/", f"{folder}/tmp/"), len(shown))
                if [alike(it) for it in printed] != [alike(it) for it in shown]:
                    return "\n".join(["$ " + command, *printed, "in place of", *shown])
            return None
        finally:
            shell.end()


def main():
    if len(sys.argv) < 3:
        sys.exit(__doc__)
    program, failed = pathlib.Path(sys.argv[1]).resolve(), False
    for file in map(pathlib.Path, sys.argv[2:]):
        found = difference(program, file) and difference(program, file)
        print(f"{file}: {'differs' if found else 'as shown'}")
        if found:
            print(found)
            failed = True
    return int(failed)


if __name__ == "__main__":
    sys.exit(main())
