#!/usr/bin/env python3
"""Proves the crates of a program, builds it, and reports progress on standard error.

usage: build.py [PROGRAM]

PROGRAM is a crate of the repository that is a program; rr_tool by default.

Each library is proved from scratch and passed on by its statements, as the gate does it: `rt lib` passes on the proofs
too, which each crate above would load. A library is kept in its folder out/ until a source changes, so after an
interruption the next run proves only the crates that are left. If a proof or the build fails, prints its output and
ends with status 1.
"""

import concurrent.futures
import fcntl
import functools
import hashlib
import os
import pathlib
import re
import shutil
import signal
import subprocess
import sys
import threading
import time

from crates import TOP, lines, listed, with_those_below

# The program with every command.
WHOLE = "rr_tool"

# The toolchain, whose command is KIT/bin/rt.
KIT = pathlib.Path(shutil.which("rt") or sys.exit("build.py: no command rt")).resolve().parents[1]

# Memory that the proof of one crate may take, in bytes.
CRATE_MEMORY = 4 * 1024**3

# A path up to the program is long from this fraction of the longest on.
LONG = 0.95

# Seconds between lines of progress.
INTERVAL = 15

# What a proof prints of successes and of progress.
WELL = re.compile(r"(fn|impl|struct|enum) \S+: proved|(checked \S+,|so far:) \d+ of \d+|statements \w+: ")

# The folders of a crate that a proof reads.
SOURCES = ("src", "specs", "proofs")


class Failed(Exception):
    """A command failed; holds what it printed."""


def room_for_proofs():
    """How many crates can be proved side by side without running out of memory."""
    return max(1, os.sysconf("SC_PAGE_SIZE") * os.sysconf("SC_PHYS_PAGES") // CRATE_MEMORY)


def most_proofs():
    """How many crates are proved side by side, each on a core of its own."""
    return min(len(os.sched_getaffinity(0)), room_for_proofs())


def sources(name):
    """The files of a crate that a proof reads."""
    found = (file for part in SOURCES for file in (TOP / "crates" / name / part).rglob("*"))
    return sorted(file for file in found if file.is_file())


def out(name):
    """The folder for what is built from a crate."""
    return TOP / "crates" / name / "out"


def library(name):
    """The folder with a library's statements, interface and code."""
    return out(name) / "statements" / f"{name}.rlib"


def kept_digest(name):
    """The file with the digest of what a library was built from."""
    return out(name) / "statements/digest"


class Crates:
    """The crates of a program, lowest first, and how each is proved."""

    def __init__(self, program):
        listing = listed()
        if program not in listing:
            sys.exit(f"build.py: crates.txt has no crate {program}")
        self.lines = lines()
        self.uses = {name: listing[name] for name in with_those_below(listing, [program])}

    @functools.cache
    def digest(self, name):
        """The digest of a crate's sources, of what it stands on, and of the toolchain."""
        digest = hashlib.sha256((KIT / "KIT-ID").read_bytes() + self.lines[name].encode())
        for it in self.uses[name]:
            digest.update(self.digest(it).encode())
        for file in sources(name):
            digest.update(f"\n{file.relative_to(TOP)}\n".encode() + file.read_bytes())
        return digest.hexdigest()

    def is_proved(self, name):
        kept = kept_digest(name)
        return library(name).is_dir() and kept.is_file() and kept.read_text() == self.digest(name)

    def words(self, name):
        """The command line that proves and builds a crate, over the libraries below it."""
        used = dict.fromkeys(["std", *self.lines[name].partition("#")[0].partition(":")[2].split()])
        folder = TOP / "crates" / name / "src"
        words = ["--crate-name", name, next(it for it in (folder / "main.rt", folder / "lib.rt") if it.exists())]
        for it in used:
            words += ["--extern", f"{it}={library(it) if it in self.lines else KIT / 'rlibs' / f'{it}.rlib'}"]
        below = with_those_below(self.uses, self.uses[name])
        for it in (KIT / "rlibs", *(library(it).parent for it in below)):
            words += ["-L", f"dependency={it}"]
        words += ["--antt-project", KIT / "rattle/logic/antt-project.json", "--logic-built", KIT / "logic_built"]
        return [KIT / "bin/rattle", "build", *words, "--links", f"{name}="]


class Build:
    """The crates proved so far, those being proved, and the running commands."""

    def __init__(self, program):
        self.began = time.monotonic()
        self.program = program
        self.crates = Crates(program)
        self.uses = self.crates.uses
        self.libraries = [name for name in self.uses if name != program]
        self.sizes = {name: sum(file.stat().st_size for file in sources(name)) for name in self.uses}
        self.proved = []
        self.running = {}
        self.commands = set()
        self.stopped = threading.Event()
        self.ended = threading.Event()

    def say(self, text):
        minutes, seconds = divmod(int(time.monotonic() - self.began), 60)
        print(f"rr: {minutes}:{seconds:02} {text}", file=sys.stderr, flush=True)

    def remind(self):
        """Says from time to time which crates are being proved."""
        while not self.ended.wait(INTERVAL):
            names = ", ".join(sorted(self.running.values()))
            if names:
                self.say(f"proving {names}")

    def run(self, *command):
        """Runs a command, which doesn't outlive this run."""
        process = subprocess.Popen(
            command,
            cwd=TOP,
            stdin=subprocess.DEVNULL,
            stdout=subprocess.PIPE,
            stderr=subprocess.STDOUT,
            text=True,
            errors="replace",
            start_new_session=True,
        )
        self.commands.add(process)
        if self.stopped.is_set():
            os.killpg(process.pid, signal.SIGTERM)
        try:
            said, _ = process.communicate()
        finally:
            self.commands.discard(process)
        if process.returncode < 0:
            said += f"{command[0]} was ended by signal {-process.returncode}; 9 is most likely for memory\n"
        if process.returncode != 0:
            raise Failed(said)

    def stop(self):
        """Ends all running commands, and any that start later."""
        self.stopped.set()
        for process in list(self.commands):
            os.killpg(process.pid, signal.SIGTERM)

    def prove(self, name, jobs, gives_way):
        """Proves a library over those below it, which are proved already; at low priority if it gives way."""
        if self.crates.is_proved(name):
            return
        kept = kept_digest(name)
        kept.parent.mkdir(parents=True, exist_ok=True)
        kept.unlink(missing_ok=True)
        priority = ["nice"] if gives_way else []
        self.run(*priority, *self.crates.words(name), "--statements", "--jobs", str(jobs), "-o", library(name))
        kept.write_text(self.crates.digest(name))

    def ways(self):
        """For each crate that isn't proved, the size of the longest path from it up to the program."""
        ways = {}
        for name in reversed(self.uses):
            above = [way for it, way in ways.items() if name in self.uses[it]]
            ways[name] = self.sizes[name] + max(above, default=0)
        return {name: way for name, way in ways.items() if name not in self.proved}

    def begin(self, pool, most):
        """Starts proofs that are ready, up to `most` at once, those on the longest paths first. A crate on a long path
        gets half of the cores, or all of them if no other can be proved meanwhile, since everything waits for it.
        Elsewhere more jobs cost more than they gain, and a crate that isn't waited for gives way."""
        ways, running = self.ways(), {*self.running.values()}
        ready = [it for it in self.libraries if it in ways and it not in running and not ways.keys() & self.uses[it]]
        ready.sort(key=ways.get, reverse=True)
        begins = ready[: most - len(running)]
        shared = max(1, most // 2) if len(running) + len(begins) > 1 else most
        longest = max(ways.values())
        for name in begins:
            is_long = ways[name] >= LONG * longest
            prove = pool.submit(self.prove, name, shared if is_long else 1, not is_long)
            self.running[prove] = name

    def prove_all(self):
        most = most_proofs()
        with concurrent.futures.ThreadPoolExecutor(most) as pool:
            try:
                while len(self.proved) < len(self.libraries):
                    self.begin(pool, most)
                    finished, _ = concurrent.futures.wait(
                        self.running, return_when=concurrent.futures.FIRST_COMPLETED
                    )
                    for it in finished:
                        name = self.running.pop(it)
                        it.result()
                        self.proved.append(name)
                        self.say(f"proved {name}, {len(self.proved)} of {len(self.uses)}")
            except BaseException:
                self.stop()
                raise

    def build(self):
        """Proves and builds the program over the libraries."""
        self.say("proving and building the program")
        compiler = "rattle" if "backend=rattle" in self.crates.lines[self.program] else "llvm"
        made = out(self.program) / f"{self.program}.o"
        linked = made.with_suffix(".new")
        made.parent.mkdir(exist_ok=True)
        toolchain = ["--toolchain", KIT / "toolchain"]
        self.run(*self.crates.words(self.program), *toolchain, "--backend", compiler, "-o", made)
        words = ["--target", "x86_64-unknown-linux-gnu", *toolchain, "-o", linked, made]
        self.run(KIT / "bin/rattle-link", *words, KIT / "c/libos_c.a", KIT / "c/liblibc_c.a")
        made.unlink()
        linked.replace(made.with_suffix(""))


def wait_for_others():
    """Keeps other runs from building until this one ends; if one is building already, says so and waits for it."""
    folder = os.open(TOP, os.O_RDONLY)
    try:
        fcntl.flock(folder, fcntl.LOCK_EX | fcntl.LOCK_NB)
    except BlockingIOError:
        print("rr: another build is at work; this one goes on when it has ended", file=sys.stderr, flush=True)
        fcntl.flock(folder, fcntl.LOCK_EX)


def interrupt(number, frame):
    """Ends the build and all that it runs, like an interrupt from the keyboard."""
    raise KeyboardInterrupt


def main():
    signal.signal(signal.SIGTERM, interrupt)
    signal.signal(signal.SIGHUP, interrupt)
    try:
        wait_for_others()
    except KeyboardInterrupt:
        return 130
    build = Build(sys.argv[1] if len(sys.argv) > 1 else WHOLE)
    threading.Thread(target=build.remind, daemon=True).start()
    try:
        build.prove_all()
        build.build()
    except KeyboardInterrupt:
        build.stop()
        print("rr: interrupted; what is proved is kept", file=sys.stderr)
        return 130
    except Failed as failed:
        said = [line for line in str(failed).splitlines(keepends=True) if not WELL.match(line)]
        print("".join(said[-60:]), "rr: the program isn't built", sep="", file=sys.stderr)
        return 1
    finally:
        build.ended.set()
    return 0


if __name__ == "__main__":
    sys.exit(main())
