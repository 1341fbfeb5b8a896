"""A node that serves while growths are refused (refuse.py), for one round or without end.

It is sent lines, pulls a cell from a peer, saves, answers fetches, and gives to a peer that pulls. It may end with any
of these undone. But each answer has to be a prefix of one from a node that was refused nothing, with or without the
lines and with or without the peer's cell; the snapshot has to be that of such a node, or the last one; and the last
line on standard error has to say that memory ran out exactly if the status does.

A node without end may go on only where its keeper and its reader both do: it takes a further line connection and
answers a further fetch, and is then stopped. Else it has to end by itself, as memory ran out on one of its threads.
"""

import collections
import concurrent.futures
import os
import pathlib
import re
import signal
import socket
import struct
import subprocess
import tempfile
import threading
import time
import typing

# Nodes that are tried side by side: each waits more than it works.
BESIDE = 2 * (os.cpu_count() or 1)

# Seconds that a connection may be silent, for the node and for its callers, and that a node may take to end.
IDLE = 5
LONGEST = 20

# The rounds that a node keeps, and the connections that its reader takes: for one round, and without end.
ONE_ROUND = (1, 2)
ENDLESS = (0, 0)

CONFIG = """\
step = 60
lines = "127.0.0.1:{0}"
fetch = ["127.0.0.1:{1}"]
peers = ["127.0.0.1:{2}"]
rounds = {rounds}
visits = {visits}
idle = {idle}
lead = 300_000_000_000
quiet = true

[[archive]]
steps = 1
rows = 3
xff_num = 0
xff_den = 1
"""

# The report of an empty line connection.
NO_LINES = b"points 0 samples 0 refused 0\n"

# What the snapshot file holds before the node saves.
LAST = b"the last one"

LINES = b"""\
m v=1i 0
m v=1
w,host=a in=3i,out=-4i 60000000000

# note
w,host=b in=3i 9
m v=2i 60000000001
""" + b"".join(b"s%d,a=1 x=%di,y=2i 0\n" % (number, number) for number in range(9))

FETCHES = b"fetch LAST 60 0 120 m v\nfetch MEDIAN 60 0 60 m v\nfetch MIN 60 0 120 w,host=a in\n"

# What a side with this schema sends if it holds nothing, and replies if it holds 7 of origin 1 in the first minute.
ASKS = bytes.fromhex("0000000f 01 0000003c 01 01 00000003 0000 0001 00000001 03")
PAGE = bytes.fromhex(
    "52525047 01 0000003c 01 01 00000003 0000 0001 0001 0003 6d2076 00 0000000000000001 0001 0000000000000001"
    "0000000000000001 00000000000000000000000000000007 0000000000000007 0000000000000007 0000000df8475800"
    "0000000000000007 0000000000000001"
)
REPLIES = struct.pack(">IB", len(PAGE) + 1, 4) + PAGE + bytes.fromhex("00000001 05")
NAMES_END = bytes.fromhex("00000001 03")

# What a node says about a peer and a save when memory is refused below them, or when the node ends meanwhile.
FAILURES = {"peer 1: BadAddress", "peer 1: ReadFailed", "peer 1: WriteFailed", "save: WriteFailed"}
OUT_OF_MEMORY = "rr: out of memory"

# The reason, in a line before.
REASON = re.compile(r"rr: (saved\.new|127\.0\.0\.1:\d+): .+")

# What a node says as it starts, since it will replace a snapshot that it doesn't load.
REPLACED = "rr: saved: will be replaced: no --load"

# What it says if it can't listen, and how often it is then tried with other ports.
BAD_ADDRESS = "rr: bad address"
TRIES = 5

# What a save may leave beside the snapshot if all growths are refused from then on: nothing can be removed without memory.
BESIDE_SAVED = "saved.new"


class Served(typing.NamedTuple):
    """How a node ended, whether it was stopped, what it said on standard error, what it answered to lines, to fetches
    and to a peer, its snapshot, the files that it left beside that, and how many growths it made and was refused."""

    status: int
    stopped: bool
    errors: list
    answers: list
    saved: bytes
    left: list
    made: int
    refused: int


def free_ports(count):
    """Ports of this machine on which nothing listens."""
    held = [socket.create_server(("127.0.0.1", 0)) for _ in range(count)]
    ports = [it.getsockname()[1] for it in held]
    for it in held:
        it.close()
    return ports


def ask(port, text):
    """The answer to a text on a connection of its own, up to where that ends or fails."""
    answer = b""
    try:
        with socket.create_connection(("127.0.0.1", port), timeout=IDLE) as stream:
            stream.sendall(text)
            stream.shutdown(socket.SHUT_WR)
            while piece := stream.recv(65536):
                answer += piece
    except OSError:
        pass
    return answer


def reply(listener):
    """Gives the peer's cell to each side that pulls, until the listener is closed."""
    while True:
        try:
            stream, _ = listener.accept()
        except OSError:
            return
        with stream:
            stream.settimeout(IDLE)
            heard = b""
            try:
                while not heard.endswith(NAMES_END) and (piece := stream.recv(4096)):
                    heard += piece
                stream.sendall(REPLIES)
            except OSError:
                pass


def listens(ports):
    """Whether each port has a listener."""
    with open("/proc/net/tcp") as table:
        rows = [row.split() for row in table.readlines()[1:]]
    return set(ports) <= {int(row[1].split(":")[1], 16) for row in rows if row[3] == "0A"}


def wait_until(is_so, seconds):
    """Waits until a condition holds, for this many seconds at most."""
    end = time.monotonic() + seconds
    while not is_so() and time.monotonic() < end:
        time.sleep(0.002)


def use(node, ports, saved, lines):
    """Uses a node once it listens; returns its answers to lines, to fetches after it has saved, and to a peer."""
    wait_until(lambda: node.poll() is not None or listens(ports), LONGEST)
    if node.poll() is not None:
        return []
    report = ask(ports[0], lines)
    wait_until(lambda: node.poll() is not None or saved.read_bytes() != LAST, 0.5)
    return [report, ask(ports[1], FETCHES), ask(ports[1], ASKS)]


def goes_on(node, ports):
    """Whether each thread of a node still does its work."""
    return node.poll() is None and ask(ports[0], b"") == NO_LINES and ask(ports[1], FETCHES).endswith(b"\n\n")


def is_closed(port):
    """Whether a connection is ended at once without an answer, as one is if there is no memory for it."""
    try:
        with socket.create_connection(("127.0.0.1", port), timeout=IDLE) as stream:
            return stream.recv(1) == b""
    except TimeoutError:
        return False
    except OSError:
        return True


def lives_on(node, ports):
    """Whether a node still takes connections, and none of its threads holds one."""
    return node.poll() is None and all(is_closed(port) for port in ports[:2]) and node.poll() is None


def serve(*how, **more):
    """Has a node serve, and again with other ports if another program took one of its ports meanwhile."""
    for _ in range(TRIES):
        it = serve_once(*how, **more)
        if BAD_ADDRESS not in it.errors:
            break
    return it


def serve_once(program, refuser, limits, nth=0, and_on=False, lines=LINES, has_peer=True):
    """Has a node serve within these limits, with a growth refused. A node without end is stopped if it goes on."""
    ports = free_ports(2)
    with tempfile.TemporaryDirectory() as folder, socket.create_server(("127.0.0.1", 0)) as listener:
        folder = pathlib.Path(folder)
        if has_peer:
            threading.Thread(target=reply, args=(listener,), daemon=True).start()
        peer = listener.getsockname()[1] if has_peer else free_ports(1)[0]
        rounds, visits = limits
        config = CONFIG.format(*ports, peer, rounds=rounds, visits=visits, idle=IDLE)
        (folder / "node.toml").write_text(config)
        saved = folder / "saved"
        saved.write_bytes(LAST)
        node = subprocess.Popen(
            [program, "serve", "node.toml", "--origin", "2", "--save", "saved"],
            cwd=folder,
            env=refuser.environment(folder / "log", nth, and_on),
            stdin=subprocess.DEVNULL,
            stdout=subprocess.DEVNULL,
            stderr=subprocess.PIPE,
            text=True,
        )
        answers = use(node, ports, saved, lines)
        # The refused growth may belong to a connection that asks whether the node goes on, so it is asked again.
        if limits == ENDLESS and (goes_on(node, ports) or goes_on(node, ports) or lives_on(node, ports)):
            node.terminate()
        try:
            _, errors = node.communicate(timeout=LONGEST)
        except subprocess.TimeoutExpired:
            node.kill()
            _, errors = node.communicate()
        made, refused = struct.unpack("<QQ", (folder / "log").read_bytes())
        left = sorted({it.name for it in folder.iterdir()} - {"node.toml", "log", "saved"})
        status, stopped = node.returncode, node.returncode == -signal.SIGTERM
        return Served(status, stopped, errors.splitlines(), answers, saved.read_bytes(), left, made, refused)


def faults(it, wholes, and_on):
    """What is wrong with a node that was refused a growth, and with `and_on` also those after it, compared with nodes
    that were refused nothing."""
    ended = it.errors[-1:] == [OUT_OF_MEMORY]
    if it.status != (3 if ended and not it.stopped else wholes[0].status):
        yield f"status {it.status}"
    said = {line for line in it.errors if not REASON.fullmatch(line)} - {REPLACED}
    if ended:
        said.discard(OUT_OF_MEMORY)
    if not said <= (FAILURES if it.answers else set()):
        yield f"said {it.errors}"
    if it.saved not in {LAST, *(whole.saved for whole in wholes)}:
        yield f"saved {it.saved.hex()}"
    if it.left and not ((and_on or it.stopped) and it.left == [BESIDE_SAVED]):
        yield f"left {it.left}"
    for place, answer in enumerate(it.answers):
        if not any(whole.answers[place].startswith(answer) for whole in wholes):
            yield f"answered {answer}"


def try_limits(program, refuser, limits, what):
    """Refuses each growth of a node with these limits, and prints the outcome. Returns whether all is well."""
    whole = serve(program, refuser, limits)
    wholes = [whole] + [
        serve(program, refuser, limits, lines=lines, has_peer=has_peer)
        for lines, has_peer in ((LINES, False), (b"", True), (b"", False))
    ]
    runs = [(nth, and_on) for and_on in (False, True) for nth in range(1, whole.made + 1)]
    total = collections.Counter()
    with concurrent.futures.ThreadPoolExecutor(BESIDE) as pool:
        for (nth, and_on), it in zip(runs, pool.map(lambda run: serve(program, refuser, limits, *run), runs)):
            wrong = list(faults(it, wholes, and_on))
            total.update(refused=it.refused, wrong=bool(wrong), whole=it.answers == whole.answers)
            for line in wrong:
                print(f"{what}, growth {nth}{' and on' if and_on else ''}: {line}")
    print(
        f"{what}: {total['refused']} growths refused, {total['whole']} answered as without, {total['wrong']} wrong",
        flush=True,
    )
    return total["refused"] > 0 and not total["wrong"]


def try_node(program, refuser):
    """Refuses each growth of a node of one round, and of one without end. Returns whether all is well."""
    is_well = try_limits(program, refuser, ONE_ROUND, "node")
    return try_limits(program, refuser, ENDLESS, "endless node") and is_well
