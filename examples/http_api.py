#!/usr/bin/env python3
"""A node that is asked over HTTP, by curl, by many senders at once, and by clients that no one should write.

    examples/http_api.py PROGRAM

PROGRAM is the built program, crates/rr_tool/out/rr_tool. It is sent writes in the forms of both versions of InfluxDB
and of common clients, fetches, keys, counts, the page's texts, each refusal, requests one after another and at once on
one connection, 16 senders of 1,000 lines at once, silent line connections, and requests that aren't requests. After
each of these the node has to answer. Then come a node that is killed once it has answered and restarted from its
directory, one whose journal can't grow for a while, and one with fewer file descriptors than connections. Ends with
status 1 if anything else happens.
"""

import concurrent.futures
import gzip
import json
import os
import resource
import socket
import subprocess
import sys
import tempfile
import time

from http_node import IDLE, Node, check, fail, read_all, read_answer, within

SENDERS, LINES_OF_ONE = 16, 1000

# The rows of the first three minutes.
MINUTES = "cf=LAST&resolution=60&start=0&end=180"

NO_KEY = "error BadKey: key must be a key text, its tags in order\n"


def status_of(answer):
    return int(answer.split(b" ", 2)[1]) if answer.startswith(b"HTTP/1.") else None


def send_lines(node, text):
    """Sends lines over a line connection; returns what it is answered."""
    with socket.create_connection(("127.0.0.1", node.lines), timeout=30) as stream:
        stream.sendall(text.encode())
        stream.shutdown(socket.SHUT_WR)
        return read_all(stream).decode()


def post(body, *fields):
    """The bytes of a write, with additional header fields."""
    return b"\r\n".join([b"POST /write HTTP/1.1", b"Host: a", *fields, b"Content-Length: %d" % len(body), b"", body])


def get(path, *fields):
    """The bytes of a request that reads, with additional header fields."""
    return b"\r\n".join([b"GET %s HTTP/1.1" % path, b"Host: a", *fields, b"", b""])


def writes(node):
    line = b"boiler temp=21i 60000000000\n"
    check("a write", node.curl("/write?db=any&precision=ns", body=line), (204, ""))
    check("version 2", node.curl("/api/v2/write?org=a&bucket=b&precision=ns", body=line), (204, ""))
    check("no precision", node.curl("/write", body=line), (204, ""))
    check("no line", node.curl("/write", body=b""), (204, ""))
    status, text = node.curl("/write", body=line + b"boiler temp=1.5\nboiler\n")
    check("a partial write", (status, json.loads(text)), (400, {
        "error": "partial write: line 2: FloatField; line 3: NoFields; points 1 samples 1 refused 2"}))
    check("another precision", node.curl("/write?precision=ms", body=line),
          (400, '{"error":"the precision of this node is ns"}\n'))
    [(status, fields, _)] = node.ask(post(gzip.compress(line), b"Content-Encoding: gzip"))
    check("gzip", (status, fields["accept-encoding"]), (415, "identity"))
    check("a line connection", send_lines(node, line.decode()), "points 1 samples 1 refused 0\n")


def fetches(node):
    csv = "boiler temp,0,U\nboiler temp,60,21\nboiler temp,120,U\n"
    check("a fetch", node.curl(f"/fetch?{MINUTES}&key=boiler%20temp"), (200, csv))
    check("with a plus", node.curl(f"/fetch?{MINUTES}&key=boiler+temp"), (200, csv))
    check("a refusal", node.curl(f"/fetch?{MINUTES}&key=boiler"), (400, NO_KEY))
    check("tags out of order", node.curl(f"/fetch?{MINUTES}&key=boiler,b=1,a=1+v"), (400, NO_KEY))
    lacks = {"key=a+b": "cf", "cf=LAST": "resolution", "cf=LAST&resolution=60&end=60": "start",
             "cf=MAX&resolution=60&last=60": "key"}
    for query, lacking in lacks.items():
        check("a word less", node.curl(f"/fetch?{query}"), (400, f"error BadCommand: no parameter {lacking}\n"))
    check("no number", node.curl("/fetch?cf=LAST&resolution=60&last=x&key=a+b"),
          (400, "error BadNumber: resolution, start, end and last must be numbers in their ranges\n"))
    now = int(time.time())
    check("now", node.curl("/write", body=f"now n=7i {now}000000000\n".encode())[0], 204)
    status, text = node.curl("/fetch?cf=LAST&resolution=60&last=60&key=now+n")
    check("the last minute", (status, text.splitlines()[-1].split(",")[-1]), (200, "7"))
    check("a measurement named error", node.curl("/write", body=b"error n=1i 0\n")[0], 204)
    check("its rows", node.curl("/fetch?cf=MAX&resolution=60&start=0&end=60&key=error+n"), (200, "error n,0,1\n"))


def as_json(node):
    text = '{"key":"boiler temp","rows":[[0,null],[60,21],[120,null]]}\n'
    check("a fetch as JSON", node.curl(f"/fetch?{MINUTES}&key=boiler+temp&format=json"), (200, text))
    csv = node.curl(f"/fetch?{MINUTES}&key=boiler+temp")
    check("a fetch as CSV", node.curl(f"/fetch?{MINUTES}&key=boiler+temp&format=csv"), csv)
    check("another form", node.curl(f"/fetch?{MINUTES}&key=boiler+temp&format=xml"),
          (400, "error BadFormat: format must be csv or json\n"))
    check("a refusal", node.curl(f"/fetch?{MINUTES}&key=boiler&format=json"), (400, NO_KEY))
    check("a key of all sorts", node.curl("/write", body=b'all,q="\\a,x=\x01\xff n=-7i 60000000000\n')[0], 204)
    key = "all,q=%22%5Ca,x=%01%FF+n"
    status, text = node.curl(f"/fetch?{MINUTES}&key={key}&format=json")
    check("as JSON", (status, json.loads(text)), (200, {
        "key": 'all,q="\\a,x=\x01\ufffd n', "rows": [[0, None], [60, -7], [120, None]]}))


def listed(node, query):
    """The status and the keys of a list."""
    status, text = node.curl(f"/series?{query}")
    return status, text.splitlines()


def keys(node):
    lines = "".join(f"many,n={i:05} v=1i 0\n" for i in range(1200))
    check("many series", node.curl("/write", body=lines.encode())[0], 204)
    of_many = [f"many,n={i:05} v" for i in range(1200)]
    check("keys", listed(node, "prefix=many"), (200, of_many[:1000]))
    check("all of them", listed(node, "prefix=many&count=10000"), (200, of_many))
    check("from behind one", listed(node, "prefix=many&after=many,n=00999+v&count=3"), (200, of_many[1000:1003]))
    check("from behind one that isn't there", listed(node, "after=many,n=009985+v&count=1"), (200, of_many[999:1000]))
    check("none left", listed(node, "after=many,n=01199+v&prefix=many"), (200, []))
    check("of another prefix", listed(node, "prefix=nobody"), (200, []))
    check("behind no key", listed(node, "after=many"),
          (400, ["error BadKey: after must be a key text, its tags in order"]))
    check("too many", listed(node, "count=10001"), (400, ["error BadCount: count must be from 1 to 10,000"]))
    check("none", listed(node, "count=0"), (400, ["error BadCount: count must be from 1 to 10,000"]))
    check("no number", listed(node, "count=x"), (400, ["error BadNumber: count must be a number below 2^64"]))


def counts_of(node):
    """The counts of a node by name, with their labels. They are published once a second."""
    for _ in range(100):
        text = node.curl("/metrics")[1]
        if text:
            return {name: float(number) for name, _, number in
                    (line.rpartition(" ") for line in text.splitlines() if line[0] != "#")}
        time.sleep(0.1)
    fail("there are no numbers")


def counts(node):
    refused = 'rr_refused_total{fault="NoFields"}'
    time.sleep(2)
    before = counts_of(node)
    node.curl("/write", body=b"counted n=1i 0\nrefused\n")
    for _ in range(100):
        after = counts_of(node)
        if after["rr_points_total"] > before["rr_points_total"]:
            break
        time.sleep(0.1)
    for name, more in (("rr_points_total", 1), ("rr_samples_total", 1), (refused, 1)):
        check(name, after[name] - before.get(name, 0), more)
    for name in ("rr_journal_synced_bytes", *(f'rr_http_answers_total{{status="{it}"}}' for it in ("2xx", "4xx"))):
        check(name, after[name] > before[name], True)
    for fault in ("ContentCoding", "OtherPrecision"):
        check(f"a body refused as {fault}", after[f'rr_refused_bodies_total{{fault="{fault}"}}'] > 0, True)
    check("it holds memory", after["process_resident_memory_bytes"] > 1_000_000, True)
    check("it started", abs(after["process_start_time_seconds"] - time.time()) < 3_600, True)
    check("what the node is", after['rr_info{version="2",origin="1"}'], 1)
    check("its archives", after['rr_archive_rows{resolution="60"}'], 2000)


def page(node):
    for path, kind, text in (("/", "text/html", "<!doctype html>"), ("/rr.js", "text/javascript", '"use strict"'),
                             ("/rr.css", "text/css", ":root")):
        status, answer = node.curl(path, "-i")
        head, _, body = answer.lower().replace("\r\n", "\n").partition("\n\n")
        check(path, (status, f"content-type: {kind}" in head, text in body), (200, True, True))
        check(f"{path}: nosniff", "x-content-type-options: nosniff" in head, True)
        check(f"{path}: its policy", "default-src 'none'" in head, path == "/")


def clients(node):
    """Requests as clients send them: Telegraf's outputs.influxdb, InfluxDB's Python clients of both versions, curl."""
    line = b"client n=1i 0\n"
    chunked = b"%x\r\n%s\r\n0\r\n\r\n" % (len(line), line)
    plain = b"Content-Length: %d\r\n\r\n%s" % (len(line), line)
    requests = {
        "Telegraf": b"POST /write?db=telegraf HTTP/1.1\r\nHost: a:8086\r\nUser-Agent: Telegraf/1.28.3 Go/1.21.3\r\n"
                    b"Transfer-Encoding: chunked\r\nContent-Type: text/plain; charset=utf-8\r\nAccept-Encoding: gzip"
                    b"\r\n\r\n" + chunked,
        "influxdb of Python": b"POST /write?db=a&precision=n HTTP/1.1\r\nHost: a:8086\r\nUser-Agent: python-requests/2.31"
                              b"\r\nAccept-Encoding: gzip, deflate\r\nAccept: application/x-msgpack\r\nConnection: "
                              b"keep-alive\r\nContent-Type: application/octet-stream\r\n" + plain,
        "influxdb-client of Python": b"POST /api/v2/write?org=a&bucket=b&precision=ns HTTP/1.1\r\nHost: a:8086\r\n"
                                     b"Accept-Encoding: identity\r\nContent-Encoding: identity\r\nContent-Type: text/plain"
                                     b"\r\nAccept: application/json\r\nAuthorization: Token t\r\nUser-Agent: "
                                     b"influxdb-client-python/1.38.0\r\n" + plain,
        "curl --data-binary": b"POST /write HTTP/1.1\r\nHost: a:8086\r\nUser-Agent: curl/7.88.1\r\nAccept: */*\r\n"
                              b"Content-Type: application/x-www-form-urlencoded\r\n" + plain,
    }
    for name, request in requests.items():
        check(name, node.ask(request)[0][0], 204)


def refusals(node):
    check("no such path", node.curl("/nothing")[0], 404)
    check("a write by GET", node.curl("/write")[0], 405)
    check("a fetch by POST", node.curl("/fetch", body=b"")[0], 405)
    [(status, fields, _)] = node.ask(get(b"/ping"))
    check("ping", (status, fields["x-influxdb-version"]), (204, "rr-2"))
    [(status, fields, _)] = node.ask(get(b"/write"))
    check("what is allowed", (status, fields["allow"]), (405, "POST"))


def at_once(node):
    """Writes and fetches that are sent at once, each fetch for what the write before it wrote."""
    fetch = get(b"/fetch?cf=LAST&resolution=60&start=0&end=60&key=order+n")
    requests = b"".join(post(b"order n=%di 0\n" % number) + fetch for number in range(100))
    answers = [(status, text) for status, _, text in node.ask(requests, 200)]
    want = [answer for number in range(100) for answer in ((204, b""), (200, b"order n,0,%d\n" % number))]
    check("two hundred requests at once, in order", answers, want)


def connections(node):
    """A connection stays open until a side wants it to end."""
    with node.connect() as stream, stream.makefile("rb") as reader:
        for _ in range(3):
            stream.sendall(get(b"/health"))
            check("a connection that stays", read_answer(reader)[0], 200)
        head, _, body = post(b"waited n=1i 0\n", b"Expect: 100-continue").partition(b"\r\n\r\n")
        stream.sendall(head + b"\r\n\r\n")
        check("a body that waits", read_answer(reader), (100, {}, b""))
        stream.sendall(body)
        check("and comes", read_answer(reader)[0], 204)
        stream.sendall(b"HEAD /health HTTP/1.1\r\nHost: a\r\nConnection: close\r\n\r\n")
        status, fields, _ = read_answer(reader, has_body=False)
        check("the last one, by HEAD", (status, fields["connection"], reader.read()), (200, "close", b""))
    old = node.ask_and_end(b"GET /health HTTP/1.0\r\n\r\n")
    check("of HTTP/1.0, after which it ends", status_of(old), 200)


def many_senders(node):
    def send(sender):
        lines = "".join(f"load,from={sender} n={i}i {i * 60}000000000\n" for i in range(LINES_OF_ONE))
        # A node that is behind has written nothing, so the body is sent again.
        for again in range(100):
            status, _ = node.curl("/write", body=lines.encode())
            if status != 503:
                return status, again
            time.sleep(1)
        return status, again

    began = time.monotonic()
    with concurrent.futures.ThreadPoolExecutor(SENDERS) as pool:
        got = list(pool.map(send, range(SENDERS)))
    behind = sum(again for _, again in got)
    print(f"{SENDERS} senders of {LINES_OF_ONE} lines: {time.monotonic() - began:.2f} s, {behind} times 503")
    check("many senders", [status for status, _ in got], [204] * SENDERS)
    end = LINES_OF_ONE * 60
    for sender in range(SENDERS):
        query = f"cf=MAX&resolution=60&start=0&end={end}&key=load,from={sender}+n"
        values = [row.rsplit(",", 1)[1] for row in node.curl(f"/fetch?{query}")[1].splitlines()]
        if values != [str(i) for i in range(LINES_OF_ONE)]:
            fail(f"the rows of sender {sender} are others")
    print("their rows: as expected")


def silent_lines(node):
    """Line connections that are silent, after half a line or from the start, hold up nobody, and are ended in time."""
    began = time.monotonic()
    silent = [socket.create_connection(("127.0.0.1", node.lines), timeout=30) for _ in range(20)]
    for stream in silent[10:]:
        stream.sendall(b"whole n=1i 0\nhalf n=1")
    check("a write beside silent lines", node.curl("/write", body=b"beside n=1i 0\n")[0], 204)
    check("a line connection beside them", send_lines(node, "beside n=2i 60000000000\n"), "points 1 samples 1 refused 0\n")
    if time.monotonic() - began > 2:
        fail("silent line connections hold others")
    check("they are ended without a report", [read_all(stream) for stream in silent], [b""] * 20)
    if not IDLE * 0.9 < time.monotonic() - began < IDLE + 3:
        fail("silent line connections are not ended in time")
    check("a whole line is taken", node.curl(f"/fetch?{MINUTES}&key=whole+n")[1].splitlines()[0], "whole n,0,1")
    check("half a line isn't", listed(node, "prefix=half"), (200, []))


def hostile(node):
    huge = b"POST /write HTTP/1.1\r\nHost: a\r\nContent-Length: 4294967296\r\n\r\n"
    check("4 GiB announced", status_of(node.ask_and_end(huge)), 413)
    node.is_well("4 GiB announced")
    body = b"#" * (9 * 1024**2)
    check("9 MiB sent", node.curl("/write", "-H", "Expect:", body=body)[0], 413)
    node.is_well("9 MiB sent")
    chunked = b"POST /write HTTP/1.1\r\nHost: a\r\nTransfer-Encoding: chunked\r\n\r\nnonsense\r\n"
    check("no chunks", status_of(node.ask_and_end(chunked)), 400)
    check("no HTTP", status_of(node.ask_and_end(b"\x00" * 1000 + b"\r\n\r\n")), 400)
    check("a key of 100 KB", status_of(node.ask_and_end(get(b"/fetch?key=" + b"a" * 100_000))), 414)
    check("a field of 100 KB", status_of(node.ask_and_end(get(b"/", b"Cookie: " + b"a" * 100_000))), 431)
    for _ in range(10_000):
        node.connect().close()
    node.is_well("ten thousand connections that ask nothing")


def halves(node):
    """Halves of heads and of bodies hold up nobody, and are ended in time."""
    began = time.monotonic()
    waiting = [node.connect() for _ in range(40)]
    for stream in waiting[:20]:
        stream.sendall(b"POST /write HTTP/1.1\r\nHo")
    for stream in waiting[20:]:
        stream.sendall(post(b"half n=1i 0\n")[:-6])
    node.is_well("halves of heads and bodies")
    if time.monotonic() - began > 2:
        fail("halves of requests hold others")
    check("they are ended without an answer", [read_all(stream) for stream in waiting], [b""] * 40)
    if not IDLE * 0.9 < time.monotonic() - began < IDLE + 3:
        fail("halves of requests are not ended in time")


def taken(node):
    """The names of the origins that starts of a node have taken."""
    return sorted(file.name for file in node.data.glob("origin-*"))


def kept(program, folder):
    """What is acknowledged is there after a kill, whoever wrote it, and each start has an origin of its own."""
    node = Node(program, folder)
    try:
        with concurrent.futures.ThreadPoolExecutor(SENDERS) as pool:
            bodies = [b"kept,n=%02d v=1i 0\n" % number for number in range(SENDERS)]
            statuses = list(pool.map(lambda body: node.curl("/write", body=body)[0], bodies))
        check("writes at once", statuses, [204] * SENDERS)
        check("a partial write", node.curl("/write", body=b"kept,n=partial v=1i 0\nkept v=1.5\n")[0], 400)
        check("a line connection", send_lines(node, "kept,n=lines v=1i 0\n"), "points 1 samples 1 refused 0\n")
        names = sorted([f"{number:02}" for number in range(SENDERS)] + ["lines", "partial"])
        for origin in (2, 3):
            node.kill()
            node.start()
            check("what is there after a kill", listed(node, "prefix=kept"), (200, [f"kept,n={name} v" for name in names]))
            check("it has taken no origin", counts_of(node).get('rr_info{version="2"}'), 1)
            node.connect_lines().close()
            check("a body without lines", node.curl("/write", body=b"")[0], 204)
            check("origins that are taken", taken(node), [f"origin-{it:05}" for it in range(1, origin)])
            check("a write", node.curl("/write", body=b"kept,n=00 v=1i 60000000000\n")[0], 204)
            check("origins that are taken then", taken(node), [f"origin-{it:05}" for it in range(1, origin + 1)])
            name = f'rr_info{{version="2",origin="{origin}"}}'
            check("its origin", within(5, lambda: counts_of(node).get(name) == 1), True)
        run = subprocess.run(node.words, capture_output=True, text=True, timeout=30, check=False)
        check("a second one over its directory", (run.returncode, run.stderr), (3, f"rr: {node.data}: in use\n"))
        node.is_well("a second one")
    finally:
        node.kill()


def limit_files(node, most):
    """Lets no file of a node grow beyond this many bytes."""
    resource.prlimit(node.process.pid, resource.RLIMIT_FSIZE, (most, resource.RLIM_INFINITY))


def failing_journal(program, folder, lines):
    """The journal can't grow for a while: this many lines are taken and answered as not saved, and are saved once they
    can be."""
    node = Node(program, folder)
    try:
        check("a write that is saved", node.curl("/write", body=b"a v=1i 0\n")[0], 204)
        limit_files(node, max(file.stat().st_size for file in node.data.glob("journal-*")) + 10)
        answer = node.curl("/write", body=b"".join(b"b,n=%04d v=1i 0\n" % number for number in range(lines)))
        check(f"{lines} lines that aren't", answer, (500, '{"error":"the lines are taken, but not saved"}\n'))
        check("they are taken", listed(node, "prefix=b&count=1"), (200, ["b,n=0000 v"]))
        check("a line connection", send_lines(node, "c v=1i 0\n"), "")
        status, text = node.curl("/health")
        check("/health", (status, json.loads(text)["status"]), (503, "fail"))
        limit_files(node, resource.RLIM_INFINITY)
        check("it can be saved again", within(5, lambda: node.curl("/health")[0] == 200), True)
        check("the next write", node.curl("/write", body=b"d v=1i 0\n")[0], 204)
        check("appends that failed", counts_of(node)["rr_journal_failed_appends_total"] > 0, True)
        node.kill()
        node.start()
        names = ["a v", *(f"b,n={number:04} v" for number in range(lines)), "c v", "d v"]
        check("all of them are kept", listed(node, "count=10000"), (200, names))
    finally:
        node.kill()


def few_descriptors(program, folder):
    """A node with fewer file descriptors than there are silent connections still answers a good client."""
    node = Node(program, folder)
    silent = []
    try:
        own = len(os.listdir(f"/proc/{node.process.pid}/fd"))
        resource.prlimit(node.process.pid, resource.RLIMIT_NOFILE, (own + 40, own + 40))
        silent += [node.connect() for _ in range(200)]
        time.sleep(1)
        for number in range(20):
            check(f"a write beside 200 silent connections for 40 descriptors, {number}",
                  node.curl("/write", "--max-time", "5", body=b"a v=%di 0\n" % number)[0], 204)
        node.is_well("few descriptors")
    finally:
        for stream in silent:
            stream.close()
        node.kill()


def main():
    if len(sys.argv) != 2:
        fail("give the program")
    program = sys.argv[1]
    with tempfile.TemporaryDirectory() as folder:
        node = Node(program, folder)
        try:
            for step in (writes, clients, fetches, as_json, counts, page, keys, refusals, at_once, connections,
                         many_senders, silent_lines, hostile, halves):
                step(node)
            check("the node", node.process.poll(), None)
        finally:
            node.kill()
    with tempfile.TemporaryDirectory() as folder:
        kept(program, folder)
    for lines in (5_000, 1):
        with tempfile.TemporaryDirectory() as folder:
            failing_journal(program, folder, lines)
    with tempfile.TemporaryDirectory() as folder:
        few_descriptors(program, folder)


main()
