#!/usr/bin/env python3
"""The page of a node in a browser: its list, its plot, a gap, and a sample that arrives while it is open.

    examples/page.py PROGRAM [PICTURE]

PROGRAM is the built program, crates/rr_tool/out/rr_tool; PICTURE is a file for a screenshot of the page. Uses Debian's
chromium, without a window, over the pipe of its DevTools. Two series of six hours are written, one of them with an hour
missing. Ends with status 1 if the page shows anything else, or breaks its own policy.
"""

import base64
import json
import math
import os
import pathlib
import subprocess
import sys
import tempfile
import time
import urllib.parse

from http_node import Node, check, fail

MINUTES, MISSING = 360, 60
SECONDS_OF_WAITING = 60
LINES = "boiler,room=cellar temp", "boiler,room=roof temp"
FLAGS = ["--headless=new", "--no-sandbox", "--disable-gpu", "--hide-scrollbars", "--window-size=1180,640",
         "--force-device-scale-factor=1", "--remote-debugging-pipe", "--no-first-run"]


class Browser:
    """A page in Chromium, and what its DevTools answer: JSON messages that end in a zero byte."""

    def __init__(self, folder):
        own_reads, its_writes = os.pipe()
        its_reads, own_writes = os.pipe()

        def take_pipes():
            # Copies are made first, since a pipe may have the number 3 or 4 itself.
            reads, writes = os.dup(its_reads), os.dup(its_writes)
            os.dup2(reads, 3)
            os.dup2(writes, 4)

        self.process = subprocess.Popen(
            ["chromium", *FLAGS, f"--user-data-dir={folder}"], close_fds=False, preexec_fn=take_pipes,
            stdout=subprocess.DEVNULL, stderr=subprocess.DEVNULL)
        os.close(its_reads)
        os.close(its_writes)
        self.reads, self.writes = os.fdopen(own_reads, "rb"), os.fdopen(own_writes, "wb")
        self.number, self.session, self.events, self.text = 0, None, [], b""
        target = self.call("Target.createTarget", url="about:blank")["targetId"]
        self.session = self.call("Target.attachToTarget", targetId=target, flatten=True)["sessionId"]
        for domain in ("Page", "Runtime", "Log"):
            self.call(f"{domain}.enable")

    def next_message(self):
        while b"\0" not in self.text:
            piece = os.read(self.reads.fileno(), 65536)
            if not piece:
                fail("the browser ended")
            self.text += piece
        message, _, self.text = self.text.partition(b"\0")
        return json.loads(message)

    def call(self, method, **parameters):
        self.number += 1
        message = {"id": self.number, "method": method, "params": parameters}
        if self.session:
            message["sessionId"] = self.session
        self.writes.write(json.dumps(message).encode() + b"\0")
        self.writes.flush()
        while True:
            answer = self.next_message()
            if answer.get("id") == self.number:
                if "error" in answer:
                    fail(f"{method}: {answer['error']['message']}")
                return answer["result"]
            self.events.append(answer)

    def value(self, expression):
        result = self.call("Runtime.evaluate", expression=expression, returnByValue=True, awaitPromise=True)
        if "exceptionDetails" in result:
            fail(f"{expression}: {result['exceptionDetails']['text']}")
        return result["result"].get("value")

    def wait_for(self, what, expression, want):
        end = time.monotonic() + SECONDS_OF_WAITING
        while (got := self.value(expression)) != want and time.monotonic() < end:
            time.sleep(0.2)
        check(what, got, want)

    def complaints(self):
        """What the browser logged, such as a broken policy, and what the script failed with."""
        logged = [event["params"]["entry"]["text"] for event in self.events if event["method"] == "Log.entryAdded"]
        thrown = [event["params"]["exceptionDetails"]["text"] for event in self.events
                  if event["method"] == "Runtime.exceptionThrown"]
        return [text for text in logged + thrown if "favicon" not in text]

    def close(self):
        self.process.kill()
        self.process.wait()


def curve(minute, offset):
    return round(offset + 40 * math.sin(minute / 57) + 9 * math.sin(minute / 7))


def lines_until(minute):
    """Two series up to a minute, which isn't included; the first lacks an hour."""
    text = []
    for back in range(MINUTES, 0, -1):
        time_of = (minute - back) * 60_000_000_000
        if not 2 * MISSING <= back < 3 * MISSING:
            text.append(f"{LINES[0]}={curve(minute - back, 210)}i {time_of}\n")
        text.append(f"{LINES[1]}={curve(minute - back + 90, 150)}i {time_of}\n")
    return "".join(text).encode()


# For each line of the plot, its key, its number of points, and the number of pieces that gaps cut it into.
SHAPES = """JSON.stringify([...document.querySelectorAll("#plot path")].map((path) => {
    const text = path.getAttribute("d");
    return [path.dataset.key, text.split(/[ML]/).length - 1, text.split("M").length - 1];
}))"""


# A count of the node, by its name.
COUNT_OF = """(name) => [...document.querySelectorAll("#state div")]
    .find((count) => count.firstChild.textContent === name)?.lastChild.textContent"""


def shapes_of(*shapes):
    return json.dumps([list(shape) for shape in shapes], separators=(",", ":"))


def look(node, browser, picture):
    minute = int(time.time()) // 60
    check("the samples", node.curl("/write", body=lines_until(minute))[0], 204)
    address = f"http://127.0.0.1:{node.http}/"
    browser.call("Page.navigate", url=address)
    browser.wait_for("the list", "document.querySelectorAll('#series button').length", 2)
    browser.wait_for("with nothing chosen", "document.getElementById('note').textContent", "Choose a series.")
    browser.value("document.querySelectorAll('#series button').forEach((button) => button.click())")
    known = MINUTES - MISSING
    browser.wait_for("the points and the gap", SHAPES, shapes_of((LINES[0], known, 2), (LINES[1], MINUTES, 1)))
    browser.wait_for("the counts", f"({COUNT_OF})('samples')", str(MINUTES + known))
    browser.wait_for("the count of series, once it is taken", f"({COUNT_OF})('series')", "2")
    hash_of = urllib.parse.unquote_plus(browser.value("location.hash"))
    check("the address", all(f"key={line}" in hash_of for line in LINES), True)
    browser.value("""(() => { const range = document.getElementById('range'); range.value = '21600';
        range.dispatchEvent(new Event('change', { bubbles: true })); })()""")
    if picture:
        time.sleep(1)
        shot = browser.call("Page.captureScreenshot", format="png")["data"]
        pathlib.Path(picture).write_bytes(base64.b64decode(shot))
    browser.value("""(() => { const range = document.getElementById('range'); range.value = '86400';
        range.dispatchEvent(new Event('change', { bubbles: true })); })()""")
    fresh = f"{LINES[1]}=150i {minute * 60_000_000_000}\n".encode()
    check("one sample more", node.curl("/write", body=fresh)[0], 204)
    browser.wait_for("it appears by itself", SHAPES, shapes_of((LINES[0], known, 2), (LINES[1], MINUTES + 1, 1)))
    browser.value("""(() => { const search = document.getElementById('search'); search.value = 'boiler,room=r';
        search.dispatchEvent(new Event('input')); })()""")
    browser.wait_for("the search", "document.querySelectorAll('#series button').length", 1)
    check("what the browser complained of", browser.complaints(), [])


def main():
    if len(sys.argv) not in (2, 3):
        fail("give the program")
    with tempfile.TemporaryDirectory(ignore_cleanup_errors=True) as folder:
        node = Node(sys.argv[1], folder)
        browser = Browser(pathlib.Path(folder, "browser"))
        try:
            look(node, browser, sys.argv[2] if len(sys.argv) == 3 else None)
        finally:
            browser.close()
            node.kill()


main()
