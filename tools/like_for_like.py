#!/usr/bin/env python3
"""Says how long the gate of docs/GATE.md would have taken under the conditions of an earlier measurement.

Processors aren't equally fast at all times, but what didn't change between the two is the same work: the proof or the
tests of a crate if its code, definitions and proofs are the same, its edits if their files are too. Changes in the
crates below are left out of account. So the seconds measured now are divided by how many times as long the same work
takes now.
"""

import argparse
import re
import subprocess
import sys

from crates import TOP, listed

PAGE = "docs/GATE.md"

# The folders of a crate that each part of its row depends on.
FOLDERS = {
    "proof": ["src", "specs", "proofs"],
    "tests": ["src", "specs", "proofs"],
    "edits": ["src", "specs", "proofs", "must-fail"],
}

ROW = re.compile(r"^\| `?(\w+)`? \| (\d+) \| (\d+) \| (\d+) \|", re.MULTILINE)


def git(*words):
    return subprocess.run(["git", *words], cwd=TOP, capture_output=True, text=True, check=True).stdout


def commit_of(page):
    """The commit that a page reports on."""
    found = re.search(r"\bof\s+([0-9a-f]{7,8})\b", page)
    return found[1] if found else None


def page_of(commit):
    """The last page that reported on a commit."""
    for change in git("log", "--format=%h", "--", PAGE).split():
        page = git("show", f"{change}:{PAGE}")
        if commit_of(page) == commit:
            return page
    sys.exit(f"no {PAGE} told of {commit}")


def seconds_of(page):
    """The seconds of each part of each crate, and of what names no crate."""
    rows = {(name, part): int(it) for name, *its in ROW.findall(page) for part, it in zip(FOLDERS, its)}
    return {row: seconds for row, seconds in rows.items() if row[0] != "all"}


def is_same(name, part, then, now):
    folders = [f"crates/{name}/{folder}" for folder in FOLDERS[part]]
    return not git("diff", "--name-only", then, now, "--", *folders)


def main():
    parser = argparse.ArgumentParser(description=__doc__, formatter_class=argparse.RawDescriptionHelpFormatter)
    parser.add_argument("commit", help="the commit that was read then, as the page named it")
    then = parser.parse_args().commit
    page = (TOP / PAGE).read_text()
    now = commit_of(page)
    before, after = seconds_of(page_of(then)), seconds_of(page)
    crates = listed()
    same = [row for row in after if row[0] in crates and after[row] and before.get(row) and is_same(*row, then, now)]
    if not same:
        sys.exit(f"nothing is the same in {then} and {now}")
    took_then, takes_now = (sum(seconds[row] for row in same) for seconds in (before, after))
    whole = sum(after.values()) / 60
    times = takes_now / took_then
    print(f"the same in {then} and {now}: {took_then} s then, {takes_now} s now, {times:.2f} times as long")
    print(f"the gate: {whole:.0f} minutes now, {whole / times:.0f} in that hour")


if __name__ == "__main__":
    main()
