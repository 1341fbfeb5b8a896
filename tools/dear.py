#!/usr/bin/env python3
"""Lists the functions whose proofs took longest, in seconds.

usage: dear.py [--most N] [CRATE ..]

Goes by the times of the files that a check leaves in out/ of the given crates, or of all: each file is timed from the
one before it. So the figures hold only for crates that were checked from scratch by a single job, and they are
wall-clock time: whatever else ran then makes them longer.
"""

import argparse
import collections
import re

from crates import TOP, listed

# Two files further apart than this, in seconds, aren't from one check.
LONGEST = 200

# The ends of a module's name that say which part of a function's proof it is.
PARTS = re.compile(r"\.(Answers|Code|Given|Goals|Invariants|Key|Kinds|Lts|Met|Named|Proof|Statement|Symbol|TheLink|Tie)\b.*")


def function_of(crate, module):
    """The function that a module belongs to, or what else it holds."""
    words = re.sub(rf"^Rattle-?\.?{crate}[.-]", "", module)
    if words.startswith("below"):
        return "what stands below"
    return PARTS.sub("", re.sub(r"^(proofs|specs\.contracts|specs)\.", "", words))


def seconds(crate):
    """How long each function of a crate took."""
    files = sorted((file.stat().st_mtime, file.stem) for file in (TOP / "crates" / crate / "out").rglob("*.oantt"))
    took = collections.Counter()
    for (before, _), (after, module) in zip(files, files[1:]):
        if after - before < LONGEST:
            took[f"{crate} {function_of(crate, module)}"] += after - before
    return took


def main():
    parser = argparse.ArgumentParser(description=__doc__.splitlines()[0])
    parser.add_argument("--most", type=int, default=30)
    parser.add_argument("crates", nargs="*")
    words = parser.parse_args()
    took = collections.Counter()
    for crate in words.crates or listed():
        took += seconds(crate)
    print(f"{sum(took.values()):8.0f} all")
    for function, time in took.most_common(words.most):
        print(f"{time:8.1f} {function}")


if __name__ == "__main__":
    main()
