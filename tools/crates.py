"""The crates of the repository, as crates.txt lists them."""

import pathlib

TOP = pathlib.Path(__file__).resolve().parent.parent


def lines(top=TOP):
    """The line of each crate, lowest first."""
    crates = {}
    for line in (top / "crates.txt").read_text().splitlines():
        name = line.partition("#")[0].partition(":")[0].split()
        if name:
            crates[name[0]] = line
    return crates


def listed(top=TOP):
    """The crates, lowest first, each with the crates of the repository that it uses."""
    crates = lines(top)
    uses = {name: line.partition("#")[0].partition(":")[2].split() for name, line in crates.items()}
    return {name: [it for it in used if it in crates] for name, used in uses.items()}


def with_those_below(crates, names):
    """These crates and all that they stand on, lowest first."""
    needed = set(names)
    for name in reversed(list(crates)):
        if name in needed:
            needed.update(crates[name])
    return [name for name in crates if name in needed]
