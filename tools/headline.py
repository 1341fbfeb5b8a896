#!/usr/bin/env python3
"""Prints what has to be read to believe the convergence theorem, as docs/HEADLINE.md has it.

usage: headline.py [--check]

That is the contract of `run`, and each definition of specs/ that its clause `samples` rests on, with the comment above
it: the definitions of a file together and in order, each file after those that it cites. Types and constants of the
code and names from the toolchain's library are left out. With --check the page isn't printed, and the status is 1 if
docs/HEADLINE.md differs from it.
"""

import argparse
import dataclasses
import re
import sys

from crates import TOP, listed

# The call, and the definitions that its clause `samples` names.
CALL = "crates/rr_cluster/src/running.rt"
ROOTS = (("rr_cluster", "Output", "output_of"), ("rr_cluster", "Model", "sample_model"))

PAGE = TOP / "docs/HEADLINE.md"

OPENING = """\
# What has to be believed

The convergence theorem for scripts is the second clause of this contract, proved for every script:

```rust
{contract}
```

It says: if memory isn't refused, `run` prints what the *sample model* prints. In that model a node holds every sample
that reached it and drops none; each fetch filters and folds them. The first clause says the same of a model
whose nodes hold cells, and shows how the code works; nobody has to read it.

So what a script prints rests on the {count} definitions below, {lines} lines with their comments; on the types and constants
of the code that they cite, and on words of the toolchain's library; and on the toolchain. Numbers are unbounded and don't
wrap; texts are lists of bytes; a division rounds to the floor.

How a contract is read, this one and any other:

- `requires`, which `run` doesn't have, is what a caller has to prove; `ensures` is what the body is proved to guarantee.
  The word before the braces is the clause's label. A law is a function with an empty body: its `ensures` is a statement
  over definitions, proved once and for all.
- `self.old` and `self.new` are what `self` points to as the call begins and as it returns, and `script.now` is what a
  shared reference points to. A type is seen as its *model*, a value without its memory.
- `≡` is equality, `++` joins lists, `∷` puts an element before a list, `→` is "implies" or a function, `↔` "exactly if",
  `×` "and".
- `IfOk r (λ v. p)` says that `p` holds of the value if the result is `Ok`, and nothing otherwise; read `OnOk`, `OnErr`,
  `IfErr` and `IfSome` in the same way.

This page is printed by `tools/headline.py`.
"""

HEAD = re.compile(r"\s{0,2}(?:abbrev pub|abbrev|unfoldable pub|unfoldable|pub record|record|pub data|data)\s+([^\s(){:]+)")
USE = re.compile(r"\s*use Rattle\.(rr_\w+)\.specs\.([\w.]+?)(?:\.\{(.*)\}| as (\w+))?\s*$")
WORD = re.compile(r"[^\s(){}\[\],;λ:`|∷→×≡]+")


@dataclasses.dataclass
class File:
    """A file of definitions: its paragraphs in order, by the name that each defines, the head of the module that each
    stands in, and what its imports name."""

    paragraphs: dict
    modules: dict
    named: dict
    aliased: dict

    def text(self, names):
        """The paragraphs of these names."""
        head, texts = "", []
        for name in names:
            if self.modules[name] not in ("", head):
                texts.append(self.modules[name])
            head = self.modules[name]
            texts.append("\n".join(self.paragraphs[name]))
        return "\n\n".join(texts)

    def cited(self, key):
        """What a definition of this file cites, in any file."""
        crate, module, name = key
        text = "\n".join(line for line in self.paragraphs[name] if not line.lstrip().startswith("--"))
        for word in WORD.findall(text):
            first, _, rest = word.strip(".").partition(".")
            if first in self.paragraphs and not rest:
                yield crate, module, first
            elif first in self.named:
                yield self.named[first]
            elif rest and first in self.aliased:
                yield *self.aliased[first], rest.partition(".")[0]
        if ">>=" in text or re.search(r"\bdo\b", text):
            yield from (it for name, it in self.named.items() if ">>=" in name)


def imports(line):
    """What a line imports: names with their definitions, and an alias of a whole file."""
    used = USE.match(line)
    if not used:
        return {}, {}
    crate, module, names, alias = used.groups()
    named = {}
    for item in filter(None, map(str.strip, (names or "").split(","))):
        was, _, new = item.partition(" as ")
        named[(new or was).strip()] = crate, module, was.strip()
    return named, {alias: (crate, module)} if alias else {}


def read(path):
    """A file of definitions."""
    file = File({}, {}, {}, {})
    over, name, module = [], None, ""
    for line in path.read_text().splitlines():
        if line.startswith("module "):
            module = line
        named, aliased = imports(line)
        file.named |= named
        file.aliased |= aliased
        head = HEAD.match(line)
        if head:
            name = head.group(1)
            file.paragraphs[name] = [*over, line]
            file.modules[name] = module if line.startswith(" ") else ""
            over = []
        elif line.lstrip().startswith("--"):
            over, name = [*over, line] if name is None else [line], None
        elif not line.strip():
            over, name = [], None
        elif name:
            file.paragraphs[name].append(line)
    return file


def all_files():
    """Each file of definitions, by its crate and its module."""
    files = {}
    for crate in listed():
        room = TOP / "crates" / crate / "specs"
        for path in sorted(room.rglob("*.antt")):
            files[crate, ".".join(path.relative_to(room).with_suffix("").parts)] = read(path)
    return files


def needed(files):
    """The definitions that the roots rest on, grouped by file, each file after those that it cites."""
    found, order = {}, []
    ahead = [*ROOTS]
    while ahead:
        key = ahead.pop()
        file = files.get(key[:2])
        if file is None or key[2] not in file.paragraphs or key in found:
            continue
        found[key] = [it for it in file.cited(key) if it[:2] in files]
        ahead += found[key]

    def visit(place):
        if place in order or place in under_way:
            return
        under_way.add(place)
        for below in sorted({it[:2] for key, cited in found.items() if key[:2] == place for it in cited if it in found}):
            visit(below)
        order.append(place)

    under_way = set()
    for root in ROOTS:
        visit(root[:2])
    return [(place, [it for it in files[place].paragraphs if (*place, it) in found]) for place in order]


def contract():
    """The signature and the clauses of the call, without the body."""
    text = (TOP / CALL).read_text()
    return re.search(r"^pub fn run\(.*?(?=^\{)", text, re.M | re.S).group().rstrip()


def page():
    files = all_files()
    places = needed(files)
    texts = []
    for place, names in places:
        path = f"{place[0]}/specs/{place[1].replace('.', '/')}.antt"
        texts.append(f"## `{path}`\n\n```text\n{files[place].text(names)}\n```\n")
    lines = sum(len(files[place].paragraphs[it]) for place, names in places for it in names)
    count = sum(len(names) for _, names in places)
    return "\n".join([OPENING.format(contract=contract(), count=count, lines=lines), *texts])


def main():
    parser = argparse.ArgumentParser(description=__doc__, formatter_class=argparse.RawDescriptionHelpFormatter)
    parser.add_argument("--check", action="store_true", help="compare with docs/HEADLINE.md")
    if not parser.parse_args().check:
        print(page(), end="")
    elif PAGE.read_text() != page():
        sys.exit("docs/HEADLINE.md isn't what tools/headline.py prints")


if __name__ == "__main__":
    main()
