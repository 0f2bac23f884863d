#!/usr/bin/env python3
"""Each public entry has wrong bodies that are tried: tests/edits.txt lists two must-fail edits of each at least.

    tests/edits.py

The entries are those of the first table of docs/API.md. An edit that is listed stands in crates/NAME/must-fail, and its first line says what it is. The
test is tried itself: an entry that is not listed, one with one edit, and an edit that is gone are each found."""

import pathlib
import re
import sys

ROOT = pathlib.Path(__file__).resolve().parent.parent
LEAST = 2


def entries(text):
    """The entries of the first table, in its order. A row may name several of one crate."""
    table = text.split("\n## ")[0]
    found = []
    for cell in re.findall(r"^\| (`.*?) \|", table, re.M):
        first, *others = re.findall(r"`([a-z_:]+)`", cell)
        crate = first.split("::")[0]
        found += [first] + [f"{crate}::{name}" for name in others]
    return found


def listed(text):
    for line in text.splitlines():
        if line.strip() and not line.startswith("#"):
            name, _, edits = line.rpartition(": ")
            yield name, edits.split()


def faults(api, text, edits):
    """What is wrong, a line each."""
    wanted, given = entries(api), dict(listed(text))
    # the programs that document 01 turns down are named in words, the entries with their crates
    named = [name for name in given if "::" in name]
    yield from (f"{name} is not listed" for name in wanted if name not in given)
    yield from (f"{name} is no entry of docs/API.md" for name in named if name not in wanted)
    for name, has in given.items():
        yield from (f"{name}: there is no edit {edit}" for edit in has if edit not in edits)
        if name in wanted and len(set(has)) < LEAST:
            yield f"{name} has {len(set(has))} edits, and {LEAST} are asked for"
        if not has:
            yield f"{name} has no edit"


def main():
    api, text = (ROOT / "docs/API.md").read_text(), (ROOT / "tests/edits.txt").read_text()
    edits = {f"{p.parent.parent.name}/{p.stem}" for p in ROOT.glob("crates/*/must-fail/*.edit")}
    found = list(faults(api, text, edits))
    for line in found:
        print(line)
    lines = text.splitlines()
    one = next(i for i, line in enumerate(lines) if line.startswith("map::"))
    without = "\n".join(lines[:one] + lines[one + 1:])
    single = "\n".join(lines[:one] + [" ".join(lines[one].split()[:2])] + lines[one + 1:])
    gone = edits - {lines[one].split()[1]}
    for what, tried in {
        "an entry that is not listed": faults(api, without, edits),
        "an entry with one edit": faults(api, single, edits),
        "an edit that is gone": faults(api, text, gone),
    }.items():
        if len(list(tried)) <= len(found):
            print(f"edits: {what} is not found")
            return 1
    print(f"edits: {len(entries(api))} entries, each with {LEAST} edits at least, of {len(edits)} in all")
    return bool(found)


if __name__ == "__main__":
    sys.exit(main())
