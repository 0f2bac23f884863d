#!/usr/bin/env python3
"""How deep the stack of each entry goes, beside the caller's own: the table in include/nanpuwiq.h holds.

    tests/stack.py FOLDER

FOLDER has libnanpuwiq.a. tests/stack.c measures each entry on small and large games; an entry that takes over a quarter more than its line says fails, and so
does one whose line says more than twice what it takes, an entry without a line, and a line without an entry."""

import pathlib
import re
import subprocess
import sys
import tempfile

ROOT = pathlib.Path(__file__).resolve().parent.parent
LINE = re.compile(r"^ \*   (nanpuwiq_[a-z_]+) +([0-9,]+)$", re.M)
# So little is not told apart from what a call itself needs.
SMALL = 512


def told():
    return {name: int(size.replace(",", "")) for name, size in LINE.findall((ROOT / "include/nanpuwiq.h").read_text())}


def measured(folder):
    with tempfile.TemporaryDirectory() as where:
        binary = pathlib.Path(where, "stack")
        words = ["gcc", "-std=c11", "-D_POSIX_C_SOURCE=200809L", "-Wall", "-Wextra", "-Werror", "-O2", "-I", ROOT / "include", ROOT / "tests/stack.c"]
        subprocess.run([*words, pathlib.Path(folder, "libnanpuwiq.a"), "-lpthread", "-o", binary], check=True)
        lines = subprocess.run([binary], check=True, capture_output=True, text=True).stdout.split()
        return dict(zip(lines[::2], map(int, lines[1::2])))


def main():
    said, found = told(), measured(sys.argv[1])
    entries = set(re.findall(r"^\| `(nanpuwiq_[a-z_]+)`", (ROOT / "docs/API.md").read_text(), re.M)) | set(said)
    bad = 0
    for name in sorted(entries | set(found)):
        used, line = found.get(name), said.get(name)
        if used is None or line is None:
            print(f"stack: {name} {'is not measured' if used is None else 'has no line in include/nanpuwiq.h'}")
            bad += 1
        elif used > line * 5 / 4 or line > max(2 * used, SMALL):
            print(f"stack: {name} takes {used} bytes, and its line says {line}")
            bad += 1
    deepest = max(found, key=found.get)
    print(f"stack: {len(found)} entries measured, the deepest {deepest} with {found[deepest]} bytes; {bad} not as they are told")
    return bool(bad)


if __name__ == "__main__":
    sys.exit(main())
