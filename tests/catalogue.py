#!/usr/bin/env python3
"""Runs the catalogue program on lists of files and compares what it prints, byte for byte, with a tally made here.

    tests/catalogue.py CATALOGUE SOLVE SECOND [SEED]

The verdict on each file is taken from what the solve program prints for it, the won positions from the second solver, which was made
apart from the product. The program runs on a copy of itself, where this runs as root as nobody, so that a file without permission
cannot be read. The last line says how many passed and how many failed."""

import collections
import os
import pathlib
import random
import re
import shutil
import subprocess
import sys
import tempfile

from program import EXAMPLE, ONE, TWO, game, refusals, typed

LIMIT = 60  # seconds
LIMIT_NAMES = 1000
NOBODY = 65534
CLOSED = {b"closed", b"shut/inner"}  # names of files without permission


def run(program, text, where=None, **how):
    return subprocess.run(program, input=text, capture_output=True, timeout=LIMIT, cwd=where, **how)


def low_rights(program, where):
    """How to run a program with no more rights than anyone has: whom as, or none where that cannot be had."""
    how = {"user": NOBODY, "group": NOBODY, "extra_groups": []} if os.geteuid() == 0 else {}
    try:
        run([program], b"", where, **how)
    except OSError:
        return None
    return how


def names(text):
    """The names of a list: a name a line, and what follows the last byte 10 too."""
    lines = text.split(b"\n")
    return lines[:-1] if lines[-1] == b"" else lines


class Judge:
    """What is said of a file: who wins by the solve program, how many positions are won by the second solver. Asked once for each text."""

    def __init__(self, solve, second):
        self.solve, self.second = solve, second
        self.known = {}

    def of(self, text):
        """(side, number, won, positions)"""
        if text not in self.known:
            self.known[text] = self.ask(text)
        return self.known[text]

    def ask(self, text):
        answer = run([self.solve], text).stdout
        refused = re.match(rb"\(refused (\d+)", answer)
        if refused:
            return ("refused", int(refused[1]), 0, 0)
        side = re.match(rb"\(wins (\w+)\)", answer)[1].decode()
        won, positions = map(int, run([self.second, "won"], text).stdout.split())
        return (side, 0, won, positions)


def file_of(name, where):
    """The bytes that a name stands for, or none."""
    if len(name) > 255 or b"\0" in name or name == b"" or name in CLOSED:
        return None
    try:
        return (pathlib.Path(where) / os.fsdecode(name)).read_bytes()
    except OSError:
        return None


def expected(judge, text, where):
    listed = names(text)
    if len(listed) > LIMIT_NAMES:
        return b"(refused 27)\n"
    sides, numbers, won, positions = collections.Counter(), collections.Counter(), 0, 0
    for name in listed:
        content = file_of(name, where)
        side, number, w, p = ("refused", 26, 0, 0) if content is None else judge.of(content)
        sides[side] += 1
        if side == "refused":
            numbers[number] += 1
        won, positions = won + w, positions + p
    lines = ["(%s %d)" % (side, sides[side]) for side in ("system", "environment", "refused")]
    lines += ["(number %d %d)" % (number, numbers[number]) for number in sorted(numbers)]
    lines += ["(won %d %d)" % (won, positions)]
    assert sum(sides.values()) == len(listed)
    return "".join(line + "\n" for line in lines).encode()


WAITING = b"catalogue: waiting for names of game files on standard input, one a line (Ctrl-D ends them)\n"
UNREAD = b"catalogue: standard input cannot be read\n"
UNWRITTEN = b"catalogue: standard output cannot be written\n"
NONE = b"(system 0)\n(environment 0)\n(refused 0)\n(won 0 0)\n"


def told(program, where, **how):
    """What is said on standard error beside the figures: a name, and whether it was."""
    def said(redirect):
        given = subprocess.run("'%s' %s" % (program, redirect), shell=True, input=b"example\n", capture_output=True, timeout=LIMIT, cwd=where, **how)
        return given.stdout, given.stderr

    figures = run([program], b"example\n", where, **how).stdout
    yield "nothing said", said("") == (figures, b"")
    yield "a list that is a folder", said("< folder") == (NONE, UNREAD)
    yield "a closed list", said("<&-") == (NONE, UNREAD)
    yield "a list that ends", said("< /dev/null") == (NONE, b"")
    yield "a full output", said("> /dev/full") == (b"", UNWRITTEN)
    yield "a closed output", said(">&-") == (b"", UNWRITTEN)
    yield "an output nobody reads", said("| true") == (b"", b"")
    yield "a list that is typed", typed(program, b"example\n", cwd=where, **how) == (figures, WAITING)


def random_game(rng):
    def graph():
        count = rng.randint(1, 6)
        states = [(rng.randint(0, 1), sorted(rng.sample(range(count), rng.randint(0, min(count, 3))))) for _ in range(count)]
        return [(1, states[0][1])] + states[1:]

    def sets(count):
        chosen = (sorted(rng.sample(range(count), rng.randint(0, min(count, 2)))) for _ in range(rng.randint(0, 2)))
        return " ".join("(%s)" % " ".join(map(str, states)) for states in chosen)

    inputs, outputs = graph(), graph()
    return game(inputs, outputs, [(sets(len(inputs)), sets(len(outputs))) for _ in range(rng.randint(0, 3))])


def files(rng):
    """Files of every number that a file can get, and games that either side wins."""
    known = {
        "example": EXAMPLE,
        "system": game(TWO, TWO, []),
        "environment": game(ONE, ONE, [("", "()")]),
        "stuck": game([(1, [0])], [(1, [])], []),
        "n" * 255: EXAMPLE,
    }
    known.update(("refused %d" % k, content) for k, (_, content, _) in enumerate(refusals()))
    known.update(("random %d" % k, random_game(rng)) for k in range(300))
    return known


def lists(known):
    """Lists with every kind of name."""
    every = "".join(name + "\n" for name in known).encode()
    yield "no names", b""
    yield "one empty name", b"\n"
    yield "two empty names", b"\n\n"
    yield "every file", every
    yield "no last byte 10", every[:-1]
    yield "twice", every + every
    yield "an empty line inside", b"example\n\nsystem\n"
    yield "a missing file and a directory", b"missing\n.\n..\nfolder\nexample"
    yield "a byte 0", b"example\0\n\0\nexample\nexam\0ple"
    yield "names of 255 and 256 bytes", b"n" * 255 + b"\n" + b"n" * 256 + b"\n" + b"n" * 257 + b"\n" + b"n" * 255
    yield "a name of 100,000 bytes", b"example\n" + b"x" * 100000 + b"\nexample"
    yield "1,000 names", b"example\n" * 1000
    yield "1,000 names, no last byte 10", b"example\n" * 999 + b"system"
    yield "1,001 names", b"example\n" * 1001
    yield "1,001 names, the last empty", b"example\n" * 1000 + b"\n"
    yield "1,000 empty names", b"\n" * 1000
    yield "1,001 empty names", b"\n" * 1001
    yield "1,000 names too long", (b"x" * 300 + b"\n") * 1000
    yield "1,001 names too long", (b"x" * 300 + b"\n") * 1001
    yield "1,000,000 bytes of names", b"\n" * 1000000
    yield "a path", b"folder/inner\n./example\n../" + b"/" * 10
    yield "a carriage return", b"example\r\n"


def lay_out(where, known):
    """The files, two of them without permission."""
    for name, content in known.items():
        (where / name).write_bytes(content)
    for folder in ("folder", "shut"):
        (where / folder).mkdir()
        (where / folder / "inner").write_bytes(EXAMPLE)
    (where / "closed").write_bytes(EXAMPLE)
    (where / "closed").chmod(0)
    (where / "shut").chmod(0)
    where.chmod(0o755)


def main():
    catalogue, solve, second = (str(pathlib.Path(arg).resolve()) for arg in sys.argv[1:4])
    seed = int(sys.argv[4]) if len(sys.argv) > 4 else 0
    judge = Judge(solve, second)
    passed = failed = 0
    with tempfile.TemporaryDirectory() as folder:
        where = pathlib.Path(folder)
        known = files(random.Random(seed))
        lay_out(where, known)
        program = str(where / "the program")
        shutil.copy(catalogue, program)
        cases = list(lists(known))
        how = low_rights(program, where)
        if how is None:
            how = {}
            print("catalogue: files without permission are not tried, since this runs as root and cannot give that up")
        else:
            cases += [("files without permission", b"closed\nexample\nshut/inner\nclosed")]
        for label, text in cases:
            got = run([program], text, where, **how)
            want = expected(judge, text, where)
            if got.stdout == want and got.stderr == b"":
                passed += 1
            else:
                failed += 1
                print("%s: got %r and %r, not %r" % (label, got.stdout, got.stderr, want))
        for label, good in told(program, where, **how):
            passed, failed = passed + good, failed + (not good)
            if not good:
                print("FAILED:", label)
        met = {judge.of(content)[1] for content in known.values()}
        if met != {0, 2, 3, 7, 9, 10, 11, 12}:
            failed += 1
            print("numbers met: %s" % sorted(met))
        (where / "shut").chmod(0o755)
    print("catalogue: %d passed, %d failed, seed %d" % (passed, failed, seed))
    sys.exit(failed != 0)


if __name__ == "__main__":
    main()
