#!/usr/bin/env python3
"""Runs `nanpuwiq check`, `move` and `compare` on tables in every form and both layouts, and on what is none.

    tests/command_tables.py NANPUWIQ [SEED]

Layouts, entries and replies are worked out a second time here, from prints. The last line says how many passed and how many failed."""

import os
import pathlib
import random
import re
import struct
import subprocess
import sys
import tempfile

from checks import Checks
from command import Command, FLUSH, LIMIT, components, damages
from program import EXAMPLE, counted, game, prints

NONE = 65535
OURS = pathlib.Path(FLUSH).with_suffix(".print").read_text()
FORMS = ("raw", "hex", "csv")


class Game:
    """A game's text taken apart, as far as layouts need it."""

    def __init__(self, text):
        text = text.decode()
        self.inputs, self.outputs = map(int, re.match(r"\(game (\d+) (\d+)", text).groups())
        # a list of sets is a bracket, sets in brackets, a bracket
        lines = re.findall(r"^\(if \((?:\([\d ]*\) ?)*\) \(((?:\([\d ]*\) ?)*)\)\)$", text, re.M)
        self.counters = max(1, sum(then.count("(") for then in lines))
        moves = {int(s): [int(t) for t in row.split()] for s, row in re.findall(r"^\(in (\d+) [01] \(([\d ]*)\)\)$", text, re.M)}
        order = sorted(components(moves), key=min)
        self.ranks = [next(n for n, states in enumerate(order) if s in states) for s in range(self.inputs)]

    def full(self, text):
        """The entries of a print."""
        entries = [NONE] * (self.inputs * (1 + self.outputs * self.counters))
        for i, o in re.findall(r"^\(start (\d+) (\d+)\)$", text, re.M):
            entries[int(i)] = int(o)
        for row in re.findall(r"^\(step (\d+) (\d+) (\d+) (\d+) (\d+)\)$", text, re.M):
            o, g, i, p, h = map(int, row)
            entries[self.inputs + (o * self.counters + g) * self.inputs + i] = p + 128 * h
        return entries

    def compact(self, full):
        rows = [full[k : k + self.inputs] for k in range(self.inputs, len(full), self.inputs)]
        firsts = [self.ranks.index(rank) for rank in range(max(self.ranks) + 1)]
        return full[: self.inputs] + self.ranks + [row[i] for row in rows for i in firsts]


def written(entries, form):
    if form == "raw":
        return struct.pack("<%dH" % len(entries), *entries)
    return (" ".join("%04x" % e for e in entries) if form == "hex" else ",".join(map(str, entries))).encode() + b"\n"


def read_back(data, form):
    if form == "raw":
        return list(struct.unpack("<%dH" % (len(data) // 2), data))
    base, words = (16, data.split()) if form == "hex" else (10, data.replace(b",", b" ").split())
    return [int(word, base) for word in words]


def moved(check, command):
    """Over and back, in every form: the entries worked out here; check and compare take each of them."""
    for name, text, answer in prints():
        answer = answer.decode() if isinstance(answer, bytes) else answer
        if not answer.startswith("(wins system)"):
            continue
        shape = Game(text)
        full = shape.full(answer)
        compact = shape.compact(full)
        command.file("m.game", text)
        command.file("m.print", answer)
        got = command.run("move", "--compact", "m.game", "m.print")
        check.same("a print to the compact layout, " + name, (read_back(got.stdout, "csv"), got.returncode), (compact, 0))
        for form in FORMS:
            command.file("full", written(full, form))
            command.file("compact", written(compact, form))
            both = ["--form", form]
            there = command.run("move", "--compact", *both, "m.game", "full").stdout
            check.same("to the compact layout, %s, %s" % (form, name), read_back(there, form), compact)
            back = command.run("move", "--full", *both, "m.game", "compact").stdout
            check.same("to the full layout, %s, %s" % (form, name), read_back(back, form), full)
            again = command.run("move", "--full", "--to", "print", *both, "m.game", "compact").stdout
            check.same("to the print, %s, %s" % (form, name), again.decode(), answer)
            small = shape.inputs * shape.outputs * shape.counters <= 4096
            for table, layout in (("full", "full"), ("compact", "compact")):
                got = command.run("check", *both, "--layout", layout, "m.game", table)
                check.same("check, %s, %s, %s" % (form, table, name), got.returncode, 0 if small else 2)
                same = len(full) == len(compact)
                looked = command.run("check", "m.game", table)
                either = same and looked.returncode == 2 and b"say --layout full or --layout compact" in looked.stderr
                check.holds("check by its look, %s, %s, %s" % (form, table, name), looked.returncode == got.returncode or either, looked)
        to = command.run("move", "--to", "hex", "m.game", "m.print")
        check.same("another form, " + name, read_back(to.stdout, "hex"), full)


def refused_moves(check, command):
    shape = Game(pathlib.Path(FLUSH).read_bytes())
    full = shape.full(OURS)
    compact = shape.compact(full)
    cases = [
        ("--compact", written(compact, "csv"), "7 entries: this game's tables have 8 in the full layout and 7 in the compact one; it is in the compact layout already"),
        ("--full", written(full, "csv"), "8 entries: this game's tables have 8 in the full layout and 7 in the compact one; it is in the full layout already"),
        ("--full", b"0,0,0", "3 entries: this game's tables have 8"),
        ("--full", written(compact[:3] + [1] + compact[4:], "csv"), "entry 3, from 0, is 1, and the rank of the component of old 1 flush is 0"),
        ("--compact", OURS.replace("(step 0 0 1 2 0)", "(step 0 0 1 1 0)").encode(), "old 0 pump and old 1 flush are of one component, and in new 0 pump, counter 0, the one is answered with new 2 flush, counter 0, and the other with new 1 economy, counter 0: entries 2 and 3, from 0"),
        ("--compact", OURS.replace("(step 2 0 1 0 0)\n", "").encode(), "the one is answered with new 0 pump, counter 0, and the other with nothing: entries 6 and 7"),
    ]
    numbers = (23, 23, 23, 22, 21, 21)
    for (to, text, words), number in zip(cases, numbers):
        got = command.run("move", to, FLUSH, command.file("t", text))
        check.holds("move %s %r" % (to, text), (got.returncode, got.stdout) == (2, b"") and words in got.stderr.decode() and got.stderr.endswith(b"(refused %d)\n" % number), got)
    got = command.run("check", FLUSH, command.file("t", written(compact[:3] + [1] + compact[4:], "csv")))
    check.holds("check of another game's ranks", got.returncode == 2 and b"this is no table of this game in the compact layout (refused 22)" in got.stderr, got)
    got = command.run("check", FLUSH, command.file("t", b"0 0 0"))
    check.holds("check of another length", got.returncode == 2 and b"t: 3 entries: this game's tables have 8 in the full layout and 7 in the compact one (refused 19)" in got.stderr, got)
    got = command.run("move", "--to", "hex", FLUSH, "t")
    check.holds("another form of another length", got.returncode == 2 and b"t: 3 entries: this game's" in got.stderr, got)


def misprints():
    """Prints that are none: a text, the line and the column, words."""
    yield OURS.replace("\n", "\r\n"), "1:14", "CRLF"
    yield OURS.replace("(step 2 0 1 0 0)\n", "(step 2 0 1 0 0)\r\n"), "6:17", "CRLF"
    yield OURS[:-1], "6:17", "the last newline is missing"
    yield "(wins system)", "1:14", "the last newline is missing"
    yield "\ufeff" + OURS, "1:1", "byte-order mark"
    yield OURS.encode("utf-16"), "1:1", "UTF-16"
    yield OURS.replace("system", "environment"), "1:7", "this is the panel's"
    yield "(refused 3)\n", "1:2", "this is the print of a refusal"
    yield pathlib.Path(FLUSH).read_text(), "1:2", "this is a game's file"
    yield "(start 0 0)\n", "1:2", "expected (wins system): the print of a controller's table"
    yield OURS + "(step 0 0)\n", "7:10", "the line ends before the number of the new input: expected (start INPUT OUTPUT)"
    yield OURS + "(stop 0 0)\n", "7:4", "expected (start INPUT OUTPUT) or (step OUTPUT COUNTER INPUT OUTPUT COUNTER)"
    yield OURS + "\n", "7:1", "expected (start INPUT OUTPUT)"
    yield OURS.replace("(start 0 0)", "(start 0  0)"), "2:10", "found a blank: one blank separates items"
    yield OURS.replace("(start 0 0)", "(start\t0 0)"), "2:7", "a tab"
    yield OURS.replace("(start 0 0)", "(start 0\t0)"), "2:9", "a tab"
    yield OURS.replace("(start 0 0)", "(start 0 00)"), "2:10", "no leading zeros"
    yield OURS.replace("(start 0 0)", "(start 0 -1)"), "2:10", "expected the number of the first output, found '-'"
    yield OURS.replace("(start 0 0)", "(start 0 0 0)"), "2:11", "expected ')' and the end of the line, found a blank"
    yield OURS.replace("(start 0 0)", "(start 2 0)"), "2:8", "there is no input 2: there are 2 inputs"
    yield OURS + "(step 3 0 0 0 0)\n", "7:7", "there is no output 3: there are 3 outputs"
    yield OURS + "(step 1 1 0 0 0)\n", "7:9", "there is no counter 1: there is one counter, number 0"
    yield OURS + "(step 1 0 9 0 0)\n", "7:11", "there is no input 9"
    yield OURS + "(start 0 0)\n", "7:1", "line 2 is for it too"
    yield OURS + "(step 2 0 0 1 0)\n", "7:1", "line 5 is for it too"
    yield OURS.replace("(start 0 0)", "(start 0 128)"), "2:10", "an output is 0 to 127, not 128"
    yield OURS.replace("(step 2 0 0 0 0)", "(step 2 0 0 0 512)"), "5:15", "a next counter is 0 to 511, not 512"
    yield OURS.replace("(step 2 0 0 0 0)", "(step 2 0 0 127 511)"), "5:1", "an output and a counter that no entry can hold"


def diagnosed(check, command):
    for number, (text, place, words) in enumerate(misprints()):
        for command_line in (["check"], ["move", "--compact"]):
            got = command.run(*command_line, FLUSH, command.file("t", text))
            good = (got.returncode, got.stdout) == (2, b"") and got.stderr.decode().startswith("nanpuwiq: t:%s: " % place) and words in got.stderr.decode()
            check.holds("misprint %d, %s" % (number, command_line), good, got)
    for text, form, words in [
        (b"", None, "t: the file is empty"),
        (b"", "print", "t:1:1: the file is empty"),
        (b"; nothing\n", None, "t: no entries"),
        (b"hello\n", None, "t: neither a print, which begins with (wins system), nor entries"),
        (b"\0\0\1", None, "t: 3 bytes: a raw table has two for each entry"),
        (b"1,2\n3,x4", None, "t:2:3: 'x4' is no entry: a decimal number from 0 to 65535 (65535 is none)"),
        (b"1,2,65536", None, "t:1:5: an entry is 0 to 65535, not 65536"),
        (b"1,-2", None, "t:1:3: '-2' is no entry"),
        (b"0x12 0x12345", None, "t:1:6: '0x12345' is no entry in hex: one to four digits"),
        (b"1000 1001", None, "t: entries of four digits each: they may be hex or decimal; say --form hex or --form csv"),
        (b"1 2", "print", "t:1:1: expected (wins system)"),
        (b"1 2", "raw", "t: 3 bytes"),
    ]:
        got = command.run("check", *(["--form", form] if form else []), FLUSH, command.file("t", text))
        check.holds("no table %r %s" % (text, form), (got.returncode, got.stdout) == (2, b"") and words in got.stderr.decode(), got)
    looks = [("0000 ffff 0002 0002 ffff ffff 0000 0000", 0), ("0x0,0xffff,0x2,0x2,0xFFFF,0xffff,0,0", 0), ("0,65535\r\n2,2 ; pump\r\n65535,65535\r\n0,0", 0)]
    for text, status in looks:
        check.same("the look of %r" % text, command.run("check", FLUSH, command.file("t", text)).returncode, status)
    for text in damages(random.Random(7), [OURS.encode()], 80):
        got = command.run("check", FLUSH, command.file("t", text))
        told = got.returncode in (0, 1) and got.stderr == b"" or got.returncode == 2 and re.match(rb"nanpuwiq: t(:\d+:\d+)?: .{8}", got.stderr)
        check.holds("a damaged print", told, (text, got))


def ambiguous(check, command):
    """Where both layouts have one length the ranks tell, or --layout does."""
    command.file("a.game", EXAMPLE)
    shape = Game(EXAMPLE)
    full = shape.full(command.run("solve", "a.game").stdout.decode())
    compact = shape.compact(full)
    check.same("one length", len(full), len(compact))
    check.same("full by its ranks", command.run("check", "a.game", command.file("t", written([0, 0, 1, 1, 0, 0], "csv"))).returncode, 0)
    either = command.file("t", written(compact, "csv"))
    got = command.run("check", "a.game", either)
    check.holds("either", got.returncode == 2 and b"could be of either: say --layout full or --layout compact" in got.stderr, got)
    check.same("as compact", command.run("check", "--layout", "compact", "a.game", either).returncode, 0)
    check.holds("as full", command.run("check", "--layout", "full", "a.game", either).returncode in (0, 1))


def walk(shape, entries, inputs):
    """The outputs that a table gives for inputs."""
    outputs, counter = [], 0
    for step, i in enumerate(inputs):
        entry = entries[i] if step == 0 else entries[shape.inputs + (outputs[-1] * shape.counters + counter) * shape.inputs + i]
        outputs.append(entry % 128)
        counter = entry // 128
    return outputs


def compared(check, command, seed):
    """Runs of our tables, whole, changed and cut, in every form and layout."""
    rng = random.Random(seed)
    for name, text, answer in prints():
        answer = answer.decode() if isinstance(answer, bytes) else answer
        if not answer.startswith("(wins system)"):
            continue
        shape = Game(text)
        full = shape.full(answer)
        rows = {int(s): (f == "1", [int(t) for t in row.split()]) for s, f, row in re.findall(r"^\(in (\d+) ([01]) \(([\d ]*)\)\)$", text.decode(), re.M)}
        inputs = [rng.choice([s for s in rows if rows[s][0]])]
        while len(inputs) < 12 and rows[inputs[-1]][1]:
            inputs.append(rng.choice(rows[inputs[-1]][1]))
        outputs = walk(shape, full, inputs)
        command.file("c.game", text)
        command.file("c.print", answer)
        command.file("c.hex", written(shape.compact(full), "hex"))

        def said(i, o, *table):
            files = command.file("i.rec", "\n".join(map(str, i)) + "\n"), command.file("o.rec", " ".join(map(str, o)))
            return command.run("compare", *(table or ("c.game", "c.print")), *files)

        check.same("agree, " + name, said(inputs, outputs).returncode, 0)
        if len(full) != len(shape.compact(full)):
            check.same("agree by the compact layout, " + name, said(inputs, outputs, "c.game", "c.hex").returncode, 0)
        at = rng.randrange(len(inputs))
        other = outputs[:at] + [(outputs[at] + 1) % 128] + outputs[at + 1 :]
        got = said(inputs, other)
        check.same("differ, " + name, (got.returncode, got.stdout.decode().splitlines()[0]), (1, "The recordings differ at step %d." % at))
        last = got.stdout.decode().splitlines()[-1]
        words = r"Step %d \(i.rec:%d:1, o.rec:1:\d+\): the panel (began in|went to) %d; the table (begins in|answers) %d, and the drive recorded %d\b.*\."
        check.holds("both, " + name, re.fullmatch(words % (at, at + 1, inputs[at], outputs[at], other[at]), last), got)
        got = said(inputs, outputs[:at])
        check.holds("the drive's ended, " + name, got.returncode == 1 and got.stdout.startswith(b"The drive's recording has ended before the other: o.rec has %d step" % at), got)
        check.holds("nothing recorded, " + name, ("the table %s %d, and the drive recorded nothing" % ("answers" if at else "begins in", outputs[at])) in got.stdout.decode(), got)
        got = said(inputs[:at], outputs)
        check.holds("the panel's ended, " + name, got.returncode == 1 and b"The panel's recording has ended before the other" in got.stdout, got)


def recordings(check, command):
    """Names, comments, and what the player refuses."""
    examples = pathlib.Path(FLUSH).parent
    panel, drive, stuck = (str(examples / ("flush_%s.recording" % n)) for n in ("panel", "drive", "drive_stuck"))
    table = str(pathlib.Path(FLUSH).with_suffix(".print"))
    got = command.run("compare", FLUSH, table, panel, drive)
    check.same("the example", (got.stdout.decode(), got.returncode), ("The recordings agree: at each of the 6 steps the drive did what the table says.\n", 0))
    got = command.run("compare", FLUSH, table, panel, stuck)
    check.same("the example that differs", got.returncode, 1)
    check.holds("in words", got.stdout.decode().endswith("the panel went to 0 pump; the table answers 2 flush, and the drive recorded 1 economy.\n"), got)
    empty = command.file("empty", "; nothing\n")
    check.same("two empty ones", command.run("compare", FLUSH, table, empty, empty).stdout, b"The recordings agree: both are empty.\n")
    for i, o, words in [
        ("pump\n  flsuh\n", "0", "i:2:3: no input is called 'flsuh'; did you mean 'flush'?"),
        ("pump", "pump\nflush economi", "o:2:7: no output is called 'economi'; did you mean 'economy'?"),
        ("0 1 200", "0", "i:1:5: a state's number is 0 to 127, not 200"),
        ("flush", "flush", "i:1:1: step 0: the panel cannot begin in 1 flush: it is no initial state of the old drive (refused 14)"),
        ("pump\nflush\nflush", "0 2 0", "i:3:1: step 2: the panel cannot go from 1 flush to 1 flush: it is no move of the old drive (refused 14)"),
        ("0 5", "0 2", "i:1:3: step 1: there is no input 5: there are 2 inputs, numbered from 0 to 1 (refused 14)"),
        (b"0 \x80", "0", "i:1:3: a byte that no text has"),
    ]:
        got = command.run("compare", FLUSH, table, command.file("i", i), command.file("o", o))
        check.holds("recordings %r %r" % (i, o), (got.returncode, got.stdout) == (2, b"") and words in got.stderr.decode(), got)
    holes = [
        ("(wins system)\n(start 0 0)\n", "t: step 1: the table's row for new 0 pump, counter 0 and next old 1 flush names no move of the new drive, or no counter (refused 15)"),
        ("(wins system)\n", "t: step 0: the table's start for old 0 pump names no initial output of the new drive, or no counter (refused 15)"),
        ("0,0,0", "t: 3 entries: this game's tables have 8 in the full layout and 7 in the compact one (refused 16)"),
    ]
    for text, words in holes:
        got = command.run("compare", FLUSH, command.file("t", text), panel, drive)
        check.holds("a table with a hole %r" % text, got.returncode == 2 and words in got.stderr.decode(), got)
    got = command.run("compare", FLUSH, table, command.file("i", "0 1 " * 20000 + "0"), command.file("o", "0 2 " * 20000 + "1"))
    check.holds("a long run", got.returncode == 1 and got.stdout.startswith(b"The recordings differ at step 40000."), got.stdout[:300])


def failures(check, command):
    table = str(pathlib.Path(FLUSH).with_suffix(".print"))
    command.file("i", "0")
    for words in (["check", FLUSH, "missing"], ["move", "--full", FLUSH, "missing"], ["move", "--full", FLUSH, "."], ["compare", FLUSH, table, "i", "missing"], ["compare", FLUSH, table, "missing", "i"], ["compare", FLUSH, "missing", "i", "i"], ["compare", "missing", table, "i", "i"]):
        got = command.run(*words)
        check.holds("unreadable: %s" % words, (got.returncode, got.stdout) == (3, b"") and got.stderr.count(b"\n") == 1, got)
    wrong = [["move", FLUSH, table], ["move", "--full"], ["move", "--full", "--compact", FLUSH, table], ["move", "--to", "pdf", FLUSH, table], ["move", "--compact", "--to", "print", FLUSH, table]]
    wrong += [["check", "--form", "text", FLUSH, table], ["check", "--layout", "wide", FLUSH, table], ["check", "--form"], ["compare", FLUSH, table, "i"], ["compare", FLUSH, table, "i", "i", "i"]]
    for words in wrong:
        got = command.run(*words)
        check.holds("used wrongly: %s" % words, got.returncode == 2 and got.stdout == b"" and b"--help" in got.stderr, got)
    for name in ("move", "compare", "check"):
        check.same("%s --help" % name, command.run(name, "--help").returncode, 0)
    line = "%s move --to raw %s %s" % (command.command, FLUSH, table)
    got = subprocess.run(["script", "-qec", line, "/dev/null"], capture_output=True, timeout=LIMIT, cwd=command.folder)
    check.holds("raw entries on a terminal", got.returncode == 2 and b"raw entries are no text for a terminal" in got.stdout, got)
    large = counted(64, 64, 0, 2)
    got = command.run("check", command.file("l.game", large), command.file("t", command.run("solve", "l.game").stdout))
    check.holds("a table too large to be checked", got.returncode == 2 and b"(refused 20)" in got.stderr, got)
    check.same("is moved all the same", command.run("move", "--compact", "l.game", "t").returncode, 0)


def main():
    if len(sys.argv) not in (2, 3):
        sys.exit("usage: tests/command_tables.py NANPUWIQ [SEED]")
    seed = int(sys.argv[2]) if len(sys.argv) > 2 else 0
    check = Checks("command, tables")
    with tempfile.TemporaryDirectory() as folder:
        command = Command(os.path.abspath(sys.argv[1]), folder)
        moved(check, command)
        refused_moves(check, command)
        diagnosed(check, command)
        ambiguous(check, command)
        compared(check, command, seed)
        recordings(check, command)
        failures(check, command)
    check.end()


if __name__ == "__main__":
    main()
