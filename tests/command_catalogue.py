#!/usr/bin/env python3
"""Runs `nanpuwiq catalogue` on files and on drives, good, bad and unreadable ones.

    tests/command_catalogue.py NANPUWIQ CATALOGUE [SEED]

The totals are compared byte for byte with the program catalogue for the same files; each pair of drives with the game that `nanpuwiq format` makes of it; and
10,000 pairs of 16 × 16 modes are timed. The last line says how many passed and how many failed."""

import csv
import io
import json
import os
import pathlib
import random
import re
import subprocess
import sys
import tempfile
import time

from catalogue import files
from checks import Checks
from command import Command
from program import EXAMPLE, ROOT

DRIVES = ROOT / "examples/drives"
OLD, NEW = sorted(map(str, DRIVES.glob("old_*.drive"))), sorted(map(str, DRIVES.glob("new_*.drive")))
ASKED = str(DRIVES / "asked.require")
EXAMPLES = ["--old", *OLD, "--new", *NEW, "--require", ASKED]


def of_files(check, command, program, seed):
    """Files of every number: the program's totals, with the names as words, in a list, and in a list with CRLF."""
    known = files(random.Random(seed))
    for name, content in known.items():
        command.file(name, content)
    (command.folder / "folder").mkdir()
    names = list(known) + ["missing", "folder", "n" * 256]
    listed = "".join(name + "\n" for name in names).encode()
    wanted = subprocess.run([program], input=listed, capture_output=True, cwd=command.folder).stdout
    for label, words, text in [
        ("as words", names, b""),
        ("in a list", [], listed),
        ("in a list, said so", ["-"], listed),
        ("in a list without its last newline", [], listed[:-1]),
        ("in a list with CRLF", [], listed.replace(b"\n", b"\r\n")),
    ]:
        got = command.run("catalogue", "--totals", *words, text=text)
        check.same("totals, " + label, (got.stdout, got.returncode), (wanted, 2))
        check.same("said, " + label, b"CRLF" in got.stderr, "CRLF" in label)
    crlf = subprocess.run([program], input=listed.replace(b"\n", b"\r\n"), capture_output=True, cwd=command.folder).stdout
    check.holds("the program counts each name with CRLF as 26", b"(system 0)\n(environment 0)\n(refused %d)\n(number 26 %d)\n" % (len(names), len(names)) in crlf, crlf)
    of_each_file(check, command, names)
    told = command.run("catalogue", "--json", *names).stdout
    figures = json.loads(told)["totals"]
    lines = ["(system %(system)d)", "(environment %(environment)d)", "(refused %(refused)d)"]
    lines = [line % figures for line in lines] + ["(number %(number)d %(games)d)" % n for n in figures["numbers"]]
    check.same("totals in JSON", "\n".join(lines + ["(won %(won)d %(all)d)\n" % figures["positions"]]).encode(), wanted)


def of_each_file(check, command, names):
    """What is said of each file is what solve and map say of it."""
    rows = list(csv.DictReader(io.StringIO(command.run("catalogue", "--csv", *names).stdout.decode())))
    check.same("a line for each file", [row["file"] for row in rows], names)
    for row in rows[:60] + rows[-3:]:
        got = command.run("solve", row["file"])
        answer = got.stdout.decode()
        label = "csv, %s" % row["file"][:20]
        if row["number"] == "26":
            check.same(label, (row["verdict"], got.returncode in (2, 3)), ("refused", True))
        elif got.returncode == 2:
            check.same(label, (row["verdict"], row["number"]), ("refused", re.match(r"\(refused (\d+)", answer)[1]))
            said = got.stderr.decode()
            place = ":%s:%s: " % (row["line"], row["column"]) if row["line"] else ": "
            check.holds(label + ", words", place + row["words"] in said, (row, said))
        else:
            verdict = "adapter" if got.returncode == 0 else "no adapter"
            check.same(label, (row["verdict"], row["number"], row["words"]), (verdict, "", ""))
            outputs = [line.split(": won with new ")[-1].split() for line in command.run("map", row["file"]).stdout.decode().splitlines()]
            won = sum(word.isdigit() for line in outputs for word in line)
            check.same(label + ", won", int(row["won"]), won)


def of_pairs(check, command, drives):
    """Each pair by itself: format makes its game, and solve and explain say of it what the catalogue says."""
    got = command.run("catalogue", "--csv", *drives)
    check.same("status", got.returncode, 0)
    old, new = drives[1 : drives.index("--new")], drives[drives.index("--new") + 1 : -2]
    rows = list(csv.DictReader(io.StringIO(got.stdout.decode())))
    check.same("every old one with every new one", [(r["old"], r["new"]) for r in rows], [(stem(o), stem(n)) for o in old for n in new])
    for row, (o, n) in zip(rows, [(o, n) for o in old for n in new]):
        made = command.run("format", "--old", o, "--new", n, "--require", drives[-1])
        solved = command.run("solve", command.file("pair.game", made.stdout))
        label = "%s with %s" % (row["old"], row["new"])
        check.same(label, row["verdict"], {0: "adapter", 1: "no adapter"}.get(solved.returncode, solved))
        told = json.loads(command.run("explain", "--json", "pair.game").stdout)
        figures = (told["positions"]["won"], told["positions"]["all"], told["entries"])
        check.same(label + ", figures", tuple(int(row[name]) for name in ("won", "positions", "entries")), figures)


def stem(file):
    return pathlib.Path(file).stem


def random_drives(command, rng, count, modes, most):
    """Drives with the same names for some of their modes; what is asked; the words for the command."""
    names = ["low", "high", "flush", "stop"] + ["m%d" % k for k in range(modes)]
    words = []
    for side in ("old", "new"):
        words.append("--" + side)
        for number in range(count):
            used = rng.sample(names[:4], 4) + names[4:] if modes > 4 else rng.sample(names, rng.randint(1, modes))
            used = used[:modes]
            lines = ["(mode %s %d (%s))\n" % (name, k == 0, " ".join(rng.sample(used, rng.randint(0, min(most, len(used)))))) for k, name in enumerate(used)]
            words.append(command.file("%s_%03d.drive" % (side, number), "".join(lines)))
    asked = "(if ((low)) ((low)))\n(if ((high) (stop)) ((high) (stop low)))\n(if ((flush)) ((flush)))\n"
    return words + ["--require", command.file("asked.require", asked)]


def printed(check, command):
    """The matrix, its notes and totals; narrow, and with drives at fault."""
    got = command.run("catalogue", *EXAMPLES)
    lines = got.stdout.decode().splitlines()
    check.same("the matrix", [line.split() for line in lines[2:5]], [["old", "\\", "new", *map(stem, NEW)], [stem(OLD[0]), "yes", "no", "yes"], [stem(OLD[1]), "no", "yes", "yes"]])
    check.holds("totals in words", "6 pairs: 4 with an adapter, 2 without. 35 of 60 positions are won." in lines, lines)
    check.holds("a note", "Note: new_economy has no mode called high: what asks for that mode alone is never met." in lines, lines)
    check.same("nothing said", (got.stderr, got.returncode), (b"", 0))
    shown = "".join("    " + line + "\n" if line else "\n" for line in lines)
    check.holds("the print in examples/README.md", shown in (ROOT / "examples/README.md").read_text(), shown)
    narrow = command.run("catalogue", *EXAMPLES, env=dict(os.environ, COLUMNS="30")).stdout.decode()
    check.holds("a narrow matrix", "y yes, - no, ? refused. The new drives:\n  1  new_economy\n" in narrow and re.search(r"^old_flushing +y +- +y$", narrow, re.M), narrow)
    listed = command.run("catalogue", "--long", *EXAMPLES).stdout.decode()
    check.holds("a line for each pair", re.search(r"^old_flushing +new_latch +no adapter +0 of 8 +25 entries$", listed, re.M), listed)
    told = json.loads(command.run("catalogue", "--json", *EXAMPLES).stdout)
    check.same("JSON", [(g["old"], g["new"], g["winner"]) for g in told["games"]][:2], [("old_flushing", "new_economy", "system"), ("old_flushing", "new_latch", "environment")])
    check.same("JSON, heads", (told["command"], told["status"], told["error"], len(told["notes"])), ("catalogue", 0, None, 3))
    for file, words in [
        ("missing", "missing: No such file or directory (refused 26)"),
        (str(ROOT / "examples/flush.game"), "this is a game's file"),
        (command.file("bad.drive", "(mode a 1 (a b))\n"), "bad.drive:1:14: no mode 'b': lines are there for a"),
        (command.file("second.drive", "(mode a 1 (a))\n(mode A 0 ())"), "second.drive:2:7: a second line for A"),
        (command.file("mark.drive", "(mode a 2 (a))"), "mark.drive:1:9: expected 1 for an initial mode, else 0"),
        (command.file("row.drive", "(commands x y)(mode a 1 (a))"), "row.drive:1:25: 1 next modes, and the drive has 2 commands"),
        (command.file("129.drive", "".join("(mode m%d 1 ())\n" % k for k in range(129))), "129.drive:129:7: 129 modes: a count not 1 to 128 (refused 1)"),
        (command.file("empty.drive", ""), "empty.drive:1:1: no line (mode NAME 0-OR-1 (MOVES))"),
        (command.file("bytes.drive", b"(mode \xff 1 ())"), "bytes.drive:1:7: a byte that no word has: 255"),
    ]:
        got = command.run("catalogue", "--old", OLD[0], "--new", NEW[0], file, "--require", ASKED)
        text = got.stdout.decode()
        check.holds("a drive at fault: " + words, got.returncode == 2 and words in text and "1 refused." in text and "%s, with every old drive:" % stem(file) in text and "yes" in text, (text, got.stderr))
    kit = str(ROOT / "examples/pumps.kit")
    got = command.run("catalogue", "--totals", "--old", kit, "--new", kit, "--require", command.file("low", "(if ((low)) ((low) (flush)))"))
    check.same("both halves of a kit", (got.stdout, got.returncode), (b"(system 1)\n(environment 0)\n(refused 0)\n(won 13 15)\n", 0))
    made = command.run("format", "--old", kit, "--new", kit, "--require", "low").stdout
    check.holds("their game", b"13 of 15 positions are won" in command.run("explain", command.file("kit.game", made)).stdout, made)


def graphs(check, command):
    """A drive as a drawing and as a table of moves is the drive."""
    wanted = command.run("catalogue", "--csv", "--old", OLD[0], "--new", *NEW, "--require", ASKED).stdout
    for name, text in [
        ("old_flushing.dot", "digraph { s [shape=point]; s -> low; low -> {low flush}; flush -> low }"),
        ("old_flushing.csv", "from,to\r\n,low\r\nlow,low\r\nlow,flush\r\nflush,low\r\n"),
        ("old_flushing.kit", "(old-commands on rinse) (old low 1 (low flush)) (old flush 0 (low -))"),
    ]:
        got = command.run("catalogue", "--csv", "--old", command.file(name, text), "--new", *NEW, "--require", ASKED)
        check.same(name, (got.stdout, got.stderr), (wanted, b""))


def wrong(check, command):
    """Wrong use, what is asked at fault, output that fails, and nothing at all."""
    for words, said in [
        (["--old", OLD[0]], "--old without --new"),
        (["--new", NEW[0]], "--new without --old"),
        (["--old", OLD[0], "--new", NEW[0]], "--require FILE tells"),
        (["--old", "--new", NEW[0], "--require", ASKED], "--old without its value"),
        (["--csv", "--json", OLD[0]], "one of --long, --csv, --json, --totals at a time"),
        (["--long", OLD[0]], "go with --old and --new"),
        ([OLD[0], *EXAMPLES], "is neither an old drive nor a new one"),
    ]:
        got = command.run("catalogue", *words, text=b"")
        check.holds("wrong use: " + said, got.returncode == 2 and got.stdout == b"" and said in got.stderr.decode() and b"--help" in got.stderr, got)
    for text, said in [
        ("(if (low flush) ((low)))", "asked:1:6: one set of these states, or a set for each?"),
        ("(when ((flush)) ((flush)))", "asked:1:1: expected (if (SETS) (SETS))"),
        ("(if ((low)) ((low)))\n" * 9, "asked:9:1: more than 8 requirements (refused 5)"),
        ("(if ((low) () () () ()) ())", "asked:1:21: a length over 4"),
        ("(if ((low)) ((low))", "asked:1:1: a '(' without its ')'"),
    ]:
        got = command.run("catalogue", *EXAMPLES[:-1], command.file("asked", text))
        check.holds("asked: " + said, got.returncode == 2 and got.stdout == b"" and said in got.stderr.decode(), got)
    for text, said in [("(if ((flsh)) ((flush)))", "asked:1:7: no drive has a mode called flsh"), ("(if ((flush)) ((up)))", "asked:1:17: no drive has a mode called up")]:
        got = command.run("catalogue", *EXAMPLES[:-1], command.file("asked", text))
        check.holds("asked: " + said, got.returncode == 0 and got.stderr.decode() == "nanpuwiq: %s\n" % said, got)
    check.same("asked in no file", command.run("catalogue", *EXAMPLES[:-1], "missing").returncode, 3)
    check.same("no files", command.run("catalogue", text=b"").stdout, b"0 files: 0 with an adapter, 0 without.\n")
    check.same("one file", command.run("catalogue", command.file("e.game", EXAMPLE)).stdout.splitlines()[-1], b"1 file: 1 with an adapter, 0 without. 4 of 4 positions are won.")
    got = subprocess.run("%s catalogue e.game >/dev/full" % command.command, shell=True, capture_output=True, cwd=command.folder)
    check.same("a full output", (got.returncode, got.stderr), (3, b"nanpuwiq: standard output: No space left on device\n"))


def timed(check, command):
    """10,000 pairs of 16 × 16 modes; asked for is a second on two cores that do nothing else."""
    words = random_drives(command, random.Random(1), 100, 16, 3)
    best = 99.0
    for _ in range(3):
        begun = time.monotonic()
        got = command.run("catalogue", "--totals", *words)
        best = min(best, time.monotonic() - begun)
    figures = dict(re.findall(rb"\((\w+) (\d+)\)", got.stdout))
    check.same("pairs", int(figures[b"system"]) + int(figures[b"environment"]), 10000)
    print("10,000 pairs of 16 x 16 modes: %.2f s" % best)
    check.holds("10,000 pairs take too long", best < 5, "%.2f s" % best)


def main():
    if len(sys.argv) not in (3, 4):
        sys.exit("usage: tests/command_catalogue.py NANPUWIQ CATALOGUE [SEED]")
    seed = int(sys.argv[3]) if len(sys.argv) > 3 else 0
    check = Checks("command_catalogue")
    for part in (
        lambda command: of_files(check, command, os.path.abspath(sys.argv[2]), seed),
        lambda command: of_pairs(check, command, EXAMPLES),
        lambda command: of_pairs(check, command, random_drives(command, random.Random(seed), 6, 4, 3)),
        lambda command: printed(check, command),
        lambda command: graphs(check, command),
        lambda command: wrong(check, command),
        lambda command: timed(check, command),
    ):
        with tempfile.TemporaryDirectory() as folder:
            part(Command(os.path.abspath(sys.argv[1]), folder))
    check.end()


if __name__ == "__main__":
    main()
