#!/usr/bin/env python3
"""Runs `nanpuwiq why` and `nanpuwiq bars` on good, bad and unreadable input.

    tests/command_positions.py NANPUWIQ [SEED]

Each line of `why --all` is held to the map and to what `why` says of its position. The verdicts and maps with bars are worked out a second time here, in games of a
few states, by the definition: the pairs from which some reply keeps to the bars, and meets the requirement, for ever. The last line says how many passed and failed."""

import itertools
import os
import pathlib
import random
import re
import sys
import tempfile

from checks import Checks
from command import Command, EARLY, FLUSH
from program import EXAMPLE, ROOT, counted, game, prints

SERVICE = str(ROOT / "examples/service.game")
UNANNOUNCED = str(ROOT / "examples/service_unannounced.game")
LINE = re.compile(r"old (\d+)(?: \w+)?, new (\d+)(?: \w+)?: (won|lost) \(ground ([1-8])\): (.{20,})\.")


def positions(check, command):
    """Every position of every printed game: one line each, won where the map says so, in the words that it has alone."""
    for name, text, _ in prints():
        command.file("p.game", text)
        inputs, outputs = map(int, re.match(rb"\(game (\d+) (\d+)", text).groups())
        got = command.run("why", "--all", "p.game")
        mapped = command.run("map", "p.game")
        rows = [set(re.findall(r"\d+", line.split("won with")[1])) if "won with" in line else set() for line in mapped.stdout.decode().splitlines()]
        lines = [LINE.fullmatch(line) for line in got.stdout.decode().splitlines()]
        check.holds("lines of words, " + name, all(lines) and len(lines) == inputs * outputs, got)
        check.same("status as the map's, " + name, (got.returncode, got.stderr), (mapped.returncode, b""))
        check.same("in order, " + name, [(int(m[1]), int(m[2])) for m in lines], list(itertools.product(range(inputs), range(outputs))))
        check.same("won as on the map, " + name, [m[3] == "won" for m in lines], [str(o) in rows[i] for i in range(inputs) for o in range(outputs)])
        check.same("grounds of won positions, " + name, [m[3] == "won" for m in lines], [int(m[4]) <= 3 for m in lines])
        for m in random.Random(name).sample(lines, min(6, len(lines))):
            one = command.run("why", "p.game", m[1], m[2])
            check.same("status, " + name, one.returncode, 0 if m[3] == "won" else 1)
            said = "Position: %s: %s (ground %s).\nWhy: %s.\n" % (m[0].split(":")[0], m[3], m[4], m[5])
            check.holds("one position, " + name, one.stdout.decode().startswith(said), (one, said))


def words(check, command):
    """Positions by name, and words that mean none."""
    got = command.run("why", FLUSH, "pump", "Economy")
    said = (
        "Position: old 0 pump, new 1 economy: lost (ground 7).\n"
        "Why: while the old drive stays among 0 pump, 1 flush, requirement 0 can be due, and while the new drive stays in 1 economy it is never in flush.\n"
        "Requirement 0: if flush recurs in the old drive, then flush recurs in the new drive.\n"
    )
    check.same("by names", (got.stdout.decode(), got.returncode), (said, 1))
    check.same("by numbers", command.run("why", FLUSH, "0", "1").stdout.decode(), said)
    check.same("a position that is won", command.run("why", EARLY, "drain", "drain").returncode, 0)
    for given, told in [
        (["flsuh", "0"], "no input is called 'flsuh'; did you mean 'flush'?"),
        (["0", "economi"], "no output is called 'economi'; did you mean 'economy'?"),
        (["0", "zzz"], "no output is called 'zzz': expected 0 pump, 1 economy, 2 flush\n"),
        (["0", ""], "no output is called ''"),
        (["2", "0"], "there is no input 2: there are 2 inputs, numbered from 0 to 1 (refused 25)"),
        (["0", "3"], "there is no output 3: there are 3 outputs, numbered from 0 to 2 (refused 25)"),
        (["0", "99999999999999999999999"], "there is no output with so many digits: there are 3 outputs"),
    ]:
        got = command.run("why", FLUSH, *given)
        check.holds("why %s" % given, (got.returncode, got.stdout) == (2, b"") and told in got.stderr.decode(), got)
    got = command.run("why", command.file("plain.game", EXAMPLE), "stop", "0")
    check.holds("no names", "no input is called 'stop': inputs have numbers alone here" in got.stderr.decode(), got)
    large = command.run("why", "--all", command.file("large.game", counted(64, 64, 4, 8)))
    check.same("64 x 64", large.stdout.count(b"\n"), 4096)
    long = max(len(line) for line in large.stdout.splitlines())
    check.holds("no line lists 64 states", long < 500, long)


def pairs_of(bars):
    return "".join("%d %d\n" % pair for pair in sorted(bars))


def won_with_bars(inputs, outputs, requirement, bars):
    """The pairs from which the system wins where it never makes a barred one, as a game of the requirement if A then G on the joined pairs.

    Greatest fixpoint of: from here the system can make sure that G is met again, staying among these pairs, or that A is not met any more (as long as it is not)."""
    a, g = requirement
    every = {(i, o) for i in range(len(inputs)) for o in range(len(outputs))} - bars

    def replies(pair, target):
        i, o = pair
        return all(any((j, p) in target for p in outputs[o]) for j in inputs[i])

    won = set(every)
    while True:
        # least: step by step nearer to a pair of G from which won goes on; between times, rounds without A
        near = set()
        while True:
            avoiding = set(every)
            while True:
                kept = {x for x in avoiding if x[1] in g and replies(x, won) or replies(x, near) or x[0] not in a and replies(x, avoiding)}
                if kept == avoiding:
                    break
                avoiding = kept
            if avoiding == near:
                break
            near = avoiding
        if near == won:
            return won
        won = near


def barred(check, command, seed):
    """Verdict and map beside those worked out here, on random games of one requirement."""
    rng = random.Random(seed)
    for _ in range(120):
        sizes = rng.randint(1, 3), rng.randint(1, 3)
        inputs, outputs = ([sorted(rng.sample(range(n), rng.randint(0 if rng.random() < 0.2 else 1, n))) for _ in range(n)] for n in sizes)
        a, g = ({s for s in range(n) if rng.random() < 0.6} for n in sizes)
        bars = {(i, o) for i in range(sizes[0]) for o in range(sizes[1]) if rng.random() < 0.25}
        firsts = [{rng.randrange(n)} | {s for s in range(n) if rng.random() < 0.3} for n in sizes]
        rows = [[(int(s in first), moves) for s, moves in enumerate(graph)] for first, graph in zip(firsts, (inputs, outputs))]
        line = tuple("(%s)" % " ".join(map(str, sorted(states))) for states in (a, g))
        command.file("b.game", game(*rows, [line]))
        won = won_with_bars(inputs, outputs, (a, g), bars)
        system = all(any((i, o) in won for o in firsts[1]) for i in firsts[0])
        got = command.run("bars", "--map", "b.game", command.file("b.bars", pairs_of(bars)))
        case = (rows, line, bars)
        check.same("verdict with bars", got.returncode, 0 if system else 1)
        found = [line for line in got.stdout.decode().splitlines() if line.startswith("old ")]
        wanted = []
        for i in range(sizes[0]):
            row = [str(o) for o in range(sizes[1]) if (i, o) in won]
            out = [str(o) for o in range(sizes[1]) if (i, o) in bars]
            front = "old %d: won with new %s" % (i, " ".join(row)) if row else "old %d: lost with every new mode" % i
            wanted.append(front + ("; barred with %s" % " ".join(out) if out else ""))
        check.holds("map with bars", found == wanted, (case, found, wanted))


def interlocks(check, command):
    """The examples, and lists that are none."""
    got = command.run("bars", "--map", SERVICE, str(pathlib.Path(SERVICE).with_suffix(".bars")))
    said = (
        "%s with 2 barred pairs: an adapter exists that never makes a barred pair.\n"
        "old run: won with new pump slow rest\nold announced: won with new slow rest\nold service: won with new rest; barred with pump slow\n"
    )
    check.same("announced", (got.stdout.decode(), got.returncode), (said % SERVICE, 0))
    got = command.run("bars", UNANNOUNCED, str(pathlib.Path(UNANNOUNCED).with_suffix(".bars")))
    check.same("unannounced, status", got.returncode, 1)
    check.holds("unannounced", b"no adapter exists" in got.stdout and got.stdout.endswith(b"Without the bars an adapter exists.\n"), got)
    for name, text in [("by number", "2 0\n2 1\n"), ("CRLF, tabs, commas", "2,\t0\r\n2, 1\r\n"), ("twice", "2 0\n2 1\n2 1"), ("comments", "# pump\n2 0 // pump\n2 1; slow"), ("a mark", "\ufeff2 0\n2 1")]:
        check.same("bars, " + name, command.run("bars", "--map", SERVICE, command.file("b", text)).stdout.splitlines()[1:], said.encode().splitlines()[1:])
    none = command.run("bars", "--map", EARLY, command.file("b", "; no bars\n"))
    check.same("no bars", (none.stdout.decode().split("\n", 1)[1], none.returncode), (command.run("map", EARLY).stdout.decode(), 1))
    for text, told in [
        ("service pump\n\n  service slwo\n", "b:3:11: no output is called 'slwo'; did you mean 'slow'?"),
        ("service\n", "b:1:1: 1 word on the line: expected a pair, an input and an output"),
        ("2 0 2 1\n", "b:1:7: 4 words on the line: expected a pair"),
        ("2 0\n3 0\n", "b:2:1: there is no input 3: there are 3 inputs, numbered from 0 to 2 (refused 29)"),
        ("2 0\n2 3\n", "b:2:3: there is no output 3: there are 3 outputs, numbered from 0 to 2 (refused 29)"),
        ("2 1000\n", "b:1:3: there is no output 1000"),
        ("2 0\n\u00e9\u00e8 0\n", "b:2:1: no input is called '\u00e9\u00e8'"),
        ("service \u00e9\u00e8 x\n", "b:1:12: 3 words on the line"),
        ("pump service\n", "b:1:1: no input is called 'pump': it is an output"),
        (b"2 \xff\n", "b:1:3: a byte that no text has"),
        ("2 0\n".encode("utf-16"), "b: the file is UTF-16 text"),
    ]:
        got = command.run("bars", SERVICE, command.file("b", text))
        check.holds("bars %r" % text, (got.returncode, got.stdout) == (2, b"") and told in got.stderr.decode(), got)
    got = command.run("bars", EARLY, command.file("b", "; two requirements\nstandby drain\n"))
    check.holds("28", got.returncode == 2 and b"b:2:1: a barred pair, and " in got.stderr and b"has 2 requirements" in got.stderr and b"(refused 28)" in got.stderr, got)


def failures(check, command):
    command.file("bad.game", b"(game 1 1 0)\n(in 0 1 (0))\n(out 0 0 (0))\n")
    command.file("b", "")
    for words in (["why", "missing", "0", "0"], ["why", "--all", "missing"], ["bars", "missing", "b"], ["bars", SERVICE, "missing"], ["bars", ".", "b"]):
        got = command.run(*words)
        check.holds("unreadable: %s" % words, (got.returncode, got.stdout) == (3, b"") and got.stderr.count(b"\n") == 1, got)
    for words in (["why", "bad.game", "0", "0"], ["why", "--all", "bad.game"], ["bars", "bad.game", "b"]):
        got = command.run(*words)
        check.holds("a bad game: %s" % words, got.returncode == 2 and b"bad.game:3:1: no output is initial" in got.stderr, got)
    wrong = [["why"], ["why", FLUSH], ["why", FLUSH, "0"], ["why", FLUSH, "0", "0", "0"], ["why", "--all", FLUSH, "0", "0"], ["why", "--x", FLUSH]]
    for words in wrong + [["bars", SERVICE], ["bars", SERVICE, "b", "b"], ["bars", "--all", SERVICE, "b"]]:
        got = command.run(*words)
        check.holds("used wrongly: %s" % words, got.returncode == 2 and got.stdout == b"" and b"--help" in got.stderr, got)
    for name in ("why", "bars"):
        check.same("%s --help" % name, command.run(name, "--help").returncode, 0)


def main():
    if len(sys.argv) not in (2, 3):
        sys.exit("usage: tests/command_positions.py NANPUWIQ [SEED]")
    seed = int(sys.argv[2]) if len(sys.argv) > 2 else 0
    check = Checks("command, positions")
    with tempfile.TemporaryDirectory() as folder:
        command = Command(os.path.abspath(sys.argv[1]), folder)
        positions(check, command)
        words(check, command)
        interlocks(check, command)
        barred(check, command, seed)
        failures(check, command)
    check.end()


if __name__ == "__main__":
    main()
