#!/usr/bin/env python3
"""Plays against the winner's tables with `nanpuwiq play`: lines piped in, and keys typed at a pseudo-terminal.

    tests/play.py NANPUWIQ

Case 6 of document 01 (examples/too_early.game) is played to a broken round, the flush story (examples/flush.game) to a met one. Then plays with random picks
are judged here by document 01's words: the moves, what is shown, and that every round that is closed meets or breaks what is said. The last line says
how many passed and how many failed."""

import os
import pathlib
import pty
import random
import re
import select
import subprocess
import sys
import tempfile
import time

from checks import Checks
from program import ROOT, prints

LIMIT = 20  # seconds
EARLY, FLUSH = "examples/too_early.game", "examples/flush.game"


def piped(command, game, lines, *options):
    text = "".join(line + "\n" for line in lines).encode()
    return subprocess.run([command, "play", *options, game], input=text, capture_output=True, timeout=LIMIT, cwd=ROOT)


def typed(command, game, lines, words=None, folder=ROOT):
    """Types each line after a prompt; what the terminal shows, and the status."""
    process, terminal = pty.fork()
    if process == 0:
        os.chdir(folder)
        os.environ["TERM"] = "xterm"
        os.environ.pop("NO_COLOR", None)
        os.execv(command, words or [command, "play", game])
    shown, waiting, end = b"", list(lines), time.monotonic() + LIMIT
    prompts = 0
    while time.monotonic() < end:
        ready, _, _ = select.select([terminal], [], [], 0.5)
        try:
            part = os.read(terminal, 65536) if ready else b""
        except OSError:  # the other side is closed
            break
        if ready and not part:
            break
        shown += part
        if shown.count(b"> ") > prompts and waiting:
            prompts = shown.count(b"> ")
            os.write(terminal, waiting.pop(0).encode())
    os.close(terminal)
    return shown.decode(), os.waitstatus_to_exitcode(os.waitpid(process, 0)[1])


def commits_too_early(check, command):
    """Whatever the new drive answers to prime, the panel then asks for the other."""
    for pick, asked, requirement in (("drain", "3 supply", 1), ("2", "2 drain", 0)):
        other = "supply" if pick == "2" else "drain"
        got = piped(command, EARLY, ["standby", pick, other, other, other])
        said = got.stdout.decode()
        check.same("case 6, status", (got.returncode, got.stderr), (1, b""))
        check.holds("case 6, the side", "You are the new drive." in said, said)
        check.holds("case 6, the panel's pick", "The panel goes to %s.\n" % asked in said, said)
        check.holds("case 6, a broken round", "a round of 1 turn is closed." in said, said)
        wanted = "Requirement %d is BROKEN: it is due, and the new drive is never in %s.\n" % (requirement, asked.split()[1])
        check.holds("case 6, the requirement", wanted in said, said)
        check.holds("case 6, the other one", "Requirement %d is met: the old drive is never in" % (1 - requirement) in said, said)
        check.holds("no colour in a pipe", "\x1b" not in said, said)


def flush_story(check, command):
    got = piped(command, FLUSH, ["pump", "flush", "pump"])
    said = got.stdout.decode()
    check.same("flush, status", (got.returncode, got.stderr), (0, b""))
    check.holds("flush, the side", "You are the panel." in said, said)
    round_ = "    old 0 pump, new 0 pump, counter 0\n    old 1 flush, new 2 flush, counter 0\n    old 0 pump, new 0 pump, counter 0\n"
    check.holds("flush, the round", "a round of 2 turns is closed.\n" + round_ in said, said)
    check.holds("flush, met", "Requirement 0 is met: all that it asks of the new drive is there.\n" in said, said)
    check.holds("the end of the input", said.endswith("The input has ended.\n"), said)


def other_words(check, command):
    """undo, hint, help, what is not understood, and no input at all."""
    said = piped(command, EARLY, ["undo", "0", "hint", "1", "undo", "nonsense", "0", "help", "QUIT", "1"]).stdout.decode()
    check.holds("nothing to undo", "There is nothing to take back." in said, said)
    check.holds("a hint", "    1 drain: gives up requirement 1, for supply cannot recur.\n    2 supply: gives up requirement 0," in said, said)
    check.same("undo shows the position again", said.count("The panel goes to 1 prime."), 2)
    check.holds("not understood", "'nonsense' is none of the states." in said, said)
    check.holds("not allowed", "0 standby is no move from here." in said, said)
    check.holds("quit ends it", said.endswith("> QUIT\n"), said)
    check.same("no input", piped(command, EARLY, []).returncode, 1)
    got = piped(command, FLUSH, ["x" * 5000])
    check.same("a line too long", (got.returncode, b"a line of over 4096 bytes" in got.stderr), (2, True))
    said = piped(command, FLUSH, ["\x1b[31m\x07"]).stdout.decode()
    check.holds("no control characters come back", "'[31m' is none of the states." in said and "\x1b" not in said, said)
    stuck = piped(command, "examples/latch.game", ["0", "1", "2"]).stdout.decode()
    check.holds("a drive that latches", "The new drive has no move any more" in stuck, stuck)


def whys(said):
    """The answers to why, in their order."""
    return re.findall(r"^Why: (.*)\.$", said, re.M)


def why_in_the_stories(check, command):
    """Before anything is played, in a lost position, in a won one, and after undo."""
    got = piped(command, EARLY, ["why", "standby", "why", "supply", "WHY", "supply", "why", "undo", "why"])
    said = got.stdout.decode()
    check.same("why, status", (got.returncode, got.stderr), (1, b""))
    prime = "lost: the panel can go to 1 prime, and whatever the new drive answers from 0 standby is lost"
    drain = "lost: the panel can go to 2 drain, and whatever the new drive answers from 2 supply is lost"
    broken = "lost: while the old drive stays in 2 drain, requirement 0 can be due, and while the new drive stays in 2 supply it is never in drain"
    beginning = "> why\nNothing is played yet. The positions that you can begin with:\n    old 0 standby, new 0 standby, %s.\n> standby\n" % prime
    check.holds("why before anything is played", beginning in said, said)
    check.same("why in case 6", whys(said), [prime, drain, broken, drain])
    check.holds("why is told of at the prompt", "or undo, hint, why, help, quit.\n" in said, said)
    said = piped(command, FLUSH, ["why", "pump", "why", "flush", "undo", "why"]).stdout.decode()
    home = "won: the new drive can stay among 0 pump, 2 flush, and there it can meet all that is due while the old drive stays among 0 pump, 1 flush"
    check.holds("why before the flush story", "\n    old 0 pump, new 0 pump, %s.\n" % home in said, said)
    check.same("why in the flush story", whys(said), [home, home])


# The grounds of M-109 in their order: a game, the picks, and the words for the position that they lead to.
GROUNDS = [
    ("(game 2 1 0)(in 0 1 (1))(in 1 0 ())(out 0 1 (0))", "0 1", "won: the old drive has no move from 1, and who cannot move loses"),
    ("(game 2 1 0)(in 0 1 (1))(in 1 0 ())(out 0 1 (0))", "0",
     "won: the old drive does not come back to 0, and whatever it does next, the new drive has an answer that is won"),
    ("(game 1 2 0)(in 0 1 (0))(out 0 1 (0 1))(out 1 0 (0))", "0",
     "won: the new drive can stay among 0, 1, and there it can meet all that is due while the old drive stays in 0"),
    ("(game 2 2 1)(in 0 1 (0 1))(in 1 0 ())(out 0 1 (1))(out 1 0 (1))(if ((0)) ((1)))", "0",
     "won: the new drive can go on and then stay in 1, and there it can meet all that is due while the old drive stays in 0; "
     "and wherever the old drive goes from there, the position is won with each of these"),
    ("(game 1 1 0)(in 0 1 (0))(out 0 1 ())", "0", "lost: the new drive has no move from 0, and who cannot move loses"),
    ("(game 3 2 1)(in 0 1 (1 2))(in 1 0 ())(in 2 0 (2))(out 0 1 (1))(out 1 0 (1))(if ((2)) ((0)))", "0",
     "lost: the panel can go to 2, and whatever the new drive answers from 0 is lost"),
    ("(game 4 2 1)(in 0 1 (1))(in 1 0 (0 2 3))(in 2 0 (2))(in 3 0 (3))(out 0 1 (0))(out 1 0 (1))(if ((3)) ((1)))", "0",
     "lost: the panel can leave 0, 1 for 3, and there new 0 is lost"),
    ("(game 2 4 3)(in 0 1 (1))(in 1 0 (0))(out 0 1 (1))(out 1 0 (0))(out 2 0 (2))(out 3 0 (3))(if ((0)) ((1)))(if ((0) (1)) ((0) (2 3)))(if () ((2)))", "0",
     "lost: while the old drive stays among 0, 1, requirement 1 can be due, and while the new drive stays among 0, 1 it is never in 2 or 3"),
    ("(game 1 2 1)(in 0 1 (0))(out 0 1 (1))(out 1 0 (1))(if ((0)) ((0)))", "0",
     "lost: the new drive can neither stay in 0 nor come back to it, and wherever it goes is lost"),
]


def every_ground(check, command):
    with tempfile.TemporaryDirectory() as folder:
        game = pathlib.Path(folder, "ground.game")
        for text, picks, words in GROUNDS:
            game.write_text(text.replace(")(", ")\n(") + "\n")
            said = piped(command, game, picks.split() + ["why"]).stdout.decode()
            check.same("why, " + text, whys(said), [words])


def on_a_terminal(check, command):
    shown, status = typed(command, EARLY, ["0\n", "2\n", "2\n", "2\n", "2\n", "quit\n"])
    check.same("terminal, case 6, status", status, 1)
    check.holds("terminal, case 6, broken", "Requirement 0 is \x1b[31mBROKEN\x1b[0m" in shown, shown)
    shown, status = typed(command, FLUSH, ["0\n", "1\n", "0\n", "\x04"])
    check.same("terminal, flush, status", status, 0)
    check.holds("terminal, flush, met", "Requirement 0 is \x1b[32mmet\x1b[0m" in shown, shown)
    check.holds("terminal, the end of the input", "The input has ended." in shown, shown)


def edited(check, command):
    """Lines that are edited before they are sent, each to standby; lines from before; and a terminal that is left as it was."""
    for what, keys in (
        ("backspace", "standbx\x7fy\n"),
        ("to the beginning", "tandby\x01s\n"),
        ("Home and right", "sndby\x1b[H\x1b[Cta\n"),
        ("left and delete", "stanbdby\x1b[D\x1b[D\x1b[D\x1b[D\x1b[3~\n"),
        ("cut before the cursor", "nonsense\x15standby\n"),
        ("cut words", "standby or not\x17\x17\n"),
        ("cut after the cursor", "standby now\x1b[D\x1b[D\x1b[D\x1b[D\x0b\n"),
        ("a key that means nothing", "st\x1b[24~andby\x1b[F\n"),
    ):
        shown, _ = typed(command, EARLY, [keys, "quit\n"])
        check.holds("edited, " + what, "Old drive: 0 standby. New drive: 0 standby." in shown, shown)
    shown, status = typed(command, EARLY, ["standby\n", "drain\n", "\x1b[A\n", "\x1b[A\n", "\x1b[A\x1b[A\x1b[B\n", "quit\n"])
    check.holds("lines from before", "a round of 1 turn is closed." in shown and status == 1, shown)
    shown, _ = typed(command, EARLY, ["standby\n", "sup\x1b[A\x1b[Bply\n", "quit\n"])
    check.holds("the line that was begun comes back", "New drive: 2 supply." in shown, shown)
    shown, _ = typed(command, EARLY, ["prüf\x7f\x7f\x7f\x7fstandby\n", "quit\n"])
    check.holds("a letter is taken back whole", "Old drive: 0 standby." in shown, shown)
    check.same("an interrupt", typed(command, EARLY, ["sta\x03"])[1], -2)
    # the terminal is as it was: what a shell types next is echoed, and read as a line
    script = "stty -a >before; %s play %s <&0; stty -a >after; cmp before after && echo as it was" % (command, ROOT / EARLY)
    with tempfile.TemporaryDirectory() as folder:
        shown, _ = typed("/bin/sh", None, ["quit\n"], ["sh", "-c", script], folder)
    check.holds("the terminal is as it was", "as it was" in shown, shown)


def stories(check, command):
    """What examples/README.md tells of a play is what happens: its lines, in that order."""
    told = (ROOT / "examples/README.md").read_text()
    for game in (FLUSH, EARLY):
        story = told.split("    nanpuwiq play %s\n" % game)[1].split("\n## ")[0]
        lines = [line[4:] for line in story.splitlines() if line.startswith("    ") and line[4:] != "..."]
        said = piped(command, game, [line[2:] for line in lines if line.startswith("> ")]).stdout.decode().splitlines()
        at = 0
        for line in lines:
            there = line in said[at:]
            check.holds("told of %s" % game, there, line)
            at = said.index(line, at) + 1 if there else at


class Judged:
    """A game's text, and document 01's words on moves and rounds."""

    def __init__(self, text):
        text = text.decode()
        self.graphs = {}
        for side in ("in", "out"):
            rows = re.findall(r"^\(%s \d+ ([01]) \(([\d ]*)\)\)$" % side, text, re.M)
            self.graphs[side] = [(first == "1", [int(t) for t in row.split()]) for first, row in rows]
        sets = lambda part: [{int(s) for s in one.split()} for one in re.findall(r"\(([\d ]*)\)", part[1:-1])]
        # a side ends where its own bracket does: "((1) (2))", or "()" where it has no set
        side = r"(\(\)|\(\([\d ]*\)(?: \([\d ]*\))*\))"
        self.requirements = [(sets(a), sets(b)) for a, b in re.findall(r"^\(if %s %s\)$" % (side, side), text, re.M)]

    def moved(self, side, before, after):
        first, _ = self.graphs[side][after]
        return first if before is None else after in self.graphs[side][before][1]

    def together(self, side, a, b):
        """Whether two states reach one another."""
        def reached(state):
            seen, waiting = set(), [state]
            while waiting:
                new = set(self.graphs[side][waiting.pop()][1]) - seen
                seen |= new
                waiting += new
            return seen
        return a == b or (b in reached(a) and a in reached(b))

    def meets(self, round_, number):
        a, b = self.requirements[number]
        visits = lambda states, one: any(s in one for s in states)
        return any(not visits([i for i, _ in round_], one) for one in a) or all(visits([o for _, o in round_], one) for one in b)


def aims(check, name, game, said):
    """What the table aims at changes only when it has come there, as long as the old drive stays in its component."""
    told = re.findall(r"^Old drive: (\d+)\. New drive: (\d+)\.\n(?:The (panel|controller) aims at (?:one of )?([\d, or]+), for requirement (\d+)\.\n)?", said, re.M)
    turns = [(int(i), int(o), who, {int(s) for s in re.findall(r"\d+", states)}, number) for i, o, who, states, number in told]
    for (i, _, who, states, number), (j, p, _, next_, after) in zip(turns, turns[1:]):
        if states:
            sides = game.requirements[int(number)][0 if who == "panel" else 1]
            check.holds("the aim is a set of its requirement, " + name, states in sides, states)
        if states and next_ and (states, number) != (next_, after) and game.together("in", i, j):
            check.holds("the aim is reached before the next, " + name, (j if who == "panel" else p) in states, (i, j, p, states, next_))


def random_plays(check, command, rng):
    """Each pick is one of those offered; what follows is held to the game's text."""
    for name, text, wins in prints():
        game, system = Judged(text), wins.startswith(b"(wins system)")
        picks = []
        for _ in range(12):
            said = piped(command, name, picks, "--names", "/dev/null").stdout.decode()
            offered = re.findall(r"^The (?:panel|new drive) may (?:begin in|go to|answer with): (.*)\.$", said, re.M)
            if not offered or "you have lost" in said.rsplit("\n> ", 2)[-2]:
                break
            picks.append(rng.choice(offered[-1].split(", ")))
        walk = [tuple(map(int, at)) for at in re.findall(r"^Old drive: (\d+)\. New drive: (\d+)\.$", said, re.M)]
        aims(check, name, game, said)
        before = (None, None)
        for at in walk:
            legal = game.moved("in", before[0], at[0]) and game.moved("out", before[1], at[1])
            check.holds("moves, " + name, legal, (before, at))
            before = at
        told = whys(piped(command, name, picks + ["why"], "--names", "/dev/null").stdout.decode())
        check.same("why, " + name, [words.split(":")[0] for words in told], ["won" if system else "lost"] if walk else [])
        for words in told:
            for next_ in re.findall(r"the panel can go to (\d+),", words):
                check.holds("why, a move, " + name, game.moved("in", walk[-1][0], int(next_)), (walk[-1], words))
        for round_, judged in re.findall(r"is closed\.\n((?:    old .*\n)+)((?:Requirement .*\n)*)", said):
            seen = [tuple(map(int, at)) for at in re.findall(r"old (\d+), new (\d+),", round_)]
            check.holds("a closed round, " + name, len(seen) > 1 and seen[0] == seen[-1], seen)
            words = re.findall(r"^Requirement (\d+) is (met|BROKEN)", judged, re.M)
            check.same("all are judged, " + name, len(words), len(game.requirements))
            for number, word in words:
                check.same("requirement, " + name, word == "met", game.meets(seen, int(number)))
            check.same("the table wins, " + name, all(word == "met" for _, word in words), system)


def main():
    if len(sys.argv) != 2:
        sys.exit("usage: tests/play.py NANPUWIQ")
    command = str(pathlib.Path(sys.argv[1]).resolve())
    check = Checks("play")
    commits_too_early(check, command)
    flush_story(check, command)
    other_words(check, command)
    why_in_the_stories(check, command)
    every_ground(check, command)
    on_a_terminal(check, command)
    edited(check, command)
    stories(check, command)
    random_plays(check, command, random.Random(1))
    check.end()


if __name__ == "__main__":
    main()
