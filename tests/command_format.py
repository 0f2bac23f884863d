#!/usr/bin/env python3
"""Runs `nanpuwiq format` on games that are written loosely, drawn or in tables, and on what can be read in two ways.

    tests/command_format.py NANPUWIQ [SEED]

Each strict text of tests/prints, of the examples and of random games is written in every loose form and must come back byte for byte; damaged files of every
form are read or refused with line and column, and never end in another way. The last line says how many passed and how many failed."""

import os
import pathlib
import random
import re
import subprocess
import sys
import tempfile

from catalogue import random_game
from checks import Checks
from command import Command, damages
from program import ROOT, counted, game, longest, prints

FLUSH = (ROOT / "examples/flush.game").read_text()
WORDS = ["pump", "flush", "low_2", "Ruhe", "spülen", "насос", "停止", "émoi"]


class Parts:
    """A strict text taken apart."""

    def __init__(self, text):
        self.lines = text.decode().splitlines()
        rows = [re.fullmatch(r"\((in|out) (\d+) ([01]) \(([\d ]*)\)\)", line) for line in self.lines]
        self.rows = [(m[1], int(m[2]), m[3], list(map(int, m[4].split()))) for m in rows if m]
        self.asked = [line for line in self.lines if line.startswith("(if ")]

    def names(self, side, rng):
        count = sum(row[0] == side for row in self.rows)
        return ["%s%d" % (rng.choice(WORDS), k) if k >= len(WORDS) else WORDS[k] for k in range(count)]

    def asked_by(self, named):
        """The requirements with names for numbers."""
        for line in self.asked:
            when, then = sides(line)
            yield "(if %s %s)" % (with_names(when, named["in"]), with_names(then, named["out"]))


def sides(line):
    """Both lists of sets of a requirement."""
    depth, start, found = 0, 0, []
    for at, letter in enumerate(line):
        depth += {"(": 1, ")": -1}.get(letter, 0)
        if letter == "(" and depth == 2:
            start = at
        if letter == ")" and depth == 1:
            found.append(line[start : at + 1])
    return found


def with_names(text, names):
    return re.sub(r"\d+", lambda m: names[int(m[0])], text)


def loose_forms(text, rng):
    """The text in other forms: a label, the bytes, and whether the order of the states must be told by names in order of their lines."""
    plain = text.decode()
    parts = Parts(text)
    yield "as it is", text
    yield "CRLF", plain.replace("\n", "\r\n").encode()
    yield "tabs", plain.replace(" ", "\t").encode()
    yield "a byte-order mark", b"\xef\xbb\xbf" + text
    yield "UTF-16", plain.encode("utf-16")
    yield "UTF-16, the other way", b"\xfe\xff" + plain.encode("utf-16-be")
    yield "one line", plain.replace("\n", " ").encode()
    yield "commas", re.sub(r"(\d) (?=\d)", r"\1, ", plain).encode()
    yield "comments", "".join("%s ; %s\n# more\n// and more\n" % (line, line) for line in parts.lines).encode()
    yield "no last newline", text[:-1]
    first = parts.lines[0]
    yield "no counts", plain.replace(first, "(game)").encode()
    yield "no first line", plain.replace(first + "\n", "").encode()
    lines = list(parts.lines)
    states = [line for line in lines if re.match(r"\((in|out) ", line)]
    rng.shuffle(states)
    yield "lines in any order", "\n".join(parts.asked + states + [first]).encode()
    backwards = re.sub(r"\((\d+(?: \d+)+)\)", lambda m: "(%s %s)" % (" ".join(m[1].split()[::-1]), m[1].split()[0]), plain)
    yield "moves and sets in any order, some twice", backwards.encode()
    named = {side: parts.names(side, rng) for side in ("in", "out")}
    rows = ["(%s %s %s (%s))" % (side, named[side][s], mark, " ".join(named[side][t] for t in moves)) for side, s, mark, moves in parts.rows]
    yield "names", "\n".join(rows + list(parts.asked_by(named))).encode()
    rows = ["(%s %d %s %s (%s))" % (side, s, named[side][s], mark, " ".join(map(str, moves))) for side, s, mark, moves in parts.rows]
    rng.shuffle(rows)
    yield "numbers with names", "\n".join(rows + list(parts.asked_by(named))).encode()
    yield "a drawing by hand", drawing(parts, named).encode()
    yield "two drawings", two_drawings(parts).encode()


def drawing(parts, named):
    """Both graphs as a user of graphviz writes them: quoted names, lists of states, arrows from points."""
    text = "/* both drives */\nstrict digraph both {\n  graph [rankdir=LR]; node [shape=circle]\n"
    for side, name in (("in", "cluster_old"), ("out", "cluster_new")):
        text += '  subgraph %s {\n    label = "the %s drive";\n' % (name, name[8:])
        nodes = ["%s %s" % (side, word) for word in named[side]]
        text += "".join('    "%s" [color=blue, label="%s"];\n' % pair for pair in zip(nodes, named[side]))
        for of, s, mark, moves in parts.rows:
            if of == side:
                text += '    %s%d [shape=point, label=""]\n    %s%d -> "%s"\n' % (side, s, side, s, nodes[s]) if mark == "1" else ""
                text += '    "%s" -> { %s } [weight=2];\n' % (nodes[s], "; ".join('"%s"' % nodes[t] for t in moves)) if moves else ""
        text += "  }\n"
    return text + "".join("  // %s\n" % line for line in parts.asked_by(named)) + "}\n"


def two_drawings(parts):
    """A digraph for each drive, the new one first, with states s0, s1, .. and the attribute initial."""
    text = ""
    for side, name in (("out", "outputs"), ("in", "inputs")):
        text += "digraph %s {\n" % name
        for of, s, mark, moves in parts.rows:
            if of == side:
                text += "s%d [initial=%s]\n" % (s, "true" if mark == "1" else "false") + "".join("s%d -> s%d;\n" % (s, t) for t in moves)
        text += "}\n"
    return text + "".join("// %s\n" % line for line in parts.asked)


def table(parts, side, separator, names=None):
    """A graph as a table of moves; a state that nothing says anything about has a line of its own."""
    lines = ["from%sto" % separator]
    called = [names[s] if names else str(s) for of, s, _, _ in parts.rows if of == side]
    lines += [called[s] + separator for s in range(len(called))]
    for of, s, mark, moves in parts.rows:
        if of == side:
            lines += [separator + called[s]] if mark == "1" else []
            lines += ['"%s"%s %s' % (called[s], separator, called[t]) for t in moves]
    return "\n".join(lines)


def came_back(check, label, got, text):
    check.holds(label, got.stdout == text and got.returncode == 0, (got.returncode, got.stderr[:300], got.stdout[:200]))


def round_trips(check, command, seed):
    rng = random.Random(seed)
    texts = [(name, text) for name, text, _ in prints()]
    texts += [("random %d" % k, random_game(rng)) for k in range(12)]
    texts += [("64 states", counted(64, 64, 2, 2)), ("the longest", longest()), ("nothing asked", game([(1, [0])], [(0, []), (1, [0])], [])), ("empty sets", game([(1, [])], [(1, [])], [("", ""), ("() ()", "()")]))]
    for name, text in texts:
        for form, loose in loose_forms(text, rng):
            if len(text) > 5000 and form not in ("as it is", "lines in any order", "names", "a drawing by hand"):
                continue
            came_back(check, "%s: %s" % (name, form), command.run("format", command.file("loose", loose)), text)
        drawn = command.run("draw", command.file("strict.game", text)).stdout
        came_back(check, "%s: draw" % name, command.run("format", command.file("d.dot", drawn)), text)
        parts = Parts(text)
        asked = command.file("asked", "\n".join(parts.asked))
        for separator in ",;\t":
            files = [command.file("%s.csv" % side, table(parts, side, separator)) for side in ("in", "out")]
            came_back(check, "%s: tables by %r" % (name, separator), command.run("format", "--old", files[0], "--new", files[1], "--require", asked), text)
        got = command.run("format", "--old", "d.dot", "--new", "d.dot", "--require", asked)
        came_back(check, "%s: both sides of a drawing" % name, got, text)


def names_too(check, command):
    """Names that are found come as a file of names, and a file of names gives its numbers."""
    loose = "(out rinse 0 (low)) (in pump 1 (pump, flush)) (in flush 0 (pump)) (out low-speed 1 (rinse low-speed)) (out low 0 (low))\n(if flush (rinse))"
    got = command.run("format", command.file("l", loose))
    check.same("by the order of the lines", got.stdout, b"(game 2 3 1)\n(in 0 1 (0 1))\n(in 1 0 (0))\n(out 0 0 (2))\n(out 1 1 (0 1))\n(out 2 0 (2))\n(if ((1)) ((0)))\n")
    said = got.stderr.decode()
    check.holds("what was guessed", "inputs are numbered in the order of their lines: 0 pump, 1 flush" in said and "l:2:5: read as ((flush))" in said and "l:2:12: read as ((rinse))" in said, said)
    got = command.run("format", "--game-names", "l")
    check.same("a file of names", got.stdout, b"(in 0 pump)\n(in 1 flush)\n(out 0 rinse)\n(out 1 low_speed)\n(out 2 low)\n")
    check.holds("a name that is none", b"'low-speed' is no name: low_speed is written" in got.stderr, got.stderr)
    command.file("f.game", FLUSH.replace("(if ((1)) ((2)))", "(if ((Flush)) ((flush)))"))
    command.file("f.names", (ROOT / "examples/flush.names").read_text())
    got = command.run("format", "f.game")
    check.same("names beside the game", (got.stdout.decode(), got.stderr), (FLUSH, b""))
    check.same("names given", command.run("format", "--names", "f.names", "f.game").stdout.decode(), FLUSH)
    drawn = command.run("draw", str(ROOT / "examples/flush.game")).stdout
    got = command.run("format", "--game-names", command.file("d.dot", drawn))
    check.same("names of a drawing", got.stdout.decode(), re.sub(r" *;.*", "", (ROOT / "examples/flush.names").read_text()))


def guesses(check, command):
    """What is guessed is said."""
    for label, text, said, line in [
        ("no mark", "(in 0 (0)) (in 1 (0)) (out 0 1 (0))", "no input is marked as initial: taken is 0, the first", "(in 0 1 (0))"),
        ("nothing asked in a drawing", "digraph a { subgraph old {a->a} subgraph new {b->b} }", "no requirements: nothing is asked", "(game 1 1 0)"),
        ("no arrow from a point", "digraph a { subgraph old {a->b->a} subgraph new {b2->b2} }", "no input is marked as initial: taken is a, the first", "(in 0 1 (1))"),
        ("names in a drawing", "digraph a { subgraph old {x->x} subgraph new {b->c->b}\n// (if (x) (b))\n}", "outputs are numbered in the order in which they are met: 0 b, 1 c", "(if ((0)) ((0)))"),
        ("UTF-16", FLUSH.encode("utf-16"), "read as UTF-16 text", "(game 2 3 1)"),
    ]:
        got = command.run("format", command.file("g", text))
        check.holds(label, got.returncode == 0 and said in got.stderr.decode() and line in got.stdout.decode(), got)


def refused():
    """What can be read in two ways or in none: a label, the text, line and column, and words."""
    yield "two sets or one", FLUSH.replace("(if ((1)) ((2)))", "(if (0 1) ((2)))"), "7:6", "one set of these states, or a set for each?"
    yield "counts that differ", FLUSH.replace("(game 2", "(game 3"), "1:7", "the lines have 2 inputs: which is meant cannot be told"
    yield "a count of requirements", FLUSH.replace(" 1)", " 2)", 1), "1:11", "the lines have 1 requirements"
    yield "four counts", FLUSH.replace("(game 2 3 1)", "(game 2 3 1 4)"), "1:13", "expected (game INPUTS OUTPUTS REQUIREMENTS)"
    yield "a second first line", FLUSH + "(game)", "8:1", "a second line (game ..)"
    yield "a name among numbers", "(in 0 1 (0))\n(in b 0 (0))\n(out 0 1 (0))", "2:5", "input 'b' is a name and input 0 a number"
    yield "a number left out", "(in 0 1 (2))\n(in 2 0 (0))\n(out 0 1 (0))", "2:5", "input 2 is here and input 1 is not"
    yield "a state without a line", "(in pump 1 (pump fluhs))\n(in flush 0 ())(out 0 1 ())", "1:18", "no input 'fluhs': lines are there for pump, flush"
    yield "a state of a set", FLUSH.replace("((1))", "((7))"), "7:7", "no input '7': there are 0, 1"
    yield "a second line", FLUSH + "(in 1 0 ())", "8:5", "a second line for input 1"
    yield "no outputs", "(in 0 1 ())", "1:12", "the outputs are missing"
    yield "no moves", "(in 0 1)", "1:7", "expected the states that it moves to in brackets, () for none"
    yield "two marks", "(in 0 1 0 ())", "1:9", "expected (in STATE 0-OR-1 (MOVES))"
    yield "another word", FLUSH + "(up 1)", "8:1", "expected a line in brackets with game, in, out or if"
    yield "no bracket", FLUSH[:-2], "7:1", "a '(' without its ')'"
    yield "a bracket too many", FLUSH + ")", "8:1", "a ')' without its '('"
    yield "nine requirements", FLUSH.replace("(game 2 3 1)", "") + "(if () ())\n" * 8, "15:1", "more than 8 requirements (refused 5)"
    yield "129 states", "".join("(in %d 1 ())\n" % s for s in range(129)) + "(out 0 1 ())", "129:5", "a count not 1 to 128 (refused 1)"
    yield "no UTF-8", b"(in \xff 1 ())", "1:5", "a byte that no word has: 255 (the file is not UTF-8)"
    yield "letters of two bytes before it", "(in ü 1 (ü ß))(out 0 1 ())", "1:12", "no input 'ß'"
    yield "a broken UTF-16", b"\xff\xfe\x00\xd8\x00\xd8", "1:1", "UTF-16"
    yield "a kit", (ROOT / "examples/pumps.kit").read_text(), "1:1", "'nanpuwiq kit --game' writes its game"
    yield "names", (ROOT / "examples/flush.names").read_text(), "1:1", "this is a file of names"
    yield "a print", (ROOT / "examples/flush.print").read_text(), "1:1", "this is the print of an answer"
    yield "one table", "from,to\n0,0\n", "1:1", "'nanpuwiq format --old TABLE --new TABLE'"
    yield "empty", "", "1:1", "the inputs are missing"
    yield "which drive", "digraph g {\n subgraph a {x->x}\n subgraph b {y->y}\n}", "2:2", "which graph is the old drive and which the new one cannot be told"
    yield "two old drives", "digraph g {\n subgraph old {x->x}\n subgraph old2 {y->y}\n}", "3:2", "a second graph for the inputs"
    yield "no direction", "graph g { a -- b }", "1:1", "write digraph"
    yield "a line in a digraph", "digraph g { a -- b }", "1:15", "write ->"
    yield "an arrow between drives", "digraph g { subgraph old {a} subgraph new {b}\na -> b }", "1:44", "an arrow from one drive to the other"
    yield "a node in both", "digraph g { subgraph old {a->a}\nsubgraph new {b->a} }", "2:18", "node 'a' stands in both drives, and is one node"
    yield "a node outside", "digraph g { subgraph old {a} subgraph new {b}\nc -> c }", "2:1", "node 'c' stands outside both drives"
    yield "no end of a quote", 'digraph g { "a }', "1:13", "a quote without its end"
    yield "no end of a comment", "digraph g { /* }", "1:13", "a comment without its end"
    yield "no end of a drawing", "digraph g { subgraph old { a }", "1:31", "a '{' without its '}'"
    yield "a requirement in a drawing", "digraph g { subgraph old {a} subgraph new {b}\n// (if ((a)) ((c)))\n}", "2:16", "no output 'c'"


def refusals(check, command):
    for label, text, place, words in refused():
        got = command.run("format", command.file("r", text))
        said = got.stderr.decode()
        check.holds("refused: " + label, got.returncode == 2 and got.stdout == b"" and ("nanpuwiq: r:%s: " % place) in said and words in said, said)
    one = command.file("one.csv", "0,0")
    for label, text, place, words in [
        ("three fields", "from,to\na,b,c\n", "2:1", "expected two fields, from and to, with a comma between them, found 3"),
        ("one field", "a,b\nc\n", "2:1", "found 1"),
        ("a quote", 'a,"b\n', "1:3", "a quote without its end"),
        ("after a quote", 'a,"b"c\n', "1:6", "expected a comma after the quote"),
        ("nothing", "a,b\n,\n", "2:1", "a line without a state"),
        ("a number left out", "0,1\n1,3\n", "2:3", "output 3 is here and output 2 is not"),
        ("no state", "from,to\n", "2:1", "no output is there"),
        ("no UTF-8", b"a,\xff\n", "1:3", "no text in UTF-8"),
    ]:
        got = command.run("format", "--old", one, "--new", command.file("r.csv", text))
        said = got.stderr.decode()
        check.holds("refused table: " + label, got.returncode == 2 and got.stdout == b"" and ("r.csv:%s: " % place) in said and words in said, said)
    every = [(1, list(range(128)))] * 128
    got = command.run("format", command.file("large", game(every, every, [])))
    check.holds("a text that no one reads", got.returncode == 2 and got.stdout == b"" and b"a text over 40,960 bytes (refused 12)" in got.stderr, got.stderr)
    for words in (["format"], ["format", "r", "r"], ["format", "--old", one], ["format", "--new", one], ["format", "--old", one, "--new", one, "r"], ["format", "--up", "r"]):
        got = command.run(*words)
        check.holds("wrong use: %s" % words, got.returncode == 2 and got.stdout == b"" and b"--help" in got.stderr, got)
    for words in (["format", "missing"], ["format", "--names", "missing", one], ["format", "--old", one, "--new", "missing"], ["format", "--old", one, "--new", one, "--require", "missing"]):
        check.same("not there: %s" % words, command.run(*words).returncode, 2 if "--names" in words else 3)
    got = subprocess.run("%s format %s >/dev/full" % (command.command, ROOT / "examples/flush.game"), shell=True, capture_output=True)
    check.same("a full output", (got.returncode, got.stderr), (3, b"nanpuwiq: standard output: No space left on device\n"))


def of_any_pair(check, command):
    """Requirements by names for any pair: a name that is none of a graph's stands for no state, and that is said."""
    drives = ROOT / "examples/drives"
    got = command.run("format", *map(str, ["--old", drives / "old_flushing.drive", "--new", drives / "new_economy.drive", "--require", drives / "asked.require"]))
    check.holds("left out", got.stdout.endswith(b"(if ((0)) ((0)))\n(if (()) (()))\n(if ((1)) ((2)))\n"), got)
    said = got.stderr.decode()
    check.holds("said", "asked.require:3:7: no input is called high: it stands for none here" in said and "asked.require:3:16: no output is called high" in said, said)


def told(check, command):
    """The story of examples/README.md: what is typed, what is said and what is drawn."""
    story = (ROOT / "examples/README.md").read_text().split("\n## Games written loosely\n")[1].split("\n## ")[0]
    blocks = [re.sub(r"(?m)^    ", "", block) + "\n" for block in story.split("\n\n") if block.startswith("    ")]
    got = command.run("format", command.file("flush.txt", blocks[0]))
    check.same("the story, typed", (got.stdout.decode(), "$ nanpuwiq format flush.txt >flush.game\n" + got.stderr.decode()), (FLUSH, blocks[1]))
    got = command.run("format", command.file("story.dot", blocks[2]))
    check.same("the story, drawn", (got.stdout.decode(), got.returncode), (FLUSH, 0))


PLACED = re.compile(rb"nanpuwiq: [\w.]+:\d+:\d+: .{8}")


def damaged(check, command, seed):
    """Damaged files of every form end in a strict text, or in words with line and column; what is printed is read by solve."""
    rng = random.Random(seed)
    whole = [loose for _, text, _ in list(prints())[:6] for _, loose in loose_forms(text, rng)]
    whole += [command.run("draw", str(ROOT / "examples/flush.game")).stdout]
    for text in damages(rng, whole, 300):
        ends(check, command, command.run("format", command.file("damaged", text)), text)
    tables = [table(Parts(text), "in", separator).encode() for _, text, _ in list(prints())[:4] for separator in ",;\t"]
    one = command.file("one.csv", "0,0")
    for text in damages(rng, tables, 100):
        ends(check, command, command.run("format", "--old", one, "--new", command.file("damaged", text)), text)
    for _ in range(100):
        text = bytes(rng.choice(b'(){}[]"<>-;,=#/*\n\r\t ainoutif01digraph\xc3\xbc\x00') for _ in range(rng.randint(0, 60)))
        ends(check, command, command.run("format", command.file("damaged", rng.choice([b"", b"digraph {", b"(in 0 1 (", b"strict digraph a{subgraph old{"]) + text)), text)


def ends(check, command, got, text):
    if got.returncode == 0:
        again = command.run("format", command.file("strict", got.stdout))
        read = command.run("explain", "strict").returncode
        check.holds("damaged and read", again.stdout == got.stdout and read in (0, 1), (text, got, again, read))
    else:
        lines = got.stderr.splitlines()
        check.holds("damaged and refused", got.returncode == 2 and got.stdout == b"" and len(lines) == 1 and PLACED.match(lines[0]), (text, got))


def main():
    if len(sys.argv) not in (2, 3):
        sys.exit("usage: tests/command_format.py NANPUWIQ [SEED]")
    seed = int(sys.argv[2]) if len(sys.argv) > 2 else 0
    check = Checks("command_format")
    with tempfile.TemporaryDirectory() as folder:
        command = Command(os.path.abspath(sys.argv[1]), folder)
        round_trips(check, command, seed)
        names_too(check, command)
        guesses(check, command)
        refusals(check, command)
        of_any_pair(check, command)
        told(check, command)
        damaged(check, command, seed)
    check.end()


if __name__ == "__main__":
    main()
