#!/usr/bin/env python3
"""Runs every subcommand of nanpuwiq on good, bad and unreadable input.

    tests/command.py NANPUWIQ SOLVE [SEED]

What `nanpuwiq solve` prints is compared byte for byte with the program solve, on files of every kind and on damaged ones. The subcommands that talk and that
export have tests of their own, tests/play.py and tests/export.py. The last line says how many passed and how many failed."""

import os
import pathlib
import random
import re
import subprocess
import sys
import tempfile

from checks import Checks
from program import EXAMPLE, ONE, ROOT, TWO, counted, game, latches, longest, prints, refusals

LIMIT = 20  # seconds
FLUSH = str(ROOT / "examples/flush.game")
EARLY = str(ROOT / "examples/too_early.game")
PUMPS = str(ROOT / "examples/pumps.kit")
KIT = pathlib.Path(PUMPS).read_text()


class Command:
    """Runs the command in a folder of its own."""

    def __init__(self, command, folder):
        self.command, self.folder = command, pathlib.Path(folder)

    def run(self, *words, text=None, **how):
        return subprocess.run([self.command, *words], input=text, capture_output=True, timeout=LIMIT, cwd=self.folder, **how)

    def file(self, name, content):
        """A file in the folder; its name is given back."""
        (self.folder / name).write_bytes(content if isinstance(content, bytes) else content.encode())
        return name


def status_of(answer):
    """The status that goes with what solve prints."""
    return {b"(wins system)": 0, b"(wins environment)": 1}.get(answer.split(b"\n")[0], 2)


def solved(check, command, solve, seed):
    """The bytes of the program solve, with a status, and words beside a refusal."""
    texts = [(name, text) for name, text, _ in list(prints()) + list(refusals()) + list(latches())]
    texts += [("a room almost filled", counted(64, 64, 0, 7)), ("the longest text", longest())]
    texts += [("damaged %d" % n, text) for n, text in enumerate(damaged(seed, 150))]
    for name, text in texts:
        wanted = subprocess.run([solve], input=text, capture_output=True, timeout=LIMIT).stdout
        given = command.run("solve", command.file("given.game", text))
        piped = command.run("solve", text=text)
        check.same("solve, " + name, (given.stdout, given.returncode), (wanted, status_of(wanted)))
        check.same("solve from a pipe, " + name, (piped.stdout, piped.returncode), (wanted, status_of(wanted)))
        told = command.run("explain", "given.game")
        if wanted in (b"(refused 9)\n", b"(refused 10)\n"):
            beyond(check, name, wanted, given, told)
            continue
        check.same("explain, status, " + name, told.returncode, status_of(wanted))
        if status_of(wanted) == 2:
            spoken(check, name, text, wanted, given.stderr.decode(), told.stdout.decode())
        else:
            check.same("nothing said, " + name, given.stderr, b"")


def beyond(check, name, wanted, given, told):
    """A game whose tables are longer than the programs' rooms: solve says which, explain answers and tells that the programs do not."""
    number = re.search(rb"\d+", wanted)[0].decode()
    check.holds("words, " + name, re.search(r"table of this game has .* entries, .* \(refused %s\)$" % number, given.stderr.decode()), given.stderr)
    said = told.stdout.decode()
    verdict = {0: "An adapter exists", 1: "No adapter exists"}.get(told.returncode, "neither")
    check.holds("explain answers, " + name, verdict in said and "and refuse this game (refused %s)." % number in said and told.stderr == b"", told)


def spoken(check, name, text, wanted, said, told):
    """Words for a refusal: the number's own place, and no number without words."""
    number, place = re.match(rb"\(refused (\d+)(?: (\d+))?\)", wanted).groups()
    line = told.splitlines()[0]
    check.same("explain says what solve says, " + name, "nanpuwiq: " + line + "\n", said)
    check.holds("words, " + name, re.search(r": [a-z0-9'].{10,} \(refused %s\)$" % number.decode(), line), line)
    if place:
        before = text[: int(place)]
        there = "given.game:%d:%d: " % (before.count(b"\n") + 1, len(before) - before.rfind(b"\n"))
        check.holds("line and column, " + name, line.startswith(there), "%s: %s" % (there, line))


def damaged(seed, count):
    """Texts with a few bytes changed, left out or put in."""
    whole = [text for _, text, _ in prints()]
    yield from damages(random.Random(seed), whole, count)


def damages(rng, whole, count):
    for _ in range(count):
        text = bytearray(rng.choice(whole))
        for _ in range(rng.randint(1, 2)):
            at = rng.randrange(len(text) + 1)
            change = rng.randrange(3)
            if change == 0:
                text[at : at + 1] = bytes([rng.choice(b"()0123456789 \n\r\tgio;\xff")])
            elif change == 1:
                del text[at : at + rng.randint(1, 5)]
            else:
                text[at:at] = rng.choice([b"0", b"127", b" ", b"(", b")", b"128", b"\n", b"(if () ())\n"])
        yield bytes(text)


def explanations():
    """Refusals that have words of their own: a text, the line and column, and words that must be there."""
    example = EXAMPLE.decode()
    yield example.replace("\n", "\r\n"), "1:13", "CRLF"
    yield "\ufeff" + example, "1:1", "byte-order mark"
    yield example.encode("utf-16"), "1:1", "UTF-16"
    yield example[:-1], "6:17", "last newline is missing"
    yield "", "1:1", "empty"
    yield example[:40], "3:13", "ends too early"
    yield example.replace("(in 0 1 (0 1))", "(in 0 1 (1 0))"), "2:12", "numbers do not rise: 0 after 1"
    yield example.replace("(in 0 1 (0 1))", "(in 0 1 (0 0))"), "2:12", "numbers do not rise: 0 stands twice"
    yield example.replace("(in 0 1 (0 1))", "(in 0 1 (3 2))"), "2:13", "numbers do not rise: 2 after 3"
    yield example.replace("(in 0 1 (0 1))", "(in 0 1 (0 5))"), "2:12", "a move to input 5: there are 2 inputs, numbered from 0 to 1"
    yield example.replace("(out 1 0 (0 1))", "(out 1 0 (0 2))"), "5:13", "a move to output 2"
    yield example.replace("((1)))", "((2)))"), "6:13", "a set with output 2"
    yield example.replace("(if ((1))", "(if ((7))"), "6:7", "a set with input 7"
    yield example.replace("(out 0 1", "(out 0 0"), "4:1", "no output is initial"
    yield example.replace("(in 0 1", "(in 0 0"), "2:1", "no input is initial"
    yield example.replace("(game 2", "(game 02"), "1:7", "no leading zeros"
    yield example.replace("(game 2", "(game 129"), "1:9", "1 to 128, not 129"
    yield example.replace("(game 2", "(game  2"), "1:7", "one blank"
    yield example.replace("(in 0 1 (0 1))", "(in 0\t1 (0 1))"), "2:6", "a tab"
    yield example.replace("(in 1", "(in 2"), "3:5", "states are listed in order: expected 1, found 2"
    yield example.replace("((1)))", "((1) () () () ()))"), "6:24", "a list has 4 sets at most"
    yield example + "x", "7:1", "nothing may follow"
    yield "; a comment\n" + example, "1:1", "a comment: a game's file has none; 'nanpuwiq format' writes the game without it"
    yield b"(" * 40961, None, "over 40,960 bytes"


def explained(check, command):
    for number, (text, place, words) in enumerate(explanations()):
        told = command.run("explain", command.file("e.game", text)).stdout.decode()
        there = "e.game:%s: " % place if place else "e.game: "
        check.holds("explanation %d" % number, told.startswith(there) and words in told.splitlines()[0], told)
    told = command.run("explain", EARLY).stdout.decode()
    check.holds("explain with names", "if drain recurs in the old drive, then drain recurs in the new drive." in told, told)
    for text, words in [
        (counted(64, 64, 0, 8), "The controller's table has 32,832 entries; the programs lend 32,768 for each table, too few for the controller's 32,832"),
        (counted(64, 64, 8, 0), "The controller's table has 4,160 entries; the programs lend 32,768 for each table, too few for the panel's 32,769"),
        (longest(), "An adapter exists"),
    ]:
        got = command.run("explain", command.file("large.game", text))
        check.holds("explain beyond the programs' rooms", got.returncode == 0 and words in got.stdout.decode(), got)
    for moves, words in ((([0], [0]), "The one position is won."), (([0], []), "The one position is lost.")):
        text = game([(1, moves[0])], [(1, moves[1])], [])
        told = command.run("explain", command.file("one.game", text)).stdout.decode()
        check.holds(words, words in told, told)
    told = command.run("explain", command.file("one.game", game([(1, [0])], [(1, []), (0, [1])], []))).stdout.decode()
    check.holds("one of two", "1 of 2 positions is won." in told, told)
    told = command.run("explain", EARLY).stdout.decode()
    check.holds("explain, verdict", "No adapter exists" in told and "5 of 12 positions are won." in told, told)


def components(moves):
    """The components of a graph, each the set of its states."""
    reached = {s: {s} for s in moves}
    for _ in moves:
        for s in moves:
            reached[s] |= {u for t in reached[s] for u in moves[t]}
    return {frozenset(t for t in reached[s] if s in reached[t]) for s in moves}


def drawing(text):
    """A picture taken apart: clusters as {name: nodes}, attributes by node, and edges."""
    clusters, stack, nodes, edges = {}, [], {}, []
    for line in text.splitlines():
        line = line.strip()
        if line.startswith("// "):
            continue
        opened = re.fullmatch(r"(?:subgraph|digraph) (\w+) \{", line)
        node = re.fullmatch(r"(\w+) \[((?:\w+=(?:\"(?:[^\"\\]|\\.)*\"|[\w.]+)(?:, )?)+)\];", line)
        edge = re.fullmatch(r"(\w+) -> (\w+);", line)
        if opened:
            stack.append(opened[1])
            clusters[opened[1]] = []
        elif line == "}":
            stack.pop()
        elif node and node[1] != "node":
            nodes[node[1]] = node[2]
            clusters[stack[-1]].append(node[1])
        elif edge:
            edges.append(edge.groups())
        elif not node and not re.fullmatch(r"\w+=(?:\"(?:[^\"\\]|\\.)*\"|\w+);", line):
            raise ValueError(line)
    assert not stack, "brackets"
    return clusters, nodes, edges


def drawn(check, command):
    """Both graphs: states, moves, components, initial states; won and lost by a map that the catalogue's count agrees with."""
    for name, text, _ in prints():
        picture = command.run("draw", command.file("d.game", text)).stdout.decode()
        clusters, _, edges = drawing(picture)
        for side in ("in", "out"):
            rows = re.findall(r"^\(%s (\d+) ([01]) \(([\d ]*)\)\)$" % side, text.decode(), re.M)
            moves = {int(s): [int(t) for t in row.split()] for s, _, row in rows}
            wanted = {("%s%d" % (side, s), "%s%d" % (side, t)) for s in moves for t in moves[s]}
            wanted |= {("%s_start%s" % (side, s), side + s) for s, first, _ in rows if first == "1"}
            check.same("moves, %s of %s" % (side, name), {e for e in edges if e[1].startswith(side)}, wanted)
            found = [sorted(int(n[len(side) :]) for n in nodes) for c, nodes in clusters.items() if re.fullmatch(r"cluster_%s_\d+" % side, c)]
            check.same("components, %s of %s" % (side, name), sorted(found), sorted(map(sorted, components(moves))))
    picture = command.run("draw", "--position", "pump", "1", FLUSH).stdout.decode()
    _, nodes, _ = drawing(picture)
    check.holds("a lost output", "lost" in nodes["out1"] and "color=red" in nodes["out1"] and "penwidth=3" in nodes["out1"], nodes)
    check.holds("a won output", "won" in nodes["out2"] and "then 0.0" in nodes["out2"], nodes)
    check.holds("an input", "0 pump" in nodes["in0"] and "lost" in nodes["in0"], nodes)
    won = 0
    for i in range(4):
        _, nodes, _ = drawing(command.run("draw", "--position", str(i), "0", EARLY).stdout.decode())
        won += sum("\\nwon" in nodes["out%d" % o] for o in range(3))
    check.same("won positions", won, 5)
    check.same("status of draw", [command.run("draw", name).returncode for name in (FLUSH, EARLY)], [0, 0])


def mapped(check, command):
    """Won positions: those that draw marks, the same from the solver of the lecture room, which takes graphs of at most 32 states."""
    early = "old standby: lost with every new mode\nold prime: won with new standby\nold drain: won with new standby drain\nold supply: won with new standby supply\n"
    for words in (["map"], ["map", "--joined"]):
        got = command.run(*words, EARLY)
        check.same("%s of case 6" % words, (got.stdout.decode(), got.returncode), (early, 1))
    for name, text in [(name, text) for name, text, _ in prints()] + [("32 states", counted(32, 32, 0, 1))]:
        given = command.run("map", command.file("m.game", text))
        joined = command.run("map", "--joined", "m.game")
        inputs, outputs = map(int, re.match(rb"\(game (\d+) (\d+)", text).groups())
        check.same("lines, " + name, given.stdout.count(b"\n"), inputs)
        if max(inputs, outputs) <= 32:
            check.same("joined, " + name, (joined.stdout, joined.returncode), (given.stdout, given.returncode))
        for i in range(min(inputs, 3)):
            _, nodes, _ = drawing(command.run("draw", "--position", str(i), "0", "m.game").stdout.decode())
            won = [str(o) for o in range(outputs) if "\\nwon" in nodes["out%d" % o]]
            line = "old %d: won with new %s" % (i, " ".join(won)) if won else "old %d: lost with every new mode" % i
            check.same("row %d, %s" % (i, name), given.stdout.decode().splitlines()[i], line)
    command.file("none.names", "(out 0 none) (out 1 lost)")
    got = command.run("map", "--names", "none.names", command.file("m.game", EXAMPLE))
    check.same("an output called none", got.stdout.decode(), "old 0: won with new none lost\nold 1: won with new none lost\n")
    for inputs, outputs in ((33, 1), (1, 33)):
        got = command.run("map", "--joined", command.file("m.game", counted(inputs, outputs, 0, 1)))
        check.holds("33 states", got.returncode == 2 and got.stdout == b"" and b"refused 24" in got.stderr, got)
        check.same("33 states, the solver's map", command.run("map", "m.game").stderr, b"")


def checked(check, command):
    """Tables of ours win; the one that an earlier solver passed is turned down with its round in words; prints that are none are refused."""
    examples = pathlib.Path(FLUSH).parent
    for game in sorted(examples.glob("*.game")):
        answer = game.with_suffix(".print").read_text()
        got = command.run("check", str(game), str(game.with_suffix(".print")))
        wins = answer.startswith("(wins system)")
        check.same("check, " + game.name, got.returncode, 0 if wins else 2)
        check.holds("check in words, " + game.name, (b"The table wins" in got.stdout) if wins else b":1:7: expected (wins system), a controller's table: this is the panel's" in got.stderr, got)
    passed = str(examples / "flush_passed_before.table")
    told = (examples / "flush_turned_down.text").read_text()
    got = command.run("check", FLUSH, passed)
    check.same("the flush story", (got.stdout.decode(), got.returncode), (told, 1))
    ours = pathlib.Path(FLUSH).with_suffix(".print").read_text()
    lines = ours.splitlines(keepends=True)
    turned = command.run("check", FLUSH, command.file("t", "".join([lines[0]] + lines[:0:-1])))
    check.same("lines in another order", turned.returncode, 0)
    for name, text, words in [
        ("no start", ours.replace("(start 0 0)\n", ""), "the panel may begin in 0 pump, and its start names no initial output"),
        ("a start that is not initial", ours.replace("(start 0 0)", "(start 0 2)"), "the panel may begin in 0 pump"),
        ("no row", ours.replace("(step 2 0 0 0 0)\n", ""), "Now the panel may go to 0 pump, and the row names no move of the new drive or no counter."),
        ("a counter out of range", ours.replace("(step 2 0 0 0 0)", "(step 2 0 0 0 1)"), "Now the panel may go to 0 pump"),
        ("a state past the width", ours.replace("(step 2 0 0 0 0)", "(step 2 0 0 127 0)"), "leads to a row that is no reply"),
    ]:
        got = command.run("check", FLUSH, command.file("t", text))
        check.holds(name, got.returncode == 1 and words in got.stdout.decode() and got.stderr == b"", got)
    got = command.run("check", command.file("l.game", counted(64, 64, 0, 2)), command.file("t", "(wins system)\n"))
    check.holds("over 4,096 places", got.returncode == 2 and b"are 8,192: tables of up to 4,096 are checked (refused 20)" in got.stderr, got)
    for words in (["check"], ["check", FLUSH], ["check", FLUSH, passed, passed]):
        check.same("used wrongly: %s" % words, command.run(*words).returncode, 2)
    check.same("no such table", command.run("check", FLUSH, "nowhere").returncode, 3)


def named(check, command):
    """Files of names."""
    command.file("n.game", EXAMPLE)
    good = command.file("n.names", "(in 0 Stop) ; the old drive\n(out 1 fast_2)")
    told = command.run("explain", "n.game").stdout.decode()
    check.holds("names beside the game", "begins in Stop; the new drive in 0." in told and "then fast_2 recurs" in told, told)
    check.same("names given", command.run("explain", "--names", good, "n.game").stdout.decode(), told)
    bad = [
        ("(in 0 stop", "1:1: a '(' without its ')'"),
        ("(in 0 stop))", "1:12: a ')' without its '('"),
        ("(in 2 stop)", "1:5: expected an input from 0 to 1"),
        ("(in 00 stop)", "1:5: expected an input"),
        ("(in 0 a)\n(in 1 A)", "2:7: two inputs with the name A"),
        ("(in 0 a)\n(in 0 b)", "2:5: a second name for input 0"),
        ("(in 0 a-b)", "1:7: a name is a letter"),
        ("(in 0 a__b)", "1:7: a name is a letter"),
        ("(up 0 a)", "1:2: expected 'in' or 'out'"),
        ("(in 0)", "1:1: expected (in STATE NAME)"),
        ("in", "1:1: expected (in STATE NAME)"),
        (b"(in 0 \xff)", "1:7: a byte that no word has: 255"),
        ("(" * 100, "brackets too deep"),
    ]
    for text, words in bad:
        got = command.run("draw", "--names", command.file("b.names", text), "n.game")
        check.holds("names %r" % text, got.returncode == 2 and got.stdout == b"" and words in got.stderr.decode(), got)
    got = command.run("play", "--names", "missing", "n.game", text=b"")
    check.same("names that are not there", (got.returncode, got.stderr), (3, b"nanpuwiq: missing: No such file or directory\n"))


def kits(check, command):
    """A kit's print follows from its game's: the lowest command that makes each move."""
    printed = command.run("kit", PUMPS).stdout.decode()
    check.same("the print beside the kit", printed, pathlib.Path(PUMPS).with_suffix(".print").read_text())
    command.file("kit.game", command.run("kit", "--game", PUMPS).stdout)
    names = command.file("kit.names", command.run("kit", "--game-names", PUMPS).stdout)
    check.same("the kit's print", printed, kit_print(command.run("solve", "kit.game").stdout.decode()))
    check.holds("the kit's names", "The panel begins in stop" in command.run("explain", "--names", names, "kit.game").stdout.decode())
    plain = re.sub(r"(?m) *;.*$", "", KIT)
    for drive, modes, commands in (("old", OLD, OLD_COMMANDS), ("new", NEW, NEW_COMMANDS)):
        plain = re.sub(r"(?m)^\(%s-commands.*$" % drive, lambda m: with_numbers(m[0], commands), plain)
        plain = re.sub(r"(?m)^\(%s .*$" % drive, lambda m: with_numbers(m[0], modes), plain)
    plain = re.sub(r"(?m)^\(if (.*) (\(\(.*)\)$", lambda m: "(if %s %s)" % (with_numbers(m[1], OLD), with_numbers(m[2], NEW)), plain)
    numbered = command.run("kit", command.file("plain.kit", plain))
    check.same("the kit by numbers", len(numbered.stdout.splitlines()), len(printed.splitlines()))
    check.same("its game", command.run("kit", "--game", "plain.kit").stdout, (command.folder / "kit.game").read_bytes())
    lost = KIT.replace("(low - - high flush)", "(low - - high -)").replace("(stop ramp - - flush)", "(stop ramp - - -)")
    got = command.run("kit", command.file("lost.kit", lost))
    check.holds("a kit that the panel wins", got.returncode == 1 and got.stdout.startswith(b"(wins environment)\n(start stop)\n(step "), got)
    got = command.run("kit", "--c", "lost.kit")
    check.holds("nothing to export", got.returncode == 1 and got.stdout == b"" and b"no adapter exists" in got.stderr, got)
    for text, words in bad_kits():
        got = command.run("kit", command.file("bad.kit", text))
        check.holds("bad kit %s" % words, got.returncode == 2 and got.stdout == b"" and words in got.stderr.decode(), got)


OLD, OLD_COMMANDS = ["stop", "low", "high"], ["off", "slow", "fast"]
NEW, NEW_COMMANDS = ["stop", "ramp", "low", "high", "flush"], ["hold", "start", "run", "boost", "flush"]


def with_numbers(line, names):
    """The line with a number for each of the names."""
    return re.sub(r"(?<=[ (])[a-z]+(?=[ )])", lambda m: str(names.index(m[0])) if m[0] in names else m[0], line)


def rows_of(drive):
    return {m: row.split() for m, row in re.findall(r"(?m)^\(%s (\w+) [01] \(([^)]*)\)\)" % drive, KIT)}


def kit_print(solved_print):
    """The kit's print, worked out from the print of its game."""
    old, new = rows_of("old"), rows_of("new")
    lines = ["(wins system)"]
    for i, o in re.findall(r"^\(start (\d+) (\d+)\)$", solved_print, re.M):
        lines.append("(start %s %s)" % (OLD[int(i)], NEW[int(o)]))
    rows = {tuple(map(int, r[:3])): tuple(map(int, r[3:])) for r in re.findall(r"^\(step (\d+) (\d+) (\d+) (\d+) (\d+)\)$", solved_print, re.M)}
    for o, at in enumerate(NEW):
        for g in range(4):
            for mode in OLD:
                for c, command in enumerate(OLD_COMMANDS):
                    to = old[mode][c]
                    if to == "-" or (o, g, OLD.index(to)) not in rows:
                        continue
                    p, h = rows[o, g, OLD.index(to)]
                    lines.append("(step %s %d %s %s %s %d)" % (at, g, mode, command, NEW_COMMANDS[new[at].index(NEW[p])], h))
    return "".join(line + "\n" for line in lines)


def bad_kits():
    yield "", "no line (old-commands ..)"
    yield KIT.replace("(old low 0 (- low high))", "(old low 0 (- low))"), "4:12: 2 next modes, and the drive has 3 commands"
    yield KIT.replace("(- low high)", "(- low up)"), "4:19: no mode of this drive"
    yield KIT.replace("(- low high)", "(- low 3)"), "4:19: no mode of this drive"
    yield KIT.replace("(old low 0", "(old low 2"), "expected 1 for an initial mode, else 0"
    yield KIT.replace("(old low 0", "(old stop 0"), "a mode twice: stop"
    yield KIT.replace("(old low 0 (- low high))", "(old low 0 stop)"), "4:12: expected a list in brackets of where each command leads"
    yield KIT.replace("(old low 0 (- low high))", "(old low 0)"), "4:1: expected (old MODE 0-OR-1 (NEXT ..))"
    yield KIT.replace("(old low 0", "(old 7 0"), "a mode is its number here, 1, or a name"
    yield KIT.replace("(old stop 1", "(old stop 0"), "no initial state"
    yield KIT.replace("(old-commands off slow fast)", "(old-commands)"), "a command count not 1 to 16 (refused 17)"
    yield KIT.replace("(old-commands off slow fast)", "(old-commands %s)" % " ".join(map(str, range(17)))), "(refused 17)"
    yield KIT.replace("(old-commands", "(commands"), "expected a line in brackets"
    yield KIT + "(old-commands off)", "a second line (old-commands ..)"
    yield KIT + "(if ((stop)) ((high)))\n" * 6, "more than 8 requirements (refused 5)"
    yield KIT + "(if ((stop) () () () ()) ())", "a length over 4"
    yield KIT + "(if ((ramp)) ())", "no mode of this drive"
    yield KIT + "(if (stop) ())", "expected a set in brackets"
    yield KIT + "(if ())", "expected (if (SETS) (SETS))"
    yield KIT + "(old x 0 (- - -))\n" * 126, "129 lines (old ..): a count not 1 to 128 (refused 1)"


def damaged_forms(check, command, seed):
    """Damaged kits and names are read, or refused with a place in words."""
    rng = random.Random(seed)
    for text in damages(rng, [KIT.encode()], 60):
        got = command.run("kit", command.file("damaged.kit", text))
        told = got.returncode in (0, 1) and got.stderr == b"" or got.returncode == 2 and re.match(rb"nanpuwiq: damaged\.kit(:\d+:\d+)?: .{8}", got.stderr)
        check.holds("a damaged kit", told, (text, got))
    for text in damages(rng, [pathlib.Path(EARLY).with_suffix(".names").read_bytes()], 60):
        got = command.run("draw", "--names", command.file("damaged.names", text), EARLY)
        told = got.returncode == 0 and got.stderr == b"" or got.returncode == 2 and re.match(rb"nanpuwiq: damaged\.names:\d+:\d+: .{8}", got.stderr)
        check.holds("damaged names", told, (text, got))


def failures(check, command):
    """Input that cannot be read, output that cannot be written, and wrong use."""
    (command.folder / "folder").mkdir()
    files = {"solve": FLUSH, "play": FLUSH, "explain": FLUSH, "map": FLUSH, "draw": FLUSH, "export": FLUSH, "kit": PUMPS}
    bad = command.file("bad.game", b"(game 1 1 0)\n(in 0 1 (0))\n(out 0 0 (0))\n")
    for name, file in files.items():
        words = [name, "--c"] if name == "export" else [name]
        for path, said in (("missing", "No such file or directory"), ("folder", "Is a directory")):
            got = command.run(*words, path, text=b"")
            check.same("%s %s" % (name, path), (got.returncode, got.stdout, got.stderr.decode()), (3, b"", "nanpuwiq: %s: %s\n" % (path, said)))
        got = command.run(*words, bad, text=b"")
        check.same("%s of a bad file" % name, got.returncode, 2)
        check.holds("%s says why" % name, b"bad.game" in got.stderr + got.stdout and b"initial" in got.stderr + got.stdout or name == "kit", got)
        for redirect, said in ((">/dev/full", "No space left on device"), (">&-", "Bad file descriptor")):
            got = shell(command, "%s %s" % (" ".join(words + [file]), redirect))
            check.same("%s %s" % (name, redirect), (got.returncode, got.stderr.decode()), (3, "nanpuwiq: standard output: %s\n" % said))
        got = shell(command, "%s | true" % " ".join(words + [file]))
        check.holds("%s | true" % name, got.returncode in (0, 3) and got.stderr == b"", got)
        for wrong in ([], [file, file], ["--no-such", file], [file, "--names"] if name not in ("solve", "kit") else ["--x"]):
            if (name, wrong) == ("solve", []):
                continue
            got = command.run(*words, *wrong, text=b"")
            check.holds("%s %s" % (name, wrong), got.returncode == 2 and got.stdout == b"" and b"--help" in got.stderr, got)
        check.same("%s --help" % name, command.run(name, "--help").returncode, 0)
    got = shell(command, "solve <&-")
    check.same("a closed input", (got.returncode, got.stderr), (3, b"nanpuwiq: standard input: Bad file descriptor\n"))
    check.same("a closed input with a file", shell(command, "solve %s <&-" % FLUSH).returncode, 0)
    large = command.file("large.game", counted(64, 64, 0, 7))
    got = shell(command, "solve %s | head -c 1 >/dev/null" % large)
    check.same("a pipe that is closed early", (got.returncode, got.stderr), (3, b""))
    for words in ([], ["up"], ["--up"]):
        check.same("nanpuwiq %s" % words, command.run(*words).returncode, 2)
    check.same("export without a language", command.run("export", FLUSH).returncode, 2)
    check.same("export with two", command.run("export", "--c", "--st", FLUSH).returncode, 2)
    check.same("export of no controller", (command.run("export", "--st", EARLY).returncode, command.run("export", "--st", EARLY).stdout), (1, b""))
    check.same("a name that is none", command.run("export", "--c", "--name", "a b", FLUSH).returncode, 2)
    check.same("a position that is none", command.run("draw", "--position", "2", "0", FLUSH).returncode, 2)
    check.same("--version", command.run("--version").stdout.split()[0], b"nanpuwiq")
    check.same("a file named --c", command.run("solve", "--", command.file("--c", EXAMPLE)).returncode, 0)


def shell(command, line):
    """Runs the command by a shell, whose status is that of the first in a pipe that fails."""
    words = ["bash", "-o", "pipefail", "-c", "%s %s" % (command.command, line)]
    return subprocess.run(words, stdin=subprocess.DEVNULL, capture_output=True, timeout=LIMIT, cwd=command.folder)


def main():
    if len(sys.argv) not in (3, 4):
        sys.exit("usage: tests/command.py NANPUWIQ SOLVE [SEED]")
    seed = int(sys.argv[3]) if len(sys.argv) > 3 else 0
    check = Checks("command")
    with tempfile.TemporaryDirectory() as folder:
        command = Command(os.path.abspath(sys.argv[1]), folder)
        solved(check, command, os.path.abspath(sys.argv[2]), seed)
        explained(check, command)
        mapped(check, command)
        checked(check, command)
        drawn(check, command)
        named(check, command)
        kits(check, command)
        damaged_forms(check, command, seed)
        failures(check, command)
    check.end()


if __name__ == "__main__":
    main()
