#!/usr/bin/env python3
"""What nanpuwiq exports, run: the C by gcc against nanpuwiq_step, the Structured Text by the interpreter beside this (structured_text.py).

    tests/export.py NANPUWIQ LIBRARY

LIBRARY is the folder of libnanpuwiq.a. Every row of every controller is tried, and places and inputs past the counts. A kit's table is held to its print, the
PLCopen XML to the Structured Text and to the schema's structure (plcopen.py), the C to the sizes and the stack that it states, and, where cppcheck is there, to
MISRA C:2012. The last line says how many passed and how many failed."""

import pathlib
import re
import shutil
import subprocess
import sys
import tempfile

import plcopen
from checks import Checks
from command import NEW, NEW_COMMANDS, OLD, OLD_COMMANDS, PUMPS, rows_of
from program import ROOT, counted, game, prints
from structured_text import Fault, Unit, tokens

FLAGS = ["-std=c99", "-pedantic", "-Wall", "-Wextra", "-Wconversion", "-Werror", "-O1"]


def won_games():
    """Games with a controller: those of the files, and two with many rows."""
    for name, text, wins in prints():
        if wins.startswith(b"(wins system)"):
            yield name, text
    yield "9 x 7 with five sets", counted(9, 7, 0, 5)
    ring = [(int(s == 0), [(s + 1) % 40]) for s in range(40)]
    yield "a ring of 40 outputs", game([(1, [0, 1, 2])] * 3, ring, [("(1)", "(39) (20)"), ("(2)", "(5)")])
    yield "64 x 64 with seven sets", counted(64, 64, 0, 7)
    pairs = [(int(s == 0), sorted({s ^ 1, min(s | 1, 19), min((s | 1) + 1, 19)})) for s in range(20)]
    yield "ten pairs of inputs in a line", game(pairs, [(1, [0, 1, 2])] * 3, [("(18)", "(1) (2)")])


def lost_games():
    """Games with a panel's table."""
    for name, text, wins in prints():
        if wins.startswith(b"(wins environment)"):
            yield name, text
    yield "four sets of inputs", game([(1, [0, 1, 2])] * 3, [(1, [1]), (0, [1])], [("(0) (1)", "(0)"), ("(2) (1)", "(0) (1)")])


def said(command, *words):
    """What the command prints, and that it ends well."""
    return subprocess.run([command, *map(str, words)], capture_output=True, check=True).stdout.decode()


def compiled(folder, source, exported, *more):
    binary = folder / "exported"
    words = ["gcc", *FLAGS, "-DEXPORTED=\"%s\"" % exported, "-I", ROOT / "include", ROOT / "tests" / source, *more, "-o", binary]
    subprocess.run(words, check=True)
    return binary


LAYOUTS = [[], ["--compact"]]


def in_c(check, command, library, folder):
    for name, text in won_games():
        (folder / "x.game").write_bytes(text)
        for layout in LAYOUTS:
            (folder / "x.c").write_text(said(command, "export", "--c", *layout, folder / "x.game"))
            binary = compiled(folder, "exported.c", folder / "x.c", library / "libnanpuwiq.a")
            got = subprocess.run([binary, folder / "x.game"], capture_output=True, text=True)
            check.holds(" ".join(["C,", name, *layout]), got.returncode == 0 and re.fullmatch(r"\d+ 0\n", got.stdout), got.stdout)
    for name, text in lost_games():
        (folder / "x.game").write_bytes(text)
        (folder / "x.c").write_text(said(command, "export", "--panel", "--c", folder / "x.game"))
        binary = compiled(folder, "exported_panel.c", folder / "x.c", library / "libnanpuwiq.a")
        got = subprocess.run([binary, folder / "x.game"], capture_output=True, text=True)
        check.holds("the panel in C, " + name, got.returncode == 0 and re.fullmatch(r"\d+ 0\n", got.stdout), got.stdout)


def table_of(command, file):
    """Starts and rows, from what solve prints; the panel's start under None."""
    print_ = subprocess.run([command, "solve", file], capture_output=True, text=True).stdout
    starts = {int(i): int(o) for i, o in re.findall(r"^\(start (\d+) (\d+)\)$", print_, re.M)}
    starts.update({None: int(i) for i in re.findall(r"^\(start (\d+)\)$", print_, re.M)})
    rows = {tuple(map(int, row[:3])): tuple(map(int, row[3:])) for row in re.findall(r"^\(step (\d+) (\d+) (\d+) (\d+) (\d+)\)$", print_, re.M)}
    return starts, rows


def in_structured_text(check, command, folder):
    """Every row of the blocks, and the XML, which has the same block."""
    file = folder / "x.game"
    for games, options in ((won_games(), ["--name", "Adapter"]), (won_games(), ["--name", "Adapter", "--compact"]), (lost_games(), ["--panel"])):
        for name, text in games:
            file.write_bytes(text)
            what = " ".join(["Structured Text,", name, *options])
            source = said(command, "export", "--st", *options, file)
            try:
                panel = "--panel" in options
                check.holds(what, stepped(Unit(source).block(), text.decode(), panel, *table_of(command, file)), "a step differs")
                project = said(command, "export", "--plcopen", *options, file)
                check.same(what + ", as XML", tokens(plcopen.as_text(project)), tokens(source))
            except (Fault, plcopen.Fault) as fault:
                check.holds(what, False, fault)


class Played:
    """A block, its modes told by numbers."""

    def __init__(self, block, panel):
        self.block, (self.heard, self.answer) = block, ("NewMode", "OldMode") if panel else ("OldMode", "NewMode")
        self.modes, self.answers = block.values_of(self.heard), block.values_of(self.answer)
        self.counters = block["Counters"]

    def put(self, held, answer, counter):
        self.block.place(Held=held, Row=answer * self.counters + counter, Trigger=False, TriggerBefore=False, BeginBefore=False, Begin=False, Code=99)
        self.block.place(**{self.answer: self.answers[answer]})

    def call(self, mode, **inputs):
        # a mode that no enumeration has: a compiler has none, but a block looks
        value = self.modes[mode] if mode < len(self.modes) else "NO_SUCH_MODE"
        self.block.call(**{self.heard: value, "Begin": False, "Trigger": False, "OnChange": False, **inputs})

    def now(self):
        row = self.block["Row"]
        answer = self.answers.index(self.block[self.answer])
        assert answer == row // self.counters or not self.block["Turned"]
        return self.block["Held"], row // self.counters, row % self.counters, self.block["Code"]


def stepped(block, text, panel, starts, rows):
    """Whether the block does what the table says, on every row, by Trigger and by OnChange, and makes no turn where the mode is held."""
    side = "out" if panel else "in"
    states = re.findall(r"^\(%s (\d+) ([01]) \(([\d ]*)\)\)$" % side, text, re.M)
    initial = {int(s) for s, first, _ in states if first == "1"}
    moves = {int(s): {int(t) for t in row.split()} for s, _, row in states}
    count, played, good = len(states), Played(block, panel), True
    counters = block["Counters"]

    played.call(0, Trigger=True)
    good &= block["Code"] == 16 and not block["Turned"]  # no turn before Begin
    if panel:
        played.call(0, Begin=True)
        good &= played.now() == (count, starts[None], 0, 0) and block["Turned"]
        moves[count] = initial
    else:
        for j in range(count + 1):
            played.put(count, 0, 0)
            played.call(j, Begin=True)
            good &= played.now() == ((j, starts[j], 0, 0) if j in initial and j in starts else (count, 0, 0, 14 if j not in initial else 15))
            played.call(j, Begin=True)
            good &= not block["Turned"]  # Begin is held: no second beginning
    from_where = {j: min((i for i in moves if j in moves[i]), default=None) for j in range(count)}
    for o in range(len(played.answers)):
        for g in range(counters):
            for j in range(count):
                i = from_where[j]
                if i is None:
                    continue
                wanted = rows.get((o, g, j))
                played.put(i, o, g)
                played.call(j, Trigger=True)
                good &= played.now() == ((j, *wanted, 0) if wanted else (i, o, g, 15)) and block["Turned"] == bool(wanted)
                if o == 0 and wanted:
                    good &= changed(played, i, j, (o, g), wanted)
    for i in moves:
        for j in set(range(count + 1)) - moves[i]:
            played.put(i, 0, 0)
            played.call(j, Trigger=True)
            good &= played.now() == (i, 0, 0, 14) and not block["Turned"]
    return good


def changed(played, i, j, place, wanted):
    """A hundred scans with OnChange: one turn, and none where the mode was held before."""
    played.put(i, *place)
    turns = 0
    for _ in range(100):
        played.call(j, OnChange=True)
        turns += played.block["Turned"]
    if i == j:
        return turns == 0 and played.now() == (i, *place, 99)
    return turns == 1 and played.now() == (j, *wanted, 0)


def kit_table(command):
    """What the kit's print says: the starts, and the answer to each command."""
    printed = said(command, "kit", PUMPS)
    starts = {OLD.index(i): NEW.index(o) for i, o in re.findall(r"^\(start (\w+) (\w+)\)$", printed, re.M)}
    rows = {}
    for at, g, mode, given, answer, h in re.findall(r"^\(step (\w+) (\d) (\w+) (\w+) (\w+) (\d)\)$", printed, re.M):
        rows[NEW.index(at), int(g), OLD.index(mode), OLD_COMMANDS.index(given)] = (NEW_COMMANDS.index(answer), int(h))
    return starts, rows


def kit_step(rows, o, g, i, c):
    """Code, answer and the place after it, by the print and the two drives."""
    old, new = rows_of("old"), rows_of("new")
    if o >= len(NEW) or g >= 4 or i >= len(OLD):
        return 16, None, (i, o, g)
    if c >= len(OLD_COMMANDS) or old[OLD[i]][c] == "-":
        return 14, None, (i, o, g)
    if (o, g, i, c) not in rows:
        return 15, None, (i, o, g)
    answer, h = rows[o, g, i, c]
    return 0, answer, (OLD.index(old[OLD[i]][c]), NEW.index(new[NEW[o]][answer]), h)


def kits(check, command, folder):
    starts, rows = kit_table(command)
    (folder / "kit.c").write_bytes(subprocess.run([command, "kit", "--c", PUMPS], capture_output=True, check=True).stdout)
    binary = compiled(folder, "exported_kit.c", folder / "kit.c")
    printed = subprocess.run([binary], capture_output=True, text=True, check=True).stdout
    begun = {int(m): tuple(map(int, rest.split())) for m, rest in re.findall(r"^begin (\d+): (.*)$", printed, re.M)}
    check.same("kit in C, starts", begun, {m: (0, m, starts[m], 0) if m in starts else (14, 0, 0, 0) for m in range(len(OLD) + 1)})
    source = said(command, "kit", "--st", PUMPS)
    check.same("kit as XML", tokens(plcopen.as_text(said(command, "kit", "--plcopen", PUMPS))), tokens(source))
    block = Unit(source).block()
    modes, given, answers = (block.values_of(name) for name in ("OldMode", "Command", "Answer"))
    block.call(Trigger=True, Command=given[1])
    check.same("kit in Structured Text, before Begin", (block["Code"], block["Turned"]), (16, False))
    block.call(Begin=True, OldMode=modes[0], Command=given[0])
    begun = (block["OldNow"], block["NewNow"], block["Count"], block["Code"])
    check.same("kit in Structured Text, start", begun, (0, starts[0], 0, 0))
    block.place(BeginBefore=False)
    block.call(Begin=True, OldMode=modes[1], Command=given[0])
    check.same("kit in Structured Text, no start", (block["OldNow"], block["Code"]), (0, 14))
    held_commands(check, block, given)
    count = 0
    for place, rest in re.findall(r"^step ([\d ]+): (.*)$", printed, re.M):
        o, g, i, c = map(int, place.split())
        code, answer, at = kit_step(rows, o, g, i, c)
        got = tuple(map(int, rest.split()))
        check.same("kit in C, step %s" % place, got, (code, 99 if answer is None else answer, *at))
        if code != 16:
            block.place(OldNow=i, NewNow=o, Count=g, Answer=answers[0], Taken=len(OLD_COMMANDS), TriggerBefore=False)
            block.call(Begin=False, Trigger=True, OnChange=False, Command=given[(c + 1) % len(given)])
            got = (block["Code"], block["Answer"], block["OldNow"], block["NewNow"], block["Count"])
            check.same("kit in Structured Text, step %s" % place, got, (code, answers[0 if answer is None else answer + 1], *at))
        count += 1
    check.same("kit, steps", count, (len(NEW) + 1) * 5 * (len(OLD) + 1) * (len(OLD_COMMANDS) + 1))


def held_commands(check, block, given):
    """A command that is held for a hundred scans makes one turn; after none was given, another."""
    block.place(OldNow=0, NewNow=0, Count=0, Taken=len(given) - 1, Begin=False, BeginBefore=False)
    turns = []
    for command in (given[1], given[0], given[1], given[2]):
        turns.append(0)
        for _ in range(100):
            block.call(Begin=False, Trigger=False, OnChange=True, Command=command)
            turns[-1] += block["Turned"]
    check.same("kit in Structured Text, commands that are held", turns, [1, 0, 1, 1])


# A kit whose names are those of the exported code and of the languages.
HURTFUL = """(old-commands off next modes IF Code int class while)
(old modes 1 (modes command_off - - - - - -))
(old command_off 0 (- command_off next - - - - -))
(old next 0 (modes - next - - - - -))
(new-commands none off Held Row Entry Begin Trigger kit)
(new COUNTERS 1 (COUNTERS NO_COMMAND - - - - - -))
(new NO_COMMAND 0 (- NO_COMMAND FUNCTION_BLOCK - - - - -))
(new FUNCTION_BLOCK 0 (- - FUNCTION_BLOCK NULL - - - -))
(new NULL 0 (COUNTERS NO_COMMAND - - - - - -))
(if ((command_off)) ((NO_COMMAND)))
(if ((modes)) ((COUNTERS) (NULL)))
"""
# The same for the states of a game.
HURTFUL_NAMES = """(in 0 inputs) (in 1 place) (in 2 IF) (out 0 outputs) (out 1 rows) (out 2 NO_ENTRY)"""
# Names in letters that code does not have: identifiers are made from them, and the name stands in a comment.
FOREIGN = """(in 0 spülen) (in 1 spuelen_0) (in 2 \u6cf5) (out 0 \u6cf5\u7ad9) (out 1 Größe_1) (out 2 \u043d\u0430\u0441\u043e\u0441_2)"""

# Keywords of C, C++ and IEC 61131-3, and variables of the block: none of them can name code.
TAKEN = "int while struct restrict class template new export namespace IF if Function_Block Udint ton Code Begin oldmode Row held R_TRIG".split()


def hurtful(check, command, folder):
    """Names made to hurt: the code compiles and runs, or the name is refused in plain words."""
    kit, file = folder / "hurt.kit", folder / "hurt.game"
    kit.write_text(HURTFUL)
    three = [(1, [0, 1]), (0, [1, 2]), (0, [0, 2])]
    file.write_bytes(game(three, three, [("(1)", "(1)")]))
    (folder / "hurt.names").write_text(HURTFUL_NAMES)
    for name in ("kit", "x", "place", "Entries", "a1_2_b", "N" * 16):
        for words in (["kit", kit], ["export", file]):
            what = "%s %s" % (words[0], name)
            written_c(check, command, folder, what, name, words)
            check.holds("the block, " + what, Unit(said(command, *words, "--st", "--name", name)), "")
    (folder / "hurt.names").write_text(FOREIGN, "utf-8")
    written_c(check, command, folder, "names in other letters", "foreign", ["export", file])
    header = (folder / "c_foreign/foreign.h").read_text("utf-8")
    made = re.findall(r"^#define (FOREIGN_(?:IN|OUT)_\w+) (\d)U /\* (.*) \*/$", header, re.M)
    wanted = [("IN_SPUELEN_0X", "spülen"), ("IN_2", "\u6cf5"), ("OUT_0", "\u6cf5\u7ad9"), ("OUT_GROESSE_1_1", "Größe_1"), ("OUT_2_2", "\u043d\u0430\u0441\u043e\u0441_2")]
    check.same("identifiers", [(word[8:], told) for word, _, told in made], wanted)
    source = said(command, "export", "--st", file)
    check.holds("the block, names in other letters", Unit(source) and "controller_OldMode_2, " not in source and "(* \u6cf5 *)" in source, source[:2000])
    for name in TAKEN:
        got = subprocess.run([command, "export", "--c", "--name", name, file], capture_output=True, text=True)
        refused = re.search(r"--name: '%s' is a (keyword of C|keyword of C\+\+|word of IEC 61131-3|variable of the exported block), " % name, got.stderr)
        check.holds("refused: --name " + name, got.returncode == 2 and not got.stdout and refused, got)
    block = Unit(said(command, "export", "--st", file)).block()
    for source in (block, Unit(said(command, "kit", "--st", kit)).block(), panel_block(command)):
        for name in source.types:
            got = subprocess.run([command, "export", "--st", "--name", name, file], capture_output=True)
            check.same("refused: the block's own " + name, (got.returncode, got.stdout), (2, b""))
    for name in ("9a", "a__b", "a_", "", "a b", "a" * 17, "p\u00fcmp"):
        got = subprocess.run([command, "export", "--c", "--name", name, file], capture_output=True)
        check.holds("refused: --name " + name, got.returncode == 2 and b"is no name for code: " in got.stderr, got)


def panel_block(command):
    return Unit(said(command, "export", "--panel", "--st", ROOT / "examples/too_early.game")).block()


def written_c(check, command, folder, what, name, words):
    """NAME.h, NAME.c and NAME_test.c: compiled as C and, the header, as C++; the test walks every row."""
    where = folder / ("c_" + name)
    where.mkdir(exist_ok=True)
    for old in where.iterdir():
        old.unlink()
    said(command, *words, "--c", "--test", "-o", where / name)
    check.same("files, " + what, sorted(p.name for p in where.iterdir()), sorted([name + ".c", name + ".h", name + "_test.c"]))
    built = subprocess.run(["gcc", *FLAGS, where / (name + "_test.c"), where / (name + ".c"), "-o", where / "test"], capture_output=True, text=True)
    check.same("C, " + what, (built.returncode, built.stderr), (0, ""))
    got = subprocess.run([where / "test"], capture_output=True, text=True)
    check.holds("its test, " + what, got.returncode == 0 and re.fullmatch(name + r": \d+ calls, 0 wrong\n", got.stdout), got.stdout)
    (where / "use.cpp").write_text('#include "%s.h"\nint main() { %s_place at; at.counter = 0; return at.counter; }\n' % (name, name))
    built = subprocess.run(["g++", "-Wall", "-Wextra", "-Werror", "-fsyntax-only", where / "use.cpp"], capture_output=True, text=True)
    check.same("C++, " + what, (built.returncode, built.stderr), (0, ""))


# What the generated test says of tables that are not those of the export.
def damaged_rows(check, command, folder):
    """The generated test fails where a row, a start or a move of the code is another."""
    where = folder / "damaged"
    where.mkdir()
    said(command, "export", "--c", "--test", "-o", where / "pump", ROOT / "examples/flush.game")
    whole = (where / "pump.c").read_text()
    for what, old, new in (("a row", "2U, 2U", "2U, 1U"), ("a start", "0U, 255U", "1U, 255U"), ("a move", "0x01U }, /* after flush", "0x03U }, /* after flush")):
        check.same("there is " + what, whole.count(old), 1)
        (where / "pump.c").write_text(whole.replace(old, new))
        subprocess.run(["gcc", where / "pump_test.c", where / "pump.c", "-o", where / "test"], check=True)
        check.same("the test sees " + what, subprocess.run([where / "test"], capture_output=True).returncode, 1)


# What is stated in the header, and MISRA's rules. Those that are advisory are not asked for; the addon has no texts of rules, so their numbers stand here.
ADVISORY = set("1.2 2.3 2.4 2.5 2.6 2.7 4.2 5.9 8.7 8.9 8.11 8.13 10.5 11.4 11.5 12.1 12.3 12.4 13.3 13.4 15.1 15.4 15.5 17.5 17.8 18.4 18.5 19.2 20.1 20.5 21.12".split())


def small(check, command, folder):
    """Sizes, stack and rules of the exported C."""
    where = folder / "small"
    where.mkdir()
    (where / "ring.game").write_bytes(dict(won_games())["a ring of 40 outputs"])
    (where / "large.game").write_bytes(dict(won_games())["64 x 64 with seven sets"])
    exports = [
        ("flush", ["export", ROOT / "examples/flush.game"]),
        ("station", ["export", "--compact", ROOT / "examples/station.game"]),
        ("ring", ["export", where / "ring.game"]),
        ("large", ["export", where / "large.game"]),
        ("rig", ["export", "--panel", ROOT / "examples/too_early.game"]),
        ("pumps", ["kit", PUMPS]),
    ]
    for name, words in exports:
        said(command, *words, "--c", "-o", where / name)
        header = (where / (name + ".h")).read_text()
        stated = int(re.search(r"Memory: (\d+) bytes of constants", header)[1])
        stack = int(re.search(r"Stack: under (\d+) bytes", header)[1])
        source = (where / (name + ".c")).read_text()
        check.holds("no type of 64 bits, " + name, "int64" not in source + header)
        bare = [line for line in source.splitlines() if re.match(r" *(} else|if|else)\b", line) and not line.endswith("{")]
        check.same("brackets around every branch (15.6, which this cppcheck does not see), " + name, bare, [])
        wide = "uint16_t %s_rows" % name in source
        check.same("bits of an entry, " + name, wide, name in ("station", "large"))
        for flags in (["-O0"], ["-O2"], ["-Os"], ["-O0", "-m32"], ["-Os", "-m32"]):
            sized(check, where, "%s %s" % (name, " ".join(flags)), name, flags, stated, stack)
    if not shutil.which("cppcheck"):
        print("export: no cppcheck, so MISRA's rules were not looked at")
        return
    (where / "bad.c").write_text("int f(int x)\n{\n    if (x)\n        return 1;\n    return x ? x : 010;\n}\n")
    check.holds("cppcheck tells of rules", {"7.1", "8.4", "14.4"} <= broken(where, "bad"), broken(where, "bad"))
    for name, _ in exports:
        if name != "large":
            check.same("MISRA C:2012, " + name, sorted(broken(where, name) - ADVISORY), [])


def broken(where, name):
    """The rules that cppcheck finds broken, and what it finds beside them."""
    words = ["cppcheck", "--addon=misra", "--enable=style", "--quiet", "--template={id}", name + ".c"]
    got = subprocess.run(words, capture_output=True, text=True, cwd=where)
    return {line.replace("misra-c2012-", "") for line in got.stderr.split()} - {"moduloofone", "unusedFunction"}


def sized(check, where, what, name, flags, stated, stack):
    """The constants have the stated size, nothing else is kept, and the deepest calls stay under the stated stack."""
    built = ["gcc", "-std=c99", "-ffreestanding", "-fno-toplevel-reorder", "-fstack-usage", *flags, "-c", name + ".c", "-o", name + ".o"]
    got = subprocess.run(built, capture_output=True, text=True, cwd=where)
    check.same("compiles, " + what, (got.returncode, got.stderr), (0, ""))
    symbols = subprocess.run(["nm", "-S", name + ".o"], capture_output=True, text=True, cwd=where, check=True).stdout
    sizes = [(line.split()[2], int(line.split()[1], 16)) for line in symbols.splitlines() if len(line.split()) == 4]
    constants = sum(size for kind, size in sizes if kind in "rR")
    # what is a value in the code, as a lone start is, needs no constant
    check.holds("constants, " + what, constants == stated or (flags[0] != "-O0" and stated - 2 <= constants <= stated), (constants, stated))
    check.same("no variables, " + what, [kind for kind, _ in sizes if kind in "bBdDcC"], [])
    used = dict(re.findall(r":(\w+)\t(\d+)\tstatic$", (where / (name + ".su")).read_text(), re.M))
    depth = sum(sorted(map(int, used.values()))[-3:])  # scan, step and what step calls are the deepest: three at once
    check.holds("stack, " + what, used and depth < stack, used)


def told_of_turns(check, command, folder):
    """Every export says on its top what a turn is."""
    for words in (["export", "--c"], ["export", "--st"], ["export", "--plcopen"]):
        for options in ([ROOT / "examples/flush.game"], ["--panel", ROOT / "examples/too_early.game"]):
            top = re.sub(r"[\s*]+", " ", said(command, *words, *options)[:3000])
            check.holds("a turn, %s %s" % (words, options), "A turn is" in top and "only held makes no turn" in top, top)
    for form in ("--c", "--st", "--plcopen"):
        check.holds("a turn, kit " + form, "A turn is one command" in said(command, "kit", form, PUMPS)[:3000])


def examples(check, command, folder):
    """The PLC program with its block, and the loop in C, over a hundred scans with one input."""
    plc = ROOT / "examples/plc"
    block = (plc / "pump.st").read_text()
    check.same("the example's block is what is exported", block, said(command, "export", "--st", "--name", "Pump", ROOT / "examples/flush.game"))
    main = Unit(block + (plc / "main.st").read_text()).block("Main")
    seen = []
    for asked, button in [(False, False)] * 100 + [(True, False)] * 100 + [(False, False)] * 100 + [(False, True)] * 100 + [(False, False), (True, False)]:
        main.place(FlushAsked=asked, PumpOn=button)
        main.call()
        now = (main["RunPump"], main["RunFlush"], main["Alarm"])
        if not seen or seen[-1][1] != now:
            seen.append((len(seen), now))
    # begin: pump; flush is asked for: flush; the switch goes back: pump; the button, once: flush; flush is asked for: pump
    pump, flush = (True, False, False), (False, True, False)
    check.same("the PLC program", [now for _, now in seen], [pump, flush, pump, flush, pump])
    main.place(FlushAsked=True, PumpOn=True)
    main.call()
    check.same("what the old drive does not allow", (main["Alarm"], main["RunPump"]), (True, True))
    where = folder / "loop"
    where.mkdir()
    said(command, "export", "--c", "-o", where / "pump", ROOT / "examples/flush.game")
    built = ["gcc", *FLAGS, "-I", where, ROOT / "examples/scan_loop.c", where / "pump.c", "-o", where / "loop"]
    subprocess.run(built, check=True)
    for samples, status, told in (
        ("0 " * 100, 0, "pump"),
        ("0 " * 100 + "1 " * 100 + "0 " * 100, 0, "pump flush pump"),
        ("1", 2, ""),
        ("0 7", 2, "pump"),
        ("", 0, ""),
    ):
        got = subprocess.run([where / "loop"], input=samples, capture_output=True, text=True)
        check.same("the loop in C, " + samples[:9], (got.returncode, re.findall(r"new drive: (\w+)", got.stdout)), (status, told.split()))


def used_wrongly(check, command, folder):
    flush, early = ROOT / "examples/flush.game", ROOT / "examples/too_early.game"

    def run(*words):
        got = subprocess.run([command, *map(str, words)], capture_output=True, text=True, cwd=folder)
        return got.returncode, got.stdout, got.stderr

    for words, told in (
        (["export", "--c", "--test", flush], "--test writes NAME_test.c"),
        (["export", "--st", "--test", "-o", "x", flush], "--test writes NAME_test.c"),
        (["export", "--panel", "--compact", "--c", early], "one layout"),
        (["export", "--c", "-o", "two words", flush], "--name gives another"),
        (["export", "--c", "-o", "int", flush], "is a keyword of C"),
        (["kit", "--game", "-o", "x", PUMPS], "-o takes source code"),
    ):
        status, out, errors = run(*words)
        check.holds("used wrongly: %s" % words, (status, out) == (2, "") and told in errors, errors)
    status, out, errors = run("export", "--c", "-o", "nowhere/pump", flush)
    check.same("a folder that is not there", (status, out, errors), (3, "", "nanpuwiq: nowhere/pump.h: No such file or directory\n"))
    check.holds("no panel's table", run("export", "--panel", "--c", flush)[0] == 1 and "an adapter exists" in run("export", "--panel", "--c", flush)[2])
    check.holds("no controller", run("export", "--c", early)[0] == 1 and "--panel exports" in run("export", "--c", early)[2])
    check.same("the panel's, status", run("export", "--panel", "--c", early)[0], 0)
    check.same("a name of its own", run("export", "--st", "-o", "two words", "--name", "pump", flush)[:2], (0, ""))
    check.holds("its file", "FUNCTION_BLOCK pump\n" in (folder / "two words.st").read_text())
    check.same("the same bytes again", run("export", "--plcopen", flush), run("export", "--plcopen", flush))


def interpreter(check):
    """The interpreter refuses what a compiler refuses, so that a fault of the export would be seen."""
    good = """TYPE e : (e_a, e_b); END_TYPE FUNCTION_BLOCK b VAR_INPUT x : UDINT; END_VAR VAR_OUTPUT y : UDINT := 1; v : e; END_VAR
        VAR CONSTANT a : ARRAY [0..1] OF UINT := [7, 8]; END_VAR %s END_FUNCTION_BLOCK"""
    block = Unit(good % "IF x < 2 THEN y := UINT_TO_UDINT(a[x]) * 2 + 1; ELSIF NOT (x = 3) THEN y := 10 MOD 4; END_IF;").block()
    seen = []
    for x in range(4):
        block.call(x=x)
        seen.append(block["y"])
    check.same("interpreter", seen, [15, 17, 2, 2])
    block = Unit(good % "CASE x OF 0, 1: v := e_a; 2: v := e_b; y := 5; ELSE y := 9; END_CASE; IF v = e_b THEN y := y + 1; END_IF;").block()
    seen = []
    for x in range(4):
        block.call(x=x)
        seen.append((block["v"], block["y"]))
    check.same("interpreter, enumerations", seen, [("E_A", 1), ("E_A", 1), ("E_B", 6), ("E_B", 10)])
    program = good % "y := x + 1;" + " PROGRAM p VAR one : b; two AT %QX0.1 : UDINT; END_VAR one(x := 4); two := one.y; END_PROGRAM"
    main = Unit(program).block("p")
    main.call()
    check.same("interpreter, a program", main["two"], 5)
    wrong = ["y := a[x];", "a := 1;", "x := 1;", "z := 1;", "IF y THEN y := 1; END_IF;", "y := TRUE;", "y := 1", "y := x AND y;", "IF x < 2 THEN y := 1;"]
    wrong += ["v := 1;", "y := e_a;", "v := e_c;", "CASE x OF 0: y := 1; 0: y := 2; END_CASE;", "CASE v OF 0: y := 1; END_CASE;", "IF v < e_b THEN y := 1; END_IF;"]
    texts = [good % body for body in wrong] + [(good % "y := 1;").replace(*pair) for pair in ((" b ", " IF "), ("e_b", "E_A"), ("v : e", "e_a : e"), ("v : e", "Y : e"))]
    texts += [program.replace("one(x", "one(y"), program.replace("one.y", "one.x"), program.replace("x := 4", "x := TRUE"), program.replace("one : b", "one : c")]
    for text in texts:
        try:
            Unit(text)
            check.holds("refused: " + text, False)
        except Fault:
            check.holds("refused: " + text, True)
    for body in ("y := UINT_TO_UDINT(a[2]);", "y := 0 - 1;", "y := 4294967295 + x;"):
        block = Unit(good % body).block()
        try:
            block.call(x=1)
            check.holds("a fault: " + body, False, "it ran")
        except Fault:
            check.holds("a fault: " + body, True)


def main():
    if len(sys.argv) != 3:
        sys.exit("usage: tests/export.py NANPUWIQ LIBRARY")
    command, library = (pathlib.Path(word).resolve() for word in sys.argv[1:])
    check = Checks("export")
    interpreter(check)
    plcopen.reader(check)
    with tempfile.TemporaryDirectory() as where:
        folder = pathlib.Path(where)
        in_c(check, command, library, folder)
        in_structured_text(check, command, folder)
        kits(check, command, folder)
        hurtful(check, command, folder)
        damaged_rows(check, command, folder)
        small(check, command, folder)
        told_of_turns(check, command, folder)
        examples(check, command, folder)
        used_wrongly(check, command, folder)
    check.end()


if __name__ == "__main__":
    main()
