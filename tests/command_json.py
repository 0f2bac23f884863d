#!/usr/bin/env python3
"""Holds what the subcommands print with --json to docs/nanpuwiq.schema.json, and to what they print for people.

    tests/command_json.py NANPUWIQ

The part of the schema language that the schema uses is read here; a keyword that is not known stops the test. The last line says how many passed and failed."""

import json
import os
import pathlib
import re
import subprocess
import sys
import tempfile

from checks import Checks
from command import Command, EARLY, FLUSH, PUMPS
from program import EXAMPLE, ROOT, counted, prints, refusals

SCHEMA = json.loads((ROOT / "docs/nanpuwiq.schema.json").read_text())
TABLE = str(pathlib.Path(FLUSH).with_suffix(".print"))
SERVICE = str(ROOT / "examples/service.game")
BARS = str(ROOT / "examples/service.bars")
PANEL, DRIVE, STUCK = (str(ROOT / ("examples/flush_%s.recording" % name)) for name in ("panel", "drive", "drive_stuck"))
KINDS = {"object": dict, "array": list, "string": str, "boolean": bool, "null": type(None), "integer": int}


def is_kind(value, kind):
    return isinstance(value, KINDS[kind]) and not (kind == "integer" and isinstance(value, bool))


def faults(value, schema, where="$"):
    """Where the value is not what the schema asks for."""
    for keyword, asked in schema.items():
        if keyword in ("$schema", "$defs", "title", "description"):
            continue
        if keyword == "$ref":
            yield from faults(value, SCHEMA["$defs"][asked.removeprefix("#/$defs/")], where)
        elif keyword == "oneOf":
            fits = [one for one in asked if not list(faults(value, one, where))]
            if len(fits) != 1:
                yield "%s: %d of oneOf fit" % (where, len(fits))
        elif keyword == "type":
            kinds = asked if isinstance(asked, list) else [asked]
            if not any(is_kind(value, kind) for kind in kinds):
                yield "%s: %r is no %s" % (where, value, asked)
        elif keyword == "const":
            if value != asked:
                yield "%s: %r is not %r" % (where, value, asked)
        elif keyword == "enum":
            if not any(value == one and type(value) is type(one) for one in asked):
                yield "%s: %r is none of %r" % (where, value, asked)
        elif keyword in ("minimum", "maximum"):
            if is_kind(value, "integer") and (value < asked if keyword == "minimum" else value > asked):
                yield "%s: %r beyond %s %r" % (where, value, keyword, asked)
        elif keyword in ("minItems", "maxItems"):
            if isinstance(value, list) and (len(value) < asked if keyword == "minItems" else len(value) > asked):
                yield "%s: %d items, %s %d" % (where, len(value), keyword, asked)
        elif keyword == "items":
            for number, item in enumerate(value if isinstance(value, list) else []):
                yield from faults(item, asked, "%s[%d]" % (where, number))
        elif keyword == "required":
            yield from ("%s: no %s" % (where, name) for name in asked if isinstance(value, dict) and name not in value)
        elif keyword == "properties":
            for name in value if isinstance(value, dict) else ():
                if name in asked:
                    yield from faults(value[name], asked[name], "%s.%s" % (where, name))
        elif keyword == "additionalProperties":
            named = value if isinstance(value, dict) else ()
            yield from ("%s: an unknown %s" % (where, name) for name in named if name not in schema["properties"])
        else:
            raise ValueError("the schema's keyword %s is not known here" % keyword)


class Asked:
    """Runs a subcommand with and without --json, and holds the object to the schema."""

    def __init__(self, check, command):
        self.check, self.command = check, command

    def __call__(self, *words, text=None):
        """The object, and what is printed without --json."""
        plain = self.command.run(*words, text=text)
        given = self.command.run(words[0], "--json", *words[1:], text=text)
        label = " ".join(words)[:100]
        self.check.same("status, " + label, given.returncode, plain.returncode)
        self.check.same("standard error, " + label, given.stderr, plain.stderr if plain.returncode == 2 and words[0] != "explain" or plain.returncode == 3 else given.stderr)
        self.check.same("one line, " + label, (given.stdout.count(b"\n"), given.stdout[-1:]), (1, b"\n"))
        found = json.loads(given.stdout)
        self.check.same("schema, " + label, list(faults(found, SCHEMA)), [])
        definition = "refusal" if found["error"] else words[0]
        self.check.same("its own definition, " + label, list(faults(found, SCHEMA["$defs"][definition])), [])
        self.check.same("the order of the fields, " + label, list(found), list(SCHEMA["$defs"][definition]["properties"]))
        self.check.same("command and status, " + label, (found["command"], found["status"]), (words[0], given.returncode))
        return found, plain.stdout.decode()


def rows_of(word, text):
    return [[int(n) for n in row.split()] for row in re.findall(r"^\(%s ([\d ]+)\)$" % word, text, re.M)]


def games(check, command, asked):
    """Each game of the examples and the cases: the object says what the text says."""
    for name, text, _ in prints():
        command.file("g.game", text)
        inputs, outputs, k = map(int, re.match(rb"\(game (\d+) (\d+) (\d+)", text).groups())
        found, said = asked("solve", "g.game")
        check.same("winner, " + name, "(wins %s)" % found["winner"], said.split("\n")[0])
        check.same("table, " + name, (found["table"]["starts"], found["table"]["steps"]), (rows_of("start", said), rows_of("step", said)))
        entries = found["table"]["entries"]
        found, said = asked("explain", "g.game")
        check.holds("entries, " + name, "table has %s entries;" % format(entries, ",") in said and found["entries"] == entries, (found, said))
        check.same("counts, " + name, (len(found["inputs"]), len(found["outputs"]), len(found["requirements"])), (inputs, outputs, k))
        check.same("requirements, " + name, [q["words"] for q in found["requirements"]], re.findall(r"(?m)^Requirement \d: (.*)\.$", said))
        won = found["positions"]
        found, said = asked("map", "g.game")
        check.same("positions, " + name, (found["positions"], won["won"], won["all"]), (won, sum(map(len, found["won"])), inputs * outputs))
        lines = ["old %d: won with new %s" % (i, " ".join(map(str, row))) if row else "old %d: lost with every new mode" % i for i, row in enumerate(found["won"])]
        check.same("won, " + name, lines, said.splitlines())
        rows = found["won"]
        found, said = asked("why", "--all", "g.game")
        check.same("grounds, " + name, [(g["input"], g["output"], g["won"]) for g in found["grounds"]], [(i, o, o in rows[i]) for i in range(inputs) for o in range(outputs)])
        words = ["old %d, new %d: %s (ground %d): %s." % (g["input"], g["output"], "won" if g["won"] else "lost", g["ground"], g["words"]) for g in found["grounds"]]
        check.same("words of grounds, " + name, words, said.splitlines())
        one, _ = asked("why", "g.game", "0", "0")
        check.same("one ground, " + name, one["grounds"], found["grounds"][:1])


def named(check, command, asked):
    """Names, tables, recordings, bars and kits."""
    found, _ = asked("why", EARLY, "prime", "drain")
    check.same("names", (found["inputs"], found["outputs"]), (["standby", "prime", "drain", "supply"], ["standby", "drain", "supply"]))
    ground = found["grounds"][0]
    check.same("what is named", (ground["ground"], ground["named_input"], ground["named_output"]), (5, 3, None))
    found, said = asked("check", FLUSH, TABLE)
    check.same("check", (found["wins"], found["finding"], found["walk"], found["words"] + "\n"), (True, "wins", [], said))
    found, said = asked("check", FLUSH, str(ROOT / "examples/flush_passed_before.table"))
    shown = [(int(i), int(o), int(c)) for i, o, c in re.findall(r"(?m)^    old (\d+) \w+, new (\d+) \w+, counter (\d+)$", said)]
    check.same("a bad round", (found["finding"], found["begins"], found["requirement"], [tuple(at.values()) for at in found["walk"]]), ("bad round", 1, 0, shown))
    ours = pathlib.Path(TABLE).read_text()
    found, _ = asked("check", FLUSH, command.file("t", ours.replace("(start 0 0)\n", "")))
    check.same("a bad start", (found["finding"], found["input"]), ("bad start", 0))
    found, _ = asked("check", FLUSH, command.file("t", ours.replace("(step 2 0 0 0 0)\n", "")))
    check.same("a bad row", (found["finding"], found["input"], len(found["walk"]) > 0), ("bad row", 0, True))
    for drive, finding in ((DRIVE, ("agree", None, None, None, None)), (STUCK, ("differ", 3, 0, 2, 1)), ("o", ("ended", 2, 0, 0, None)), ("p", ("ended", 6, None, None, 0))):
        command.file("o", "pump flush")
        command.file("p", "0 2 0 2 0 2 0")
        found, said = asked("compare", FLUSH, TABLE, PANEL, drive)
        fields = ("finding", "step", "input", "expected", "recorded")
        check.same("compare " + finding[0], (tuple(found[f] for f in fields), found["agree"], found["words"] + "\n"), (finding, finding[0] == "agree", said))
    found, said = asked("bars", "--map", SERVICE, BARS)
    check.same("bars", (found["bars"], found["won"], found["winner_without_bars"]), ([{"input": 2, "output": 0}, {"input": 2, "output": 1}], [[0, 1, 2], [1, 2], [2]], "system"))
    found, said = asked("kit", PUMPS)
    old, new, give, answer = (found[f] for f in ("inputs", "outputs", "old_commands", "new_commands"))
    lines = ["(wins system)"] + ["(start %s %s)" % (old[i], new[o]) for i, o in found["table"]["starts"]]
    lines += ["(step %s %d %s %s %s %d)" % (new[o], g, old[i], give[c], answer[a], h) for o, g, i, c, a, h in found["table"]["steps"]]
    check.same("kit", lines, said.splitlines())
    lost = pathlib.Path(PUMPS).read_text().replace("(low - - high flush)", "(low - - high -)").replace("(stop ramp - - flush)", "(stop ramp - - -)")
    found, said = asked("kit", command.file("lost.kit", lost))
    lines = ["(step %s %d %s %s %d)" % (old[i], g, new[o], old[j], h) for i, g, o, j, h in found["table"]["steps"]]
    check.same("a kit that the panel wins", (found["winner"], lines), ("environment", said.splitlines()[2:]))
    found, _ = asked("explain", command.file("large.game", counted(64, 64, 8, 0)))
    check.same("refused by the programs", (found["winner"], found["refused_by_programs"]), ("system", 10))


def refused(check, command, asked):
    """Refusals and what cannot be read have an object too."""
    for name, text, said in refusals():
        for words in (["solve"], ["explain"], ["map"], ["why", "--all"]):
            number = int(said.split()[0])
            if number in (9, 10) and words != ["solve"]:
                continue
            found, _ = asked(*words, command.file("r.game", text))
            check.same("%s, %s" % (words, name), (found["error"]["number"], found["error"]["file"], found["status"]), (number, "r.game", 2))
    command.file("bad", "x\n")
    command.file("n.names", '(in 0 "')
    for words, number, file, line in [
        (["why", FLUSH, "0", "9"], 25, FLUSH, None),
        (["why", FLUSH, 'a "quote"\t\u00e9\\', "0"], None, FLUSH, None),
        (["bars", SERVICE, "bad"], None, "bad", 1),
        (["bars", SERVICE, command.file("b", "0 0\n0 7\n")], 29, "b", 2),
        (["bars", EARLY, command.file("c", "\n0 0\n")], 28, "c", 2),
        (["check", FLUSH, "bad"], None, "bad", None),
        (["check", FLUSH, command.file("t", "(wins system)\r\n")], None, "t", 1),
        (["check", FLUSH, command.file("u", "0 0")], 19, "u", None),
        (["compare", FLUSH, TABLE, "bad", "bad"], None, "bad", 1),
        (["compare", FLUSH, TABLE, command.file("i", "0 1 1"), command.file("o", "0 2 0")], 14, "i", 1),
        (["kit", "bad"], None, "bad", 1),
        (["map", "--joined", command.file("33.game", counted(33, 1, 0, 0))], 24, "33.game", None),
        (["explain", "--names", "n.names", FLUSH], None, "n.names", 1),
    ]:
        found, _ = asked(*words)
        error = found["error"]
        check.same("refused: %s" % words, (error["number"], error["file"], error["line"], found["status"]), (number, file, line, 2))
        check.holds("in words: %s" % words, len(error["words"]) > 8, error)
    for words in (["solve", "missing"], ["map", "."], ["check", FLUSH, "missing"], ["compare", FLUSH, TABLE, "missing", "missing"], ["bars", "missing", BARS], ["kit", "missing"], ["why", "missing", "0", "0"], ["explain", "missing"]):
        found, _ = asked(*words)
        check.same("not read: %s" % words, (found["status"], found["error"]["number"], found["error"]["line"]), (3, None, None))
    found, _ = asked("solve", text=EXAMPLE)
    check.same("standard input", found["file"], "standard input")
    got = command.run("why", "--json", FLUSH)
    check.same("wrong use has no object", (got.returncode, got.stdout), (2, b""))
    check.same("kit --json --c", command.run("kit", "--json", "--c", PUMPS).returncode, 2)
    for words in (["solve", FLUSH], ["bars", SERVICE, BARS]):
        line = " ".join([command.command, words[0], "--json", *words[1:]]) + " >/dev/full"
        got = subprocess.run(["bash", "-c", line], capture_output=True, cwd=command.folder)
        check.same("a full output, %s" % words[0], (got.returncode, got.stderr), (3, b"nanpuwiq: standard output: No space left on device\n"))


def catalogues(check, command, asked):
    """Files and pairs, judged and refused: the object says what the lines for other programs say."""
    drives = ROOT / "examples/drives"
    pairs = ["--old", *sorted(map(str, drives.glob("old_*"))), "--new", *sorted(map(str, drives.glob("new_*"))), "missing", "--require", str(drives / "asked.require")]
    for words in ([FLUSH, EARLY, PUMPS, "missing"], pairs, [FLUSH]):
        found, _ = asked("catalogue", *words)
        rows = command.run("catalogue", "--csv", *words).stdout.decode().splitlines()[1:]
        check.same("a game for each line", len(found["games"]), len(rows))
        for game, row in zip(found["games"], rows):
            verdict = {"system": "adapter", "environment": "no adapter", None: "refused"}[game["winner"]]
            check.holds("a line's verdict", row.startswith("%s,%s," % (game["file"] or "%s,%s" % (game["old"], game["new"]), verdict)), (row, game))
            figures = ",".join(map(str, [game["positions"]["won"], game["positions"]["all"], game["entries"]])) if game["positions"] else ",,"
            check.holds("a line's figures", figures in row and (game["error"] is None) == (verdict != "refused"), (row, game))
        check.same("totals", sum(found["totals"][side] for side in ("system", "environment", "refused")), len(rows))
    found, _ = asked("catalogue", *pairs[:-1], "missing")
    check.same("what is asked is missing", (found["status"], found["error"]["file"]), (3, "missing"))


def covered(check, command):
    """Every subcommand with --json has a definition, and every definition of one has a subcommand."""
    names = re.findall(r"^  nanpuwiq ([\w-]+)", command.run("--help").stdout.decode(), re.M)
    given = [name for name in names if "--json" in command.run(name, "--help").stdout.decode()]
    listed = [one["$ref"].removeprefix("#/$defs/") for one in SCHEMA["oneOf"]]
    check.same("definitions", sorted(listed), sorted(given + ["refusal"]))
    check.same("refusals", sorted(SCHEMA["$defs"]["refusal"]["properties"]["command"]["enum"]), sorted(given))
    used = set(re.findall(r'"#/\$defs/(\w+)"', json.dumps(SCHEMA)))
    check.same("all definitions are used", used, set(SCHEMA["$defs"]))
    for wrong in ({}, {"nanpuwiq": "0", "command": "solve", "status": 0, "error": None}, [], None):
        check.holds("the schema refuses %r" % wrong, list(faults(wrong, SCHEMA)))


def main():
    if len(sys.argv) != 2:
        sys.exit("usage: tests/command_json.py NANPUWIQ")
    check = Checks("command, objects")
    with tempfile.TemporaryDirectory() as folder:
        command = Command(os.path.abspath(sys.argv[1]), folder)
        asked = Asked(check, command)
        games(check, command, asked)
        named(check, command, asked)
        refused(check, command, asked)
        catalogues(check, command, asked)
        covered(check, command)
    check.end()


if __name__ == "__main__":
    main()
