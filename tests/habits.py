#!/usr/bin/env python3
"""What people expect of a command: help, completion, words where a terminal is waited for, statuses, and files that were handed to the wrong subcommand.

    tests/habits.py NANPUWIQ

Completion is asked of bash by its own function; zsh and fish check the syntax of theirs, and fish completes too. A shell or graphviz that is not there is passed
over with a word. The last line says how many passed and how many failed."""

import os
import pathlib
import pty
import re
import select
import shutil
import subprocess
import sys
import tempfile
import time

from checks import Checks
from command import Command
from program import ROOT

EXAMPLES = ROOT / "examples"
FLUSH, EARLY, PUMPS = (str(EXAMPLES / name) for name in ("flush.game", "too_early.game", "pumps.kit"))


def subcommands(command):
    """The subcommands with their options, by their help."""
    names = dict.fromkeys(re.findall(r"^  nanpuwiq (\w+)", command.run("--help").stdout.decode(), re.M))
    return {name: sorted(set(re.findall(r"(?<![\w-])--[a-z]+(?:-[a-z]+)*", command.run(name, "--help").stdout.decode()))) for name in names}


def helps(check, command, known):
    check.holds("subcommands", len(known) > 8 and "catalogue" in known, known)
    for name in known:
        told = command.run(name, "--help")
        got = command.run("help", name)
        check.same("help " + name, (got.stdout, got.returncode), (told.stdout, 0))
        check.holds("help of %s begins with its use" % name, got.stdout.startswith(b"nanpuwiq %s" % name.encode()), got.stdout[:80])
        long = [line for line in got.stdout.decode().splitlines() if len(line) > 160]
        check.same("help of %s, lines" % name, long, [])
    check.same("help", command.run("help").stdout, command.run("--help").stdout)
    for words in (["help", "up"], ["help", "solve", "map"]):
        got = command.run(*words)
        check.holds("nanpuwiq %s" % " ".join(words), got.returncode == 2 and got.stdout == b"" and b"nanpuwiq --help" in got.stderr, got)


class Terminal:
    """A command on a terminal of its own."""

    def __init__(self, words, folder):
        self.pid, self.end = pty.fork()
        if self.pid == 0:
            os.chdir(folder)
            os.execv(words[0], words)

    def read(self, until, seconds=10):
        """What is shown, up to these words."""
        shown, limit = b"", time.monotonic() + seconds
        while until not in shown and time.monotonic() < limit:
            if select.select([self.end], [], [], 0.1)[0]:
                try:
                    shown += os.read(self.end, 4096)
                except OSError:
                    break
        return shown

    def write(self, text):
        os.write(self.end, text)

    def status(self):
        status = os.waitstatus_to_exitcode(os.waitpid(self.pid, 0)[1])
        os.close(self.end)
        return status


def waits(check, command):
    """A command that waits on a terminal says for what, and the end of the input ends it."""
    game = pathlib.Path(FLUSH).read_bytes()
    for words, said, typed, answer in [
        (["solve"], b"reading from this terminal: type or paste the text", game, b"(wins system)"),
        (["explain", "-"], b"reading from this terminal", game, b"An adapter exists"),
        (["map", "-"], b"reading from this terminal", game, b"won with new"),
        (["format", "-"], b"reading from this terminal", game, b"(game 2 3 1)"),
        (["kit", "-"], b"reading from this terminal", b"(old-commands a)(old x 1 (x))(new-commands a)(new y 1 (y))\n", b"(start x y)"),
        (["catalogue"], b"reading names of game files from this terminal", FLUSH.encode() + b"\n", b"1 file: 1 with an adapter"),
    ]:
        terminal = Terminal([command.command, *words], command.folder)
        shown = terminal.read(said)
        check.holds("%s says what it waits for" % words, said in shown and b"Ctrl-D" in shown + terminal.read(b"Ctrl-D", 1), shown)
        terminal.write(typed + b"\x04")
        shown = terminal.read(answer)
        check.holds("%s answers" % words, answer in shown, shown)
        terminal.read(b"\0", 1)
        check.same("%s ends" % words, terminal.status(), 0)
    for words in (["solve", FLUSH], ["catalogue", FLUSH]):
        terminal = Terminal([command.command, *words], command.folder)
        shown = terminal.read(b"\0")
        check.holds("%s waits for nothing" % words, b"reading" not in shown, shown)
        check.same("%s, status" % words, terminal.status(), 0)
    check.holds("a pipe is read without a word", command.run("solve", text=game).stderr == b"")


def statuses(check, command):
    """1 is said only where it is asked whether an adapter exists, or where there is none to export."""
    drives = EXAMPLES / "drives"
    pair = ["--old", drives / "old_flushing.drive", "--new", drives / "new_latch.drive", "--require", drives / "asked.require"]
    lost = (EXAMPLES / "pumps.kit").read_text().replace("(low - - high flush)", "(low - - high -)").replace("(stop ramp - - flush)", "(stop ramp - - -)")
    command.file("lost.kit", lost)
    for words, status in [
        (["solve", EARLY], 1),
        (["explain", EARLY], 1),
        (["map", EARLY], 1),
        (["kit", "lost.kit"], 1),
        (["draw", EARLY], 0),
        (["draw", "--position", "0", "0", EARLY], 0),
        (["kit", "--game", "lost.kit"], 0),
        (["kit", "--game-names", "lost.kit"], 0),
        (["format", EARLY], 0),
        (["catalogue", EARLY], 0),
        (["catalogue", *map(str, pair)], 0),
        (["export", "--c", FLUSH], 0),
        (["export", "--c", EARLY], 1),
        (["kit", "--st", "lost.kit"], 1),
    ]:
        got = command.run(*words)
        check.same("status of %s" % words, got.returncode, status)
        check.same("print of %s" % words, got.stdout != b"", (words[0], status) not in (("export", 1),) and words[:2] != ["kit", "--st"])


def meant(check, command):
    """A file of another kind, a comment and a name are told what reads them."""
    game = pathlib.Path(FLUSH).read_text()
    print_, names = (str(EXAMPLES / name) for name in ("flush.print", "flush.names"))
    drive, asked = (str(EXAMPLES / "drives" / name) for name in ("new_latch.drive", "asked.require"))
    for words, said in [
        (["explain", PUMPS], "this is a kit's file, which 'nanpuwiq kit' reads"),
        (["solve", PUMPS], "'nanpuwiq kit --game' writes its game"),
        (["explain", names], "this is a file of names, which stands beside a game's file or is given with --names"),
        (["map", print_], "this is the print of an answer, which 'nanpuwiq check GAME TABLE' reads"),
        (["draw", drive], "'nanpuwiq catalogue --old DRIVE --new DRIVE' reads it"),
        (["explain", command.file("d.dot", "digraph { a -> b }\n")], "'nanpuwiq format' reads"),
        (["explain", command.file("t.csv", "from,to\n0,1\n")], "'nanpuwiq format --old TABLE --new TABLE' reads"),
        (["kit", FLUSH], "this is a game's file, which 'nanpuwiq explain' and 'nanpuwiq solve' read"),
        (["kit", names], "this is a file of names"),
        (["kit", drive], "this is a drive's file"),
        (["format", asked], "the inputs are missing"),
        (["explain", command.file("c1.game", "# first\n" + game)], "c1.game:1:1: a comment: a game's file has none; 'nanpuwiq format' writes the game without it"),
        (["explain", command.file("c2.game", game.replace("(in 1 0 (0))", "(in 1 0 (0)) ; flush"))], "c2.game:3:13: a comment"),
        (["explain", command.file("c3.game", game.replace("(in 1 0 (0))", "(in 1 0 (0)) // flush"))], "c3.game:3:13: a comment"),
        (["explain", command.file("n1.game", game.replace("(in 0", "(in pump"))], "n1.game:2:5: a name: a game's file has numbers alone"),
        (["explain", command.file("n2.game", game.replace("((1)) ((2))", "((flush)) ((2))"))], "n2.game:7:7: a name: a game's file has numbers alone"),
        (["explain", command.file("n3.game", game.replace("((2))", "((spülen))").replace("((spülen))", "((ülen))"))], "n3.game:7:13: a name"),
        (["explain", command.file("r.game", game.replace("\n", "\r\n"))], "'nanpuwiq format' writes it so"),
    ]:
        got = command.run(*words)
        check.holds("%s: %s" % (words, said), got.returncode == 2 and said in (got.stdout + got.stderr).decode(), got)


def languages(check, command):
    """Names in letters of any language, in files, in answers and in code."""
    command.file("l.game", pathlib.Path(FLUSH).read_text())
    names = {"German": ("Spülen", "Größe"), "Russian": ("насос", "промывка"), "Greek": ("αντλία", "πλύση"), "Chinese": ("泵", "冲洗"), "Hindi": ("हिन्दी", "धोना"), "Arabic": ("مضخة", "غسل"), "Thai": ("ปั๊ม", "ล้าง"), "Vietnamese": ("bơm", "rửa")}
    for language, (one, two) in names.items():
        command.file("l.names", "(in 0 %s)\n(in 1 %s)\n(out 2 %s)\n" % (one, two, two))
        told = command.run("explain", "l.game").stdout.decode()
        check.holds("%s in words" % language, "The panel begins in %s" % one in told and "if %s recurs in the old drive, then %s recurs" % (two, two) in told, told)
        check.same("%s, a position" % language, command.run("draw", "--position", one, "2", "l.game").returncode, 0)
        check.holds("%s, capital letters" % language, command.run("draw", "--position", one.upper(), two.upper(), "l.game").returncode == 0 or one.upper().lower() != one, language)
        code = command.run("export", "--c", "l.game").stdout
        built = subprocess.run(["gcc", "-x", "c", "-std=c11", "-Wall", "-Werror", "-c", "-o", os.devnull, "-"], input=code, capture_output=True)
        # the name itself stands in a comment, and nowhere else
        bare = re.sub(rb"/\*.*?\*/", b"", code, flags=re.S)
        check.same("%s in C" % language, (built.returncode, built.stderr, bare.isascii(), one.encode() in code), (0, b"", True, True))
        block = command.run("export", "--st", "l.game").stdout
        check.holds("%s in Structured Text" % language, re.sub(rb"\(\*.*?\*\)", b"", block, flags=re.S).isascii() and one.encode() in block)
        kit = (EXAMPLES / "pumps.kit").read_text().replace("low", one).replace("flush", two)
        got = command.run("kit", command.file("l.kit", kit))
        check.holds("%s in a kit" % language, got.returncode == 0 and "(step %s " % one in got.stdout.decode(), got)
        built = subprocess.run(["gcc", "-x", "c", "-std=c11", "-Wall", "-Werror", "-c", "-o", os.devnull, "-"], input=command.run("kit", "--c", "l.kit").stdout, capture_output=True)
        check.same("%s, a kit in C" % language, (built.returncode, built.stderr), (0, b""))
    for name, why in [("a b", "two words"), ("2fach", "a digit first"), ("a“b", "a quotation mark"), ("a​b", "a blank without width"), ("−", "a sign"), ("ü" * 33, "33 letters")]:
        got = command.run("explain", "--names", command.file("b.names", "(in 0 %s)" % name), "l.game")
        check.same("no name: " + why, (got.returncode, got.stdout), (2, b""))
    got = command.run("explain", "--names", command.file("b.names", "(in 0 Ü)\n(in 1 ü)"), "l.game")
    check.holds("the same in other letters", got.returncode == 2 and b"b.names:2:7: two inputs with the name" in got.stderr, got)


BASH = r"""
. "$1"
COMP_WORDS=(nanpuwiq "${@:2}"); COMP_CWORD=$(($# - 1)); COMPREPLY=()
compopt() { :; }
_nanpuwiq
printf '%s\n' "${COMPREPLY[@]}"
"""


def completions(check, command, known):
    for shell in ("bash", "zsh", "fish"):
        got = command.run("completion", shell)
        text = command.file("completion." + shell, got.stdout)
        check.same("completion " + shell, (got.returncode, got.stderr), (0, b""))
        for name, options in known.items():
            for option in options:
                word = option[2:] if shell == "fish" else option
                check.holds("%s: %s %s" % (shell, name, option), re.search(r"(?<![\w-])%s(?![\w-])" % re.escape(word), got.stdout.decode()), name)
        if not shutil.which(shell):
            print("habits: %s is not there: its script is not tried" % shell)
        else:
            words = [shell, "--no-execute", text] if shell == "fish" else [shell, "-n", text]
            tried = subprocess.run(words, capture_output=True, cwd=command.folder)
            check.same("syntax for " + shell, (tried.returncode, tried.stderr), (0, b""))
    for words in (["completion"], ["completion", "csh"]):
        check.same("nanpuwiq %s" % words, command.run(*words).returncode, 2)
    in_bash(check, command, known)
    if shutil.which("fish"):
        in_fish(check, command, known)
    if shutil.which("zsh"):
        loaded = "autoload -U compinit && compinit -u -d zdump && . ./completion.zsh && print -r -- $_comps[nanpuwiq]"
        got = subprocess.run(["zsh", "-fc", loaded], capture_output=True, cwd=command.folder)
        check.same("zsh takes it", (got.stdout, got.stderr), (b"_nanpuwiq\n", b""))


def in_bash(check, command, known):
    """The very function that bash calls."""
    def completed(*words):
        got = subprocess.run(["bash", "-c", BASH, "bash", "./completion.bash", *words], capture_output=True, cwd=command.folder)
        check.same("bash says nothing at %s" % (words,), got.stderr, b"")
        return sorted(got.stdout.decode().split("\n")[:-1])

    check.same("first words", completed(""), sorted([*known, "help", "--help", "--version"]))
    check.same("a first letter", completed("ca"), ["catalogue"])
    check.same("help", completed("help", ""), sorted(known))
    check.same("shells", completed("completion", ""), ["--help", "bash", "fish", "zsh"])
    for name, options in known.items():
        check.same("options of " + name, completed(name, "--"), sorted({*options, "--help"}))
    command.file("old one.drive", "")
    check.same("files", completed("solve", "old"), ["old one.drive"])
    check.same("files of an option", completed("catalogue", "--old", "old"), ["old one.drive"])


def in_fish(check, command, known):
    def completed(line):
        script = "source completion.fish; complete -C '%s'" % line
        got = subprocess.run(["fish", "-N", "-c", script], capture_output=True, cwd=command.folder, env=dict(os.environ, HOME=str(command.folder)))
        check.same("fish says nothing at %r" % line, got.stderr, b"")
        return [word.split("\t")[0] for word in got.stdout.decode().splitlines()]

    check.holds("first words in fish", set(known) | {"help"} <= set(completed("nanpuwiq ")), completed("nanpuwiq "))
    check.holds("options in fish", {"--old", "--new", "--require", "--csv"} <= set(completed("nanpuwiq catalogue --")), completed("nanpuwiq catalogue --"))


def pictures(check, command):
    """Graphviz draws the old drive above the new one, and the legend under both."""
    if not shutil.which("dot"):
        print("habits: graphviz is not there: no picture is drawn")
        return
    for game in sorted(EXAMPLES.glob("*.game")):
        if game.name == "station.game":
            continue
        for words in ([], ["--position", "0", "0"]):
            drawn = subprocess.run(["dot", "-Tplain"], input=command.run("draw", *words, str(game)).stdout, capture_output=True)
            check.same("dot says nothing, " + game.name, drawn.stderr, b"")
            heights = {"in": [], "out": [], "legend": []}
            for name, height in re.findall(r"^node (\w+) \S+ (\S+)", drawn.stdout.decode(), re.M):
                kind = re.match(r"(in|out|legend)(?:\d+)?$", name)
                if kind:
                    heights[kind[1]].append(float(height))
            check.holds("%s from above" % game.name, min(heights["in"]) > max(heights["out"]) and min(heights["out"]) > max(heights["legend"]), heights)


def main():
    if len(sys.argv) != 2:
        sys.exit("usage: tests/habits.py NANPUWIQ")
    check = Checks("habits")
    with tempfile.TemporaryDirectory() as folder:
        command = Command(os.path.abspath(sys.argv[1]), folder)
        known = subcommands(command)
        helps(check, command, known)
        waits(check, command)
        statuses(check, command)
        meant(check, command)
        languages(check, command)
        completions(check, command, known)
        pictures(check, command)
    check.end()


if __name__ == "__main__":
    main()
