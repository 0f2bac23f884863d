#!/usr/bin/env python3
"""Runs the solve program on files and compares what it prints, byte for byte, with what document 01 says.

    tests/program.py SOLVE

Every NAME.game of tests/prints and examples is run and held to NAME.print. The prints of cases 1 to 8 are those of the proved
table in crates/check_cases. Then come the refusals that a file can cause, drives that latch, and what a person may do to a program: give
it nothing, a binary file, or an output that is full or closed. The last line says how many passed and how many failed."""

import os
import pathlib
import pty
import subprocess
import sys

ROOT = pathlib.Path(__file__).resolve().parent.parent
LIMIT = 20  # seconds; a program that is slower hangs


def answer(solve, text):
    return subprocess.run([solve], input=text, capture_output=True, timeout=LIMIT).stdout


def state(word, number, initial, moves):
    return "(%s %d %d (%s))\n" % (word, number, initial, " ".join(map(str, moves)))


def game(inputs, outputs, requirements):
    """A game's text from rows of (initial, moves) and lines of requirements."""
    lines = ["(game %d %d %d)\n" % (len(inputs), len(outputs), len(requirements))]
    lines += [state("in", s, f, row) for s, (f, row) in enumerate(inputs)]
    lines += [state("out", s, f, row) for s, (f, row) in enumerate(outputs)]
    lines += ["(if (%s) (%s))\n" % sides for sides in requirements]
    return "".join(lines).encode()


ONE = [(1, [0])]
TWO = [(1, [0, 1]), (0, [0, 1])]
EXAMPLE = game(TWO, TWO, [("(1)", "(1)")])


def full(states):
    """A graph in which every state moves to every state, all of them initial."""
    return [(1, list(range(states))) for _ in range(states)]


def apart(states):
    """A graph in which every state moves to itself alone, all of them initial."""
    return [(1, [s]) for s in range(states)]


def counted(inputs, outputs, input_sets, output_sets):
    """A game of full graphs with so many sets, four at most to a requirement."""
    lines = []
    while input_sets or output_sets:
        a, b = min(4, input_sets), min(4, output_sets)
        input_sets, output_sets = input_sets - a, output_sets - b
        lines.append((" ".join(["(0)"] * a), " ".join(["(0)"] * b)))
    return game(full(inputs), full(outputs), lines)


def longest():
    """A long text: 64 states each, every row and every set holds all of them."""
    all_states = "(" + " ".join(map(str, range(64))) + ")"
    four = " ".join([all_states] * 4)
    return game(full(64), full(64), [(four, four)] * 8)


def refusals():
    """Files that are refused: a name, the bytes and the line printed."""
    yield "11, empty file", b"", "11 0"
    yield "11, a byte after the last line", EXAMPLE + b"\n", "11 %d" % len(EXAMPLE)
    yield "11, no byte 10 at the end", EXAMPLE[:-1], "11 %d" % (len(EXAMPLE) - 1)
    yield "11, a first word alone", b"(game", "11 5"
    yield "11, a leading zero", b"(game 02 2 1)\n", "11 6"
    yield "11, two blanks", b"(game  2 2 1)\n", "11 6"
    yield "11, 129 states", b"(game 129 2 1)\n", "11 8"
    yield "11, 65 states and no more", b"(game 65 2 1)\n", "11 14"
    yield "11, a move to 128", game([(1, [128])], ONE, []), "11 %d" % (len("(game 1 1 0)\n(in 0 1 (12"))
    yield "2, a move to 127", game([(1, [127])], ONE, []), "2"
    yield "11, nine requirements", b"(game 2 2 9)\n", "11 10"
    yield "11, a row out of turn", b"(game 2 2 0)\n(in 1 1 (0))\n", "11 17"
    yield "11, moves that fall", EXAMPLE.replace(b"(in 0 1 (0 1))", b"(in 0 1 (1 0))"), "11 24"
    yield "11, a move twice", EXAMPLE.replace(b"(in 0 1 (0 1))", b"(in 0 1 (0 0))"), "11 24"
    yield "11, a fifth set", EXAMPLE.replace(b"((1)))", b"((1) () () () ()))"), "11 %d" % (len(EXAMPLE) + 6)
    yield "11, a binary file", bytes(range(256)) * 64, "11 0"
    yield "11, a binary file after a good front", EXAMPLE[:20] + bytes(256), "11 20"
    yield "12, 40,961 bytes", b"(" * 40961, "12"
    yield "11, 40,960 bytes", b"(" * 40960, "11 1"
    yield "12, a long file", b"\0" * 1000000, "12"
    yield "2, a move past the count", game([(1, [1])], ONE, []), "2"
    yield "2 before 3 of the other graph", game([(0, [0])], [(1, [63])], []), "2"
    yield "3, no initial state", game(ONE, [(0, [0])], []), "3"
    yield "3 beside a dead end", game([(1, [])], [(0, [0])], []), "3"
    yield "3 before 7", game(ONE, [(0, [0])], [("(1)", "")]), "3"
    yield "2 beside a dead end", game([(1, [])], [(1, [1])], []), "2"
    yield "7 beside dead ends", game([(1, [])], [(1, [])], [("(1)", "")]), "7"
    yield "7, an input set past the count", game(ONE, TWO, [("(1)", "")]), "7"
    yield "7, an output set past the count", game(TWO, ONE, [("", "(1)")]), "7"
    yield "9, 64 x 64 with eight output sets", counted(64, 64, 0, 8), "9"
    yield "10, 64 x 64 with eight input sets", counted(64, 64, 8, 0), "10"
    yield "9 before 10", counted(64, 64, 8, 8), "9"
    yield "9, a long text", longest(), "9"
    yield "12, a game of 128 x 128 with every move", game(full(128), full(128), []), "12"
    yield "9, 128 x 128 with two output sets", game(apart(128), apart(128), [("", "(127) (0)")]), "9"
    yield "10, 128 x 128 with two input sets", game(apart(128), apart(128), [("(127) (0)", "")]), "10"


def latches():
    """Files with states that have no move, which are accepted: a name, the bytes and what is printed."""
    broken = [("", "()")]  # every loop breaks it
    all_stuck = [(1, [])] * 64
    first = b"(wins system)\n(start 0 0)\n"
    yield "stuck input", game([(1, [])], ONE, broken), first + b"(step 0 0 0 0 0)\n"
    yield "stuck output", game(ONE, [(1, [])], []), b"(wins environment)\n(start 0)\n(step 0 0 0 0 0)\n"
    yield "both stuck", game([(1, [])], [(1, [])], broken), first
    yield "a way to a stuck input", game([(1, [0, 1]), (0, [])], ONE, []), first + b"(step 0 0 0 0 0)\n(step 0 0 1 0 0)\n"
    yield "driven into a stuck output", game(ONE, [(1, [1]), (0, [])], []), b"(wins environment)\n(start 0)\n(step 0 0 0 0 0)\n(step 0 0 1 0 0)\n"
    yield "64 x 64, every state stuck", game(all_stuck, all_stuck, []), b"(wins system)\n" + b"".join(b"(start %d 0)\n" % i for i in range(64))


def prints():
    """The games that stand in files, with the prints that stand beside them."""
    for folder in ("tests/prints", "examples"):
        for file in sorted((ROOT / folder).glob("*.game")):
            yield "%s/%s" % (folder, file.name), file.read_bytes(), file.with_suffix(".print").read_bytes()


def rooms_filled(solve):
    """64 x 64 with seven output sets: 28,736 of 32,768 entries, each row printed."""
    return answer(solve, counted(64, 64, 0, 7)).count(b"(step ") == 64 * 7 * 64


WAITING = b"solve: waiting for a game's text on standard input (Ctrl-D ends it)\n"
UNREAD = b"solve: standard input cannot be read\n"
UNWRITTEN = b"solve: standard output cannot be written\n"


def said(solve, redirect):
    """What the program says on standard error with its input or output elsewhere."""
    with open(ROOT / "tests/prints/case_8.game", "rb") as given:
        return subprocess.run("%s %s" % (solve, redirect), shell=True, stdin=given, capture_output=True, timeout=LIMIT, cwd=ROOT).stderr


def typed(program, text, **how):
    """What a program prints and says where a person types its standard input and ends it once."""
    person, terminal = pty.openpty()
    running = subprocess.Popen([program], stdin=terminal, stdout=subprocess.PIPE, stderr=subprocess.PIPE, **how)
    os.close(terminal)
    os.write(person, text + b"\x04")
    try:
        return running.communicate(timeout=LIMIT)
    except subprocess.TimeoutExpired:
        running.kill()
        return running.communicate()
    finally:
        os.close(person)


def main():
    if len(sys.argv) != 2:
        sys.exit("usage: tests/program.py SOLVE")
    solve = str(pathlib.Path(sys.argv[1]).resolve())
    checks = [(name, answer(solve, text) == print_) for name, text, print_ in prints()]
    checks += [(name, answer(solve, text) == b"(refused %s)\n" % line.encode()) for name, text, line in refusals()]
    checks += [(name, answer(solve, text) == print_) for name, text, print_ in latches()]
    checks.append(("the longest text has 36,739 bytes", len(longest()) == 36739))
    checks.append(("a room almost filled", rooms_filled(solve)))
    checks.append(("nothing said", said(solve, "") == b""))
    checks.append(("a full output", said(solve, "> /dev/full") == UNWRITTEN))
    checks.append(("a closed output", said(solve, ">&-") == UNWRITTEN))
    checks.append(("an output nobody reads", said(solve, "| true") == b""))
    checks.append(("a closed input", said(solve, "<&-") == UNREAD))
    checks.append(("an input that is a folder", said(solve, "< tests") == UNREAD))
    checks.append(("an input that is typed", typed(solve, EXAMPLE) == (answer(solve, EXAMPLE), WAITING)))
    checks.append(("an input that ends", said(solve, "< /dev/null") == b""))
    for name, good in checks:
        if not good:
            print("FAILED:", name)
    failed = sum(not good for _, good in checks)
    print("program: %d passed, %d failed" % (len(checks) - failed, failed))
    sys.exit(failed != 0)


if __name__ == "__main__":
    main()
