"""The package beside the prints of the repository, the Rust crate's names and itself.

    NANPUWIQ_LIB=FOLDER-OF-libnanpuwiq.so python3 -m unittest discover -s bindings/python/tests -t bindings/python"""

import inspect
import pathlib
import random
import re
import typing
import unittest

import nanpuwiq
from nanpuwiq import (
    BARRED, NONE, STATES, Bars, Checked, Comparison, Drive, Error, Game, Graph, Ground, InRecording, InState, Kit, OutRecording, OutState, Position,
    PrintError, PrintFault, Requirement, Winner,
)  # fmt: skip

ROOT = pathlib.Path(__file__).resolve().parents[3]
EXAMPLES = ROOT / "examples"


def games():
    for folder in (EXAMPLES, ROOT / "tests" / "prints"):
        for file in sorted(folder.glob("*.game")):
            yield file, Game.read(file.read_bytes())


def printed(game, verdict):
    """What solve prints of a verdict."""
    inputs, outputs = game.input.states, game.output.states
    if verdict.winner is Winner.System:
        lines = ["(start %d %d)" % (i, e % STATES) for i, e in enumerate(verdict.table[:inputs]) if e != NONE]
        rows, states, width = verdict.table[inputs:], outputs, inputs
    else:
        lines = ["(start %d)" % (verdict.table[0] % STATES)]
        rows, states, width = verdict.table[1:], inputs, outputs
    counters = len(rows) // states // width
    for row, entry in enumerate(rows):
        if entry != NONE:
            at = (row // width // counters, row // width % counters, row % width)
            lines.append("(step %d %d %d %d %d)" % (*at, entry % STATES, entry // STATES))
    return "(wins %s)\n" % verdict.winner.value + "".join(line + "\n" for line in lines)


def refused(number, function, *values):
    try:
        function(*values)
    except Error as error:
        return error.number == number
    return False


class Solving(unittest.TestCase):
    def test_prints(self):
        for file, game in games():
            with self.subTest(file.name):
                self.assertEqual(printed(game, game.solve()), file.with_suffix(".print").read_text())
                self.assertEqual(game.write(), file.read_bytes())
                self.assertEqual(Game.read(file.read_text()), game)

    def test_maps_and_grounds(self):
        for file, game in games():
            with self.subTest(file.name):
                won = game.won_map()
                if max(game.input.states, game.output.states) <= 32:
                    self.assertEqual(game.joined_map(), won)
                else:
                    self.assertTrue(refused(24, game.joined_map))
                self.assertEqual(game.barred_map(Bars.none(game.input.states)), won)
                self.assertTrue(refused(1, Bars.none, 2**40))
                grounds = game.explain_all()
                if len(grounds) <= 400:
                    positions = [(InState(i), OutState(o)) for i in range(game.input.states) for o in range(game.output.states)]
                    self.assertEqual(grounds, [game.explain(i, o) for i, o in positions])
                told = [ground.is_won() for ground in grounds]
                self.assertEqual(told, [o in won[i] for i in range(game.input.states) for o in range(game.output.states)])
                self.assertTrue(all(str(ground).startswith("won: " if ground.is_won() else "lost: ") for ground in grounds))

    def test_words_of_a_ground(self):
        game = Game.read((EXAMPLES / "flush.game").read_bytes())
        ground = game.explain(InState(0), OutState(1))
        self.assertEqual(ground, Ground.Unserved(0, 0))
        self.assertEqual(str(ground), "lost: requirement 0 is due, and the outputs here never visit its output set 0")
        self.assertEqual(game.explain(InState(0), OutState(0)), Ground.AtHome(OutState(0)))
        self.assertTrue(refused(25, game.explain, InState(2), OutState(0)))
        self.assertTrue(refused(25, game.explain, InState(0), OutState(-1)))

    def test_layouts(self):
        for file, game in games():
            verdict = game.solve()
            compact = game.solve_compact()
            with self.subTest(file.name):
                self.assertEqual(compact.winner, verdict.winner)
                if verdict.winner is Winner.Environment:
                    continue
                self.assertEqual(game.to_compact(verdict.table), compact.table)
                self.assertEqual(game.to_full(compact.table), verdict.table)
                table = game.compact_table(compact.table)
                counters = (len(verdict.table) - game.input.states) // game.input.states // game.output.states
                for i in range(game.input.states):
                    self.assertEqual(table.start(InState(i)), verdict.table[i])
                    for o in range(game.output.states):
                        for g in range(counters):
                            entry = verdict.table[game.input.states * (1 + o * counters + g) + i]
                            self.assertEqual(table.row(OutState(o), g, InState(i)), entry)
                self.assertEqual(table.row(OutState(game.output.states), 0, InState(0)), NONE)
                self.assertTrue(refused(23, game.to_compact, verdict.table[1:]))


class Playing(unittest.TestCase):
    def test_controller(self):
        picks = random.Random(1)
        for file, game in games():
            verdict = game.solve()
            if verdict.winner is not Winner.System:
                continue
            with self.subTest(file.name):
                first = InState(min(game.input.initial))
                at = game.begin(verdict.table, first)
                inputs, outputs = [at.input.number], [at.output.number]
                for _ in range(100):
                    moves = sorted(game.input.moves[at.input.number])
                    if not moves:
                        break
                    to = InState(picks.choice(moves))
                    after = game.step(verdict.table, at, to)
                    self.assertEqual(game.advance(verdict.table, at, to), after)
                    self.assertIn(after.output.number, game.output.moves[at.output.number])
                    at = after
                    inputs.append(at.input.number)
                    outputs.append(at.output.number)
                seen = InRecording(bytes(inputs)), OutRecording(bytes(outputs))
                self.assertEqual(game.compare(verdict.table, *seen), Comparison.Agree())
                self.assertEqual(game.compare(verdict.table, seen[0], OutRecording(seen[1].states[:-1])), Comparison.Ended(len(outputs) - 1))
                other = OutRecording(bytes([(outputs[0] + 1) % 128]) + seen[1].states[1:])
                self.assertEqual(game.compare(verdict.table, seen[0], other), Comparison.Differ(0))
                self.assertEqual(game.compare(verdict.table, InRecording(b"\x7f"), OutRecording(b"")), Comparison.Fault(0, 14))
                self.assertTrue(refused(14, game.begin, verdict.table, InState(128)))
                self.assertTrue(refused(16, game.begin, verdict.table[1:], first))

    def test_panel(self):
        picks = random.Random(2)
        for file, game in games():
            verdict = game.solve()
            if verdict.winner is not Winner.Environment:
                continue
            with self.subTest(file.name):
                first = game.panel_first(verdict.table)
                at = game.panel_begin(verdict.table, OutState(min(game.output.initial)))
                self.assertEqual((at.input, at.counter), (first.input, first.counter))
                for _ in range(100):
                    moves = sorted(game.output.moves[at.output.number])
                    if not moves:
                        break
                    pick = game.panel_next(verdict.table, at)
                    at = game.panel_step(verdict.table, at, OutState(picks.choice(moves)))
                    self.assertEqual((at.input, at.counter), (pick.input, pick.counter))

    def test_sides_are_not_exchanged(self):
        game = Game.read((EXAMPLES / "flush.game").read_bytes())
        table = game.solve().table
        self.assertRaises(TypeError, game.explain, OutState(0), InState(0))
        self.assertRaises(TypeError, game.begin, table, OutState(0))
        self.assertRaises(TypeError, game.begin, table, 0)
        self.assertRaises(TypeError, game.step, table, Position(OutState(0), InState(0), 0), InState(0))
        self.assertRaises(TypeError, game.compare, table, OutRecording(b""), InRecording(b""))


class Tables(unittest.TestCase):
    def test_check(self):
        game = Game.read((EXAMPLES / "flush.game").read_bytes())
        table = game.entries_of_print((EXAMPLES / "flush.print").read_bytes())
        self.assertEqual(table, game.solve().table)
        self.assertEqual(game.check(table), (Checked.Wins(), []))
        found, walk = game.check(game.entries_of_print((EXAMPLES / "flush_passed_before.table").read_bytes()))
        self.assertIsInstance(found, Checked.BadRound)
        self.assertEqual((found.requirement, found.walk), (0, len(walk)))
        self.assertEqual(walk[found.begins], walk[-1])
        self.assertEqual(game.check([NONE] * len(table))[0], Checked.BadStart(InState(0)))
        self.assertEqual(game.check(table[:2] + [NONE] * 6)[0], Checked.BadRow(1, InState(0)))
        self.assertTrue(refused(19, game.check, table[1:]))
        self.assertRaises(ValueError, game.check, [70000])

    def test_prints_that_are_none(self):
        game = Game.read((EXAMPLES / "flush.game").read_bytes())
        for text, line, fault in (
            ("(wins environment)\n", 1, PrintFault.NotTheSystems),
            ("(wins system)\n(start 0)\n", 2, PrintFault.NotALine),
            ("(wins system)\n(start 0 00)\n", 2, PrintFault.NotALine),
            ("(wins system)\n(start 0 0)", 2, PrintFault.NotALine),
            ("(wins system)\n(start 0 0)\n(start 0 1)\n", 3, PrintFault.Twice),
            ("(wins system)\n(start 2 0)\n", 2, PrintFault.NoSuchRow),
            ("(wins system)\n(step 0 1 0 0 0)\n", 2, PrintFault.NoSuchRow),
            ("(wins system)\n(start 0 128)\n", 2, PrintFault.NoEntry),
        ):
            with self.subTest(text), self.assertRaises(PrintError) as caught:
                game.entries_of_print(text)
            self.assertEqual((caught.exception.line, caught.exception.fault), (line, fault))

    def test_bars(self):
        game = Game.read((EXAMPLES / "service.game").read_bytes())
        bars = Bars.new(3, [(InState(2), OutState(0)), (InState(2), OutState(1))])
        self.assertTrue(game.barred_verdict(bars))
        self.assertEqual(game.barred_map(bars), [{0, 1, 2}, {1, 2}, {2}])
        game = Game.read((EXAMPLES / "service_unannounced.game").read_bytes())
        self.assertFalse(game.barred_verdict(Bars.new(2, [(InState(1), OutState(0)), (InState(1), OutState(1))])))
        self.assertTrue(refused(29, Bars.new, 2, [(InState(2), OutState(0))]))
        self.assertTrue(refused(8, game.barred_map, Bars.none(1)))


class Records(unittest.TestCase):
    def test_refusals(self):
        graph = Graph.new([0], [[0]])
        for number, function, *values in (
            (1, Graph.new, [0], []),
            (1, Graph.new, [0], [[0]] * 129),
            (2, Graph.new, [0], [[1]]),
            (2, Graph.new, [1], [[0]]),
            (3, Graph.new, [], [[0]]),
            (5, Game.new, graph, graph, [Requirement.new([], [])] * 9),
            (6, Requirement.new, [[0]] * 5, []),
            (7, Requirement.new, [[128]], []),
            (7, Game.new, graph, graph, [Requirement.new([[1]], [])]),
            (1, Game(Graph(frozenset(), ()), graph, ()).solve),
            (6, Game(graph, graph, (Requirement((frozenset(),) * 5, ()),)).won_map),
            (11, Game.read, b"(game 1 1 0"),
            (12, Game.read, b" " * 40_961),
            (17, Drive.new, [0], [[]]),
            (18, Drive.new, [0], [[1]]),
        ):
            with self.subTest(number=number):
                self.assertTrue(refused(number, function, *values))

    def test_words(self):
        self.assertEqual(str(Error(3)), "refused 3: no initial state")
        self.assertEqual(str(Error(11, 20)), "refused 11 20: bytes that are no game's text")
        listed = re.findall(r'^NANPUWIQ_WORDS\((\d+), "(.*)"\)$', (ROOT / "include/nanpuwiq_words.h").read_text(), re.M)
        self.assertEqual([nanpuwiq.words(int(number)) for number, _ in listed], [words for _, words in listed])

    def test_kit(self):
        """examples/pumps.kit, and its print."""
        b = BARRED
        old = Drive.new([0], [[0, 1, b], [b, 1, 2], [b, b, 2]])
        new = Drive.new([0], [[0, 1, b, b, 4], [b, b, 2], [2, b, b, 3, 4], [3], [4, 1]])
        kit = Kit.new(old, new, [Requirement.new([[0]], [[0]]), Requirement.new([[1]], [[2], [4]]), Requirement.new([[2]], [[3]])])
        verdict = kit.solve()
        self.assertEqual(verdict.winner, Winner.System)
        olds, commands = ["stop", "low", "high"], ["off", "slow", "fast"]
        news, answers = ["stop", "ramp", "low", "high", "flush"], ["hold", "start", "run", "boost", "flush"]
        lines = ["(start %s %s)" % (olds[i], news[e % STATES]) for i, e in enumerate(verdict.table[:3]) if e != NONE]
        for row, entry in enumerate(verdict.table[3:]):
            if entry != NONE:
                place = (news[row // 36], row // 9 % 4, olds[row // 3 % 3], commands[row % 3])
                lines.append("(step %s %d %s %s %s %d)" % (*place, answers[entry % 16], entry // 16))
        self.assertEqual(["(wins system)"] + lines, (EXAMPLES / "pumps.print").read_text().splitlines())


class Names(unittest.TestCase):
    """The names of the Rust crate, but for its buffers and for what Python has of itself."""

    OWN = {"Set", "InSet", "OutSet", "set", "from_bits", "bits", "of", "has", "states", "count", "from_words", "walk"}

    def test_names(self):
        source = "".join((ROOT / "bindings/rust/src" / name).read_text() for name in ("lib.rs", "print.rs"))
        kinds = set(re.findall(r"^pub (?:struct|enum) (\w+)", source, re.M)) | set(re.findall(r"^pub const (\w+)", source, re.M))
        self.assertEqual(kinds - self.OWN - set(nanpuwiq.__all__), set())
        self.assertEqual(sorted(set(nanpuwiq.__all__) - kinds), ["words"])
        methods = {name for name in re.findall(r"^    pub (?:const )?fn (\w+)", source, re.M) if not re.search(r"_in(to)?$", name)}
        there = {name for kind in vars(nanpuwiq).values() if inspect.isclass(kind) for name in vars(kind)}
        self.assertGreater(len(methods), 25)
        self.assertEqual(methods - self.OWN - there, set())
        for name, value in re.findall(r"^pub const (\w+): \w+ = ([\d_]+);", source, re.M):
            self.assertEqual(getattr(nanpuwiq, name), int(value), name)

    def test_version(self):
        header = (ROOT / "include/nanpuwiq.h").read_text()
        version = re.search(r'define NANPUWIQ_VERSION "(.*)"', header)[1]
        self.assertEqual(nanpuwiq.VERSION, version)
        self.assertIn('version = "%s"' % version, (ROOT / "bindings/python/pyproject.toml").read_text())

    def test_types(self):
        """Every public function says what it takes and gives."""
        for name in nanpuwiq.__all__:
            kind = getattr(nanpuwiq, name)
            if not inspect.isclass(kind):
                continue
            for called, function in inspect.getmembers(kind, inspect.isroutine):
                if called.startswith("_") or not inspect.getmodule(function) is nanpuwiq:
                    continue
                hints = typing.get_type_hints(function)
                self.assertIn("return", hints, "%s.%s" % (name, called))
                taken = [p for p in inspect.signature(function).parameters if p not in ("self", "cls")]
                self.assertEqual([p for p in taken if p not in hints], [], "%s.%s" % (name, called))


if __name__ == "__main__":
    unittest.main()
