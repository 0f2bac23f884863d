"""Can the old panel run the new drive? Python over the entries of Nanpuwiq, which are proved.

    from nanpuwiq import Game, InState, OutState, Winner

    game = Game.read(open("examples/flush.game", "rb").read())
    verdict = game.solve()                                  # who wins, and the winner's table
    at = game.begin(verdict.table, InState(0))              # play: the panel begins in old mode 0
    at = game.step(verdict.table, at, InState(1))           # ... and goes to 1; at.output is the answer
    print(game.explain(InState(0), OutState(1)))            # lost: ...

The names are those of the Rust crate (bindings/rust). A set of states is a frozenset of numbers, a refusal is raised as an Error with its number, and what
Rust moves in place is handed back. The forms of Rust that take buffers of the caller's (`solve_into` and others) have none here.
Every call answers every input; what the proof does not cover is this package, which declares records and entries a second time."""

from __future__ import annotations

import ctypes
import enum
from dataclasses import dataclass
from functools import cached_property
from typing import Iterable, Sequence, Union

from . import _entries

__all__ = [
    "BARRED", "Bars", "BARRED_SCRATCH", "CHECKED_PLACES", "COMMANDS", "COMPACT_MOST", "CONTROLLER_MOST", "Checked", "CompactTable", "Comparison", "Drive",
    "ENVIRONMENT_MOST", "Error", "Game", "Graph", "Ground", "InRecording", "InState", "JOINED_SCRATCH", "JOINED_STATES", "KIT_MOST", "Kit", "NONE",
    "OutRecording", "OutState", "PanelMove", "Position", "PrintError", "PrintFault", "REQUIREMENTS", "Requirement", "SCRATCH_MOST", "SETS", "SET_WORDS",
    "STATES", "TEXT_MOST", "VERSION", "Verdict", "WALK_ROOM", "Winner", "words",
]  # fmt: skip

VERSION: str = _entries.VERSION
STATES: int = 128  #: states of a graph at most
SET_WORDS: int = 2  #: words of a set
REQUIREMENTS: int = 8  #: places for requirements
SETS: int = 4  #: places for sets on each side of a requirement
SCRATCH_MOST: int = SET_WORDS * 3 * STATES
JOINED_SCRATCH: int = 4_096
BARRED_SCRATCH: int = 4_096
JOINED_STATES: int = 32  #: states of a graph at most, for the map on the joined positions
NONE: int = 65_535  #: the entry of a table that is none
CONTROLLER_MOST: int = STATES + STATES * REQUIREMENTS * SETS * STATES
COMPACT_MOST: int = STATES + CONTROLLER_MOST
ENVIRONMENT_MOST: int = 1 + STATES * REQUIREMENTS * SETS * STATES
WALK_ROOM: int = 24_576
CHECKED_PLACES: int = 4_096  #: inputs × outputs × values of the counter at most, of a table that is checked
COMMANDS: int = 16  #: commands of a drive at most
BARRED: int = 255  #: the next mode where a command is barred
TEXT_MOST: int = 40_960  #: bytes of the longest text that is read
KIT_MOST: int = STATES + STATES * REQUIREMENTS * SETS * STATES * COMMANDS

_SIZE_MOST = 2**64 - 1


def words(number: int) -> str:
    """The words for the number of a refusal."""
    return _entries.words(number)


class Error(Exception):
    """A refusal: its number, and for 11 how far the bytes could be a game's text (else 0)."""

    def __init__(self, number: int, place: int = 0) -> None:
        super().__init__(number, place)
        self.number, self.place = number, place

    def __str__(self) -> str:
        place = " %d" % self.place if self.number == 11 else ""
        return "refused %d%s: %s" % (self.number, place, words(self.number))


def _refuse(code: int) -> None:
    if code:
        raise Error(code)


def _ensure(holds: bool, number: int) -> None:
    _refuse(0 if holds else number)


@dataclass(frozen=True)
class InState:
    """The number of an input state."""

    number: int


@dataclass(frozen=True)
class OutState:
    """The number of an output state."""

    number: int


def _in(state: InState) -> object:
    if not isinstance(state, InState):
        raise TypeError("expected an InState, not %r" % (state,))
    return _entries.InState(_size(state.number))


def _out(state: OutState) -> object:
    if not isinstance(state, OutState):
        raise TypeError("expected an OutState, not %r" % (state,))
    return _entries.OutState(_size(state.number))


def _size(number: int) -> int:
    """A number that C's size_t holds; numbers that it does not hold are past every count."""
    return number if 0 <= number <= _SIZE_MOST else _SIZE_MOST


@dataclass(frozen=True)
class Position:
    """Input, output and counter after the controller's answer; against an environment's table, after the output is picked."""

    input: InState
    output: OutState
    counter: int


def _to_position(at: Position) -> object:
    return _entries.Position(_in(at.input), _out(at.output), _size(at.counter))


def _of_position(at: object) -> Position:
    return Position(InState(at.input.number), OutState(at.output.number), at.counter)  # type: ignore[attr-defined]


@dataclass(frozen=True)
class PanelMove:
    """The panel's move by an environment's table: the next input and the next counter."""

    input: InState
    counter: int


class Ground:
    """What made a position won or lost: the first ground that fits, with the lowest numbers. Its kinds are Ground.InputStuck and so on."""

    InputStuck: type[Ground]
    ByReplies: type[Ground]
    AtHome: type[Ground]
    OutputStuck: type[Ground]
    Unanswered: type[Ground]
    ByWayOut: type[Ground]
    Unserved: type[Ground]
    PushedOn: type[Ground]

    _won = False
    _told = ""

    @staticmethod
    def of_entry(entry: int) -> Ground:
        """The ground that an entry of the library's stands for: its number, 1 to 8, + 16 × what it names."""
        name = entry // 16
        return _ground(entry % 16, name, name, name // SETS, name % SETS)

    def is_won(self) -> bool:
        """Whether the position is won."""
        return self._won

    def __str__(self) -> str:
        told = {name: value.number if isinstance(value, (InState, OutState)) else value for name, value in vars(self).items()}
        return ("won: " if self._won else "lost: ") + self._told.format(**told)


@dataclass(frozen=True)
class _InputStuck(Ground):
    _won, _told = True, "the input has no move"


@dataclass(frozen=True)
class _ByReplies(Ground):
    _won, _told = True, "every next input has a winning reply"


@dataclass(frozen=True)
class _AtHome(Ground):
    home: OutState
    _won, _told = True, "the outputs of component {home} serve all that is due"


@dataclass(frozen=True)
class _OutputStuck(Ground):
    _told = "the output has no move"


@dataclass(frozen=True)
class _Unanswered(Ground):
    next: InState
    _told = "next input {next} has no winning reply"


@dataclass(frozen=True)
class _ByWayOut(Ground):
    entered: InState
    _told = "the inputs can leave to input {entered}, which is lost with this output"


@dataclass(frozen=True)
class _Unserved(Ground):
    requirement: int
    set: int
    _told = "requirement {requirement} is due, and the outputs here never visit its output set {set}"


@dataclass(frozen=True)
class _PushedOn(Ground):
    _told = "the output cannot stay where it is, and wherever it goes is lost"


def _kinds(family: type, *kinds: type) -> None:
    """Makes the kinds parts of their family, under their names."""
    for kind in kinds:
        kind.__name__ = kind.__name__.lstrip("_")
        kind.__qualname__ = "%s.%s" % (family.__name__, kind.__name__)
        setattr(family, kind.__name__, kind)


_kinds(Ground, _InputStuck, _ByReplies, _AtHome, _OutputStuck, _Unanswered, _ByWayOut, _Unserved, _PushedOn)


def _ground(ground: int, output: int, input: int, requirement: int, output_set: int) -> Ground:
    """The ground with this number, and of what is handed over what it names."""
    if ground == 3:
        return _AtHome(OutState(output))
    if ground in (5, 6):
        return (_Unanswered if ground == 5 else _ByWayOut)(InState(input))
    if ground == 7:
        return _Unserved(requirement, output_set)
    return {1: _InputStuck, 2: _ByReplies, 4: _OutputStuck}.get(ground, _PushedOn)()


class Checked:
    """What the checker says of a controller's table: Checked.Wins, BadStart, BadRow or BadRound."""

    Wins: type[Checked]
    BadStart: type[Checked]
    BadRow: type[Checked]
    BadRound: type[Checked]


@dataclass(frozen=True)
class _Wins(Checked):
    """The table wins."""


@dataclass(frozen=True)
class _BadStart(Checked):
    """The start of this initial input names no initial output, or no value of the counter."""

    input: InState


@dataclass(frozen=True)
class _BadRow(Checked):
    """After the walk the row for this next input, a move, names no move of the output, or no value of the counter."""

    walk: int
    next: InState


@dataclass(frozen=True)
class _BadRound(Checked):
    """The walk closes a round, which begins at number `begins`, from 0, and breaks this requirement, from 0."""

    walk: int
    begins: int
    requirement: int


_kinds(Checked, _Wins, _BadStart, _BadRow, _BadRound)


class Comparison:
    """What two recordings of one run show, and the first step that shows it: Comparison.Agree, Differ, Ended or Fault."""

    Agree: type[Comparison]
    Differ: type[Comparison]
    Ended: type[Comparison]
    Fault: type[Comparison]


@dataclass(frozen=True)
class _Agree(Comparison):
    """The outputs are those that the table gives for the inputs, and both recordings end together."""


@dataclass(frozen=True)
class _Differ(Comparison):
    """The output recorded is not the table's."""

    step: int


@dataclass(frozen=True)
class _Ended(Comparison):
    """One recording has ended and the other has not."""

    step: int


@dataclass(frozen=True)
class _Fault(Comparison):
    """The player's number for the input recorded there: 14, 15."""

    step: int
    number: int


_kinds(Comparison, _Agree, _Differ, _Ended, _Fault)


class Winner(enum.Enum):
    """The side that wins."""

    System = "system"
    Environment = "environment"


@dataclass(frozen=True)
class Verdict:
    """The side that wins, and its table."""

    winner: Winner
    table: list[int]


@dataclass(frozen=True)
class InRecording:
    """The inputs of a run, recorded by the panel: a state number a byte."""

    states: bytes


@dataclass(frozen=True)
class OutRecording:
    """The outputs of a run, recorded by the drive: a state number a byte."""

    states: bytes


# ---- records


def _set_below(count: int, states: Iterable[int], number: int) -> frozenset[int]:
    """The states, all below the count; else the refusal with this number."""
    found = frozenset(states)
    _ensure(all(isinstance(s, int) and 0 <= s < count for s in found), number)
    return found


def _to_set(states: Iterable[int], number: int) -> object:
    """The words of a set; a state that no set has is refused with this number."""
    bits = 0
    for s in _set_below(STATES, states, number):
        bits |= 1 << s
    return _entries.Set(bits & _SIZE_MOST, bits >> 64)


def _of_set(low: int, high: int) -> frozenset[int]:
    bits = low | high << 64
    return frozenset(s for s in range(STATES) if bits >> s & 1)


@dataclass(frozen=True)
class Graph:
    """The initial states, and for each state the states that it moves to."""

    initial: frozenset[int]
    moves: tuple[frozenset[int], ...]

    @classmethod
    def new(cls, initial: Iterable[int], moves: Sequence[Iterable[int]]) -> Graph:
        """A graph with a row for each state; a row lists the states that it moves to: 1, 2, 3."""
        count = len(moves)
        _ensure(1 <= count <= STATES, 1)
        graph = cls(_set_below(count, initial, 2), tuple(_set_below(count, row, 2) for row in moves))
        _ensure(bool(graph.initial), 3)
        return graph

    @property
    def states(self) -> int:
        return len(self.moves)

    def _record(self) -> object:
        record = _entries.Graph(self.states, _to_set(self.initial, 2))
        for s, row in enumerate(self.moves[:STATES]):
            record.moves[s] = _to_set(row, 2)
        return record

    @classmethod
    def _of(cls, record: object) -> Graph:
        rows = (_of_set(row.low, row.high) for row in record.moves[: record.states])  # type: ignore[attr-defined]
        return cls(_of_set(record.initial.low, record.initial.high), tuple(rows))  # type: ignore[attr-defined]


@dataclass(frozen=True)
class Requirement:
    """If every assumption, a set of inputs, recurs, every guarantee, a set of outputs, does."""

    assumptions: tuple[frozenset[int], ...]
    guarantees: tuple[frozenset[int], ...]

    @classmethod
    def new(cls, assumptions: Sequence[Iterable[int]], guarantees: Sequence[Iterable[int]]) -> Requirement:
        """If these assumptions recur, these guarantees do: 6, and 7 for a state past 127."""
        _ensure(len(assumptions) <= SETS and len(guarantees) <= SETS, 6)
        return cls(tuple(_set_below(STATES, x, 7) for x in assumptions), tuple(_set_below(STATES, x, 7) for x in guarantees))

    def _record(self) -> object:
        record = _entries.Requirement()
        record.assumed, record.guaranteed = len(self.assumptions), len(self.guarantees)
        for places, sets in ((record.assumptions, self.assumptions), (record.guarantees, self.guarantees)):
            for place, states in enumerate(sets[:SETS]):
                places[place] = _to_set(states, 7)
        return record

    @classmethod
    def _of(cls, record: object) -> Requirement:
        sets = (record.assumptions[: record.assumed], record.guarantees[: record.guaranteed])  # type: ignore[attr-defined]
        return cls(*(tuple(_of_set(x.low, x.high) for x in side) for side in sets))


def _put_requirements(record: object, requirements: Sequence[Requirement]) -> None:
    record.k = len(requirements)  # type: ignore[attr-defined]
    for place, requirement in enumerate(requirements[:REQUIREMENTS]):
        record.requirements[place] = requirement._record()  # type: ignore[attr-defined]


@dataclass(frozen=True)
class Bars:
    """Barred pairs, for Game.barred_map and Game.barred_verdict: a set of outputs for each input."""

    outputs: tuple[frozenset[int], ...]

    @classmethod
    def none(cls, inputs: int) -> Bars:
        """Nothing is barred with these inputs: 1 a count that no game has."""
        _ensure(1 <= inputs <= STATES, 1)
        return cls((frozenset(),) * inputs)

    @classmethod
    def new(cls, inputs: int, pairs: Iterable[tuple[InState, OutState]]) -> Bars:
        """These pairs are barred: 1 a count that no game has, 29 a pair that no game has."""
        _ensure(1 <= inputs <= STATES, 1)
        rows: list[set[int]] = [set() for _ in range(inputs)]
        for i, o in pairs:
            _in(i), _out(o)
            _ensure(0 <= i.number < inputs and 0 <= o.number < STATES, 29)
            rows[i.number].add(o.number)
        return cls(tuple(map(frozenset, rows)))

    def _words(self) -> object:
        sets = [_to_set(row, 29) for row in self.outputs]
        return (ctypes.c_uint64 * (SET_WORDS * len(sets)))(*(w for x in sets for w in (x.low, x.high)))  # type: ignore[attr-defined]


def _scratch(count: int) -> object:
    return (ctypes.c_uint64 * count)()


def _room(count: int) -> object:
    return (ctypes.c_uint16 * count)()


def _entries_of(table: Sequence[int]) -> object:
    if not all(0 <= entry <= NONE for entry in table):
        raise ValueError("an entry of a table is 0 to 65535")
    return (ctypes.c_uint16 * len(table))(*table)


def _verdict(r: object, system: object, environment: object) -> Verdict:
    _refuse(r.code)  # type: ignore[attr-defined]
    winner, buffer = (Winner.System, system) if r.system else (Winner.Environment, environment)  # type: ignore[attr-defined]
    return Verdict(winner, list(buffer[: r.entries]))  # type: ignore[index, attr-defined]


@dataclass(frozen=True)
class CompactTable:
    """A stored controller's table in the compact layout, and what a row's place is worked out from."""

    entries: Sequence[int]
    inputs: int
    counters: int
    components: int

    def start(self, input: InState) -> int:
        """The start of an input: NONE where the table has none."""
        _in(input)
        return self.entries[input.number] if 0 <= input.number < min(self.inputs, len(self.entries)) else NONE

    def row(self, output: OutState, counter: int, input: InState) -> int:
        """The entry of a row: the one that the full layout has for this output, counter and new input."""
        sizes = (_size(self.inputs), _size(self.counters), _size(self.components))
        return _entries.call("compact_row", _entries_of(self.entries), *sizes, _out(output), _size(counter), _in(input))


@dataclass(frozen=True)
class Game:
    """Two graphs and the requirements on them."""

    input: Graph
    output: Graph
    requirements: tuple[Requirement, ...]

    @classmethod
    def new(cls, input: Graph, output: Graph, requirements: Sequence[Requirement]) -> Game:
        """A game, which is accepted: 1 to 7."""
        game = cls(input, output, tuple(requirements))
        game.accept()
        return game

    @classmethod
    def read(cls, text: Union[bytes, str]) -> Game:
        """The game that a text describes: 12, 11 with its place, 1 to 7."""
        given = text.encode() if isinstance(text, str) else bytes(text)
        r = _entries.call("read", (ctypes.c_uint8 * len(given)).from_buffer_copy(given))
        if r.code:
            raise Error(r.code, r.place)
        q = tuple(Requirement._of(x) for x in r.game.requirements[: r.game.k])
        return cls(Graph._of(r.game.input), Graph._of(r.game.output), q)

    @cached_property
    def _record(self) -> object:
        record = _entries.Game(self.input._record(), self.output._record())
        _put_requirements(record, self.requirements)
        return record

    @property
    def k(self) -> int:
        return len(self.requirements)

    def _call(self, entry: str, *values: object):  # type: ignore[no-untyped-def]
        return _entries.call(entry, self._record, *values)

    def accept(self) -> None:
        """Raises what the game is refused for: 1 to 7."""
        _refuse(self._call("accept"))

    def scratch_words(self) -> int:
        """Words of scratch that the game asks for, where it is accepted."""
        return SET_WORDS * (2 * self.input.states + self.output.states)

    def write(self) -> bytes:
        """The game's text: 1 to 7. One of over TEXT_MOST bytes is not read back."""
        buffer = (ctypes.c_uint8 * 262_144)()
        r = self._call("write", buffer)
        _refuse(r.code)
        return bytes(buffer[: r.bytes])

    # ---- who wins

    def solve(self) -> Verdict:
        """The side that wins, and its table: 1 to 7."""
        system, environment = _room(CONTROLLER_MOST), _room(ENVIRONMENT_MOST)
        return _verdict(self._call("solve", _scratch(SCRATCH_MOST), system, environment), system, environment)

    def solve_compact(self) -> Verdict:
        """The side that wins, and its table, a controller's in the compact layout."""
        system, environment = _room(COMPACT_MOST), _room(ENVIRONMENT_MOST)
        return _verdict(self._call("solve_compact", _scratch(SCRATCH_MOST), system, environment), system, environment)

    def won_map(self) -> list[frozenset[int]]:
        """The won map: set i is that of the outputs that are won with input i."""
        return self._map("won_map", _scratch(SCRATCH_MOST))

    def joined_map(self) -> list[frozenset[int]]:
        """The won map, worked out on the joined positions, in a game of at most 32 states a graph: 1 to 7, 24."""
        return self._map("joined_map", _scratch(JOINED_SCRATCH))

    def barred_map(self, bars: Bars) -> list[frozenset[int]]:
        """The outputs that are won with each input, and not barred with it: 1 to 7, 29, 28, 8."""
        return self._map("barred_map", bars._words(), _scratch(BARRED_SCRATCH))

    def _map(self, entry: str, *values: object) -> list[frozenset[int]]:
        inputs = min(self.input.states, STATES)
        found = (ctypes.c_uint64 * (SET_WORDS * inputs))()
        _refuse(self._call(entry, *values, found))
        return [_of_set(found[SET_WORDS * i], found[SET_WORDS * i + 1]) for i in range(inputs)]

    def barred_verdict(self, bars: Bars) -> bool:
        """Whether the system wins where it may never make a barred pair: 1 to 7, 29, 28, 8. No table is made."""
        r = self._call("barred_verdict", bars._words(), _scratch(BARRED_SCRATCH))
        _refuse(r.code)
        return r.system

    def explain(self, input: InState, output: OutState) -> Ground:
        """What made a position won or lost: 1 to 7, 25 a position outside the game."""
        r = self._call("explain", _scratch(SCRATCH_MOST), _in(input), _out(output))
        _refuse(r.code)
        return _ground(r.ground, r.output.number, r.input.number, r.requirement, r.set)

    def explain_all(self) -> list[Ground]:
        """What made each position won or lost, input by input, the outputs running fastest: 1 to 7."""
        grounds = _room(min(self.input.states, STATES) * min(self.output.states, STATES))
        _refuse(self._call("explain_all", _scratch(SCRATCH_MOST), grounds))
        return [Ground.of_entry(entry) for entry in grounds]  # type: ignore[attr-defined]

    # ---- tables

    def check(self, table: Sequence[int]) -> tuple[Checked, list[Position]]:
        """Whether a controller's table, from anywhere, wins; else what shows that it does not, with the walk's positions: 1 to 7, 19, 20."""
        room = _room(WALK_ROOM)
        r = self._call("check", _entries_of(table), room)
        _refuse(r.code)
        walk = [self.position(place) for place in room[: r.walk]]  # type: ignore[index]
        if r.finding == 0:
            return _Wins(), walk
        if r.finding == 1:
            return _BadStart(InState(r.input.number)), walk
        if r.finding == 2:
            return _BadRow(r.walk, InState(r.input.number)), walk
        return _BadRound(r.walk, r.begins, r.requirement), walk

    def position(self, place: int) -> Position:
        """The configuration with this place in the order of rows: (output × counters + counter) × inputs + input."""
        inputs, counters = max(self.input.states, 1), self._counters()
        return Position(InState(place % inputs), OutState(place // inputs // counters), place // inputs % counters)

    def _counters(self) -> int:
        return max(sum(len(q.guarantees) for q in self.requirements), 1)

    def components(self) -> int:
        """How many components the input graph has: 1 to 7."""
        r = self._call("components")
        _refuse(r.code)
        return r.count

    def to_compact(self, table: Sequence[int]) -> list[int]:
        """The table in the compact layout: 1 to 7, 23, 21."""
        return self._moved_table("to_compact", table, COMPACT_MOST)

    def to_full(self, table: Sequence[int]) -> list[int]:
        """The table in the full layout: 1 to 7, 23, 22."""
        return self._moved_table("to_full", table, CONTROLLER_MOST)

    def _moved_table(self, entry: str, table: Sequence[int], most: int) -> list[int]:
        room = _room(most)
        r = self._call(entry, _entries_of(table), room)
        _refuse(r.code)
        return list(room[: r.entries])  # type: ignore[index]

    def compact_table(self, entries: Sequence[int]) -> CompactTable:
        """A stored table of the compact layout as it is, to read rows from: 1 to 7."""
        return CompactTable(entries, self.input.states, self._counters(), self.components())

    def entries_of_print(self, print: Union[bytes, str]) -> list[int]:
        """The entries of a controller's table that is printed as `solve` prints it; a start or row without a line is none. Raises a PrintError."""
        return _entries_of_print(self, print.encode() if isinstance(print, str) else print)

    # ---- play

    def begin(self, table: Sequence[int], first: InState) -> Position:
        """The first position of a controller's table: 1 to 7, 16, 14, 15."""
        return self._moved("begin", table, _in(first))

    def step(self, table: Sequence[int], at: Position, next: InState) -> Position:
        """The position after the next input: 1 to 7, 16, 14, 15."""
        return self._moved("step", table, _to_position(at), _in(next))

    def advance(self, table: Sequence[int], at: Position, next: InState) -> Position:
        """The same by the entry that moves a lent position on in place."""
        place = _to_position(at)
        _refuse(self._call("advance", _entries_of(table), ctypes.pointer(place), _in(next)))  # type: ignore[type-var]
        return _of_position(place)

    def panel_first(self, table: Sequence[int]) -> PanelMove:
        """The panel's first input and counter, by the start of an environment's table: 1 to 7, 16, 15."""
        return self._picked("panel_first", table)

    def panel_begin(self, table: Sequence[int], first: OutState) -> Position:
        """The first position against an environment's table: 1 to 7, 16, 14, 15."""
        return self._moved("panel_begin", table, _out(first))

    def panel_next(self, table: Sequence[int], at: Position) -> PanelMove:
        """The panel's next input and counter at a position: 1 to 7, 16, 15."""
        return self._picked("panel_next", table, _to_position(at))

    def panel_step(self, table: Sequence[int], at: Position, next: OutState) -> Position:
        """The position after that move and the output picked: 1 to 7, 16, 14, 15."""
        return self._moved("panel_step", table, _to_position(at), _out(next))

    def _moved(self, entry: str, table: Sequence[int], *values: object) -> Position:
        r = self._call(entry, _entries_of(table), *values)
        _refuse(r.code)
        return _of_position(r.at)

    def _picked(self, entry: str, table: Sequence[int], *values: object) -> PanelMove:
        r = self._call(entry, _entries_of(table), *values)
        _refuse(r.code)
        return PanelMove(InState(r.input.number), r.counter)

    def compare(self, table: Sequence[int], inputs: InRecording, outputs: OutRecording) -> Comparison:
        """Whether the outputs recorded by the drive are those that a controller's table gives for the inputs recorded by the panel: 1 to 7, 16."""
        if not isinstance(inputs, InRecording) or not isinstance(outputs, OutRecording):
            raise TypeError("expected an InRecording, then an OutRecording")
        rooms = [(ctypes.c_uint8 * len(x.states)).from_buffer_copy(x.states) for x in (inputs, outputs)]
        lent = [ctypes.cast(room, ctypes.POINTER(ctypes.c_uint8)) for room in rooms]
        given = (_entries.InRecording(lent[0], len(rooms[0])), _entries.OutRecording(lent[1], len(rooms[1])))
        r = self._call("compare", _entries_of(table), *given)
        if r.code in (14, 15):
            return _Fault(r.step, r.code)
        _refuse(r.code)
        return _Agree() if r.agree else _Ended(r.step) if r.ended else _Differ(r.step)


# ---- kits


@dataclass(frozen=True)
class Drive:
    """The initial modes, how many commands there are, and for each mode where each command leads, or BARRED."""

    initial: frozenset[int]
    commands: int
    next: tuple[tuple[int, ...], ...]

    @classmethod
    def new(cls, initial: Iterable[int], next: Sequence[Sequence[int]]) -> Drive:
        """A drive with a row for each mode; what a row does not list is barred. The longest row has all commands: 1, 17, 18, 2, 3."""
        modes = len(next)
        _ensure(1 <= modes <= STATES, 1)
        commands = max(len(row) for row in next)
        _ensure(1 <= commands <= COMMANDS, 17)
        _ensure(all(to == BARRED or 0 <= to < modes for row in next for to in row), 18)
        drive = cls(_set_below(modes, initial, 2), commands, tuple(tuple(row) + (BARRED,) * (commands - len(row)) for row in next))
        _ensure(bool(drive.initial), 3)
        return drive

    @property
    def modes(self) -> int:
        return len(self.next)

    def _record(self) -> object:
        record = _entries.Drive(self.modes, _to_set(self.initial, 2), _size(self.commands), (ctypes.c_uint8 * (STATES * COMMANDS))(*[BARRED] * (STATES * COMMANDS)))
        for mode, row in enumerate(self.next[:STATES]):
            _ensure(len(row) <= COMMANDS, 17)
            _ensure(all(0 <= to <= BARRED for to in row), 18)
            record.next[COMMANDS * mode : COMMANDS * mode + len(row)] = row
        return record


@dataclass(frozen=True)
class Kit:
    """A new drive for a panel that gives the old one's commands, and the requirements on their modes."""

    old: Drive
    new_drive: Drive
    requirements: tuple[Requirement, ...]

    @classmethod
    def new(cls, old: Drive, new: Drive, requirements: Sequence[Requirement]) -> Kit:
        """A kit, which is accepted: 1, 17, 18, 2 to 7."""
        kit = cls(old, new, tuple(requirements))
        kit.accept()
        return kit

    def _record(self) -> object:
        record = _entries.Kit(self.old._record(), self.new_drive._record())
        _put_requirements(record, self.requirements)
        return record

    def accept(self) -> None:
        """Raises what the kit is refused for: 1, 17, 18, 2 to 7."""
        _refuse(_entries.call("accept_kit", self._record()))

    def scratch_words(self) -> int:
        """Words of scratch that the kit asks for, where it is accepted: those of its game."""
        return SET_WORDS * (2 * self.old.modes + self.new_drive.modes)

    def solve(self) -> Verdict:
        """The side that wins, and its table: the kit's, or the environment's."""
        counters = max(sum(len(q.guarantees) for q in self.requirements), 1)
        rows = self.old.modes + self.new_drive.modes * counters * self.old.modes * self.old.commands
        environment, room = _room(ENVIRONMENT_MOST), _room(min(rows, KIT_MOST))
        r = _entries.call("solve_kit", self._record(), _scratch(SCRATCH_MOST), _room(CONTROLLER_MOST), environment, room)
        return _verdict(r, room, environment)


# ---- prints


class PrintFault(enum.Enum):
    """What is wrong with a print."""

    NotTheSystems = "expected (wins system): the print of a controller's table"
    NotALine = "expected (start INPUT OUTPUT) or (step OUTPUT COUNTER INPUT OUTPUT COUNTER)"
    NoSuchRow = "a start or a row that the game does not have"
    Twice = "a second line for one start or row"
    NoEntry = "an output and a counter that no entry can hold"
    TooLarge = "a table of a game with over 4,096 places"


class PrintError(Exception):
    """Why a print is not taken: the line, from 1, and what is wrong there."""

    def __init__(self, line: int, fault: PrintFault) -> None:
        super().__init__(line, fault)
        self.line, self.fault = line, fault

    def __str__(self) -> str:
        return "line %d: %s" % (self.line, self.fault.value)


def _entries_of_print(game: Game, print: bytes) -> list[int]:
    inputs, outputs, counters = game.input.states, game.output.states, game._counters()
    if inputs * outputs * counters > CHECKED_PLACES:
        raise PrintError(1, PrintFault.TooLarge)
    lines = print.split(b"\n")
    if lines[0] != b"(wins system)" or len(lines) < 2:
        raise PrintError(1, PrintFault.NotTheSystems)
    table: dict[int, int] = {}
    for number, line in enumerate(lines[1:], 2):
        if number == len(lines) and not line:
            break
        if number == len(lines):
            raise PrintError(number, PrintFault.NotALine)
        try:
            row, entry = _line_of_print(line, inputs, outputs, counters)
        except _PrintFault as stop:
            raise PrintError(number, stop.fault) from None
        if row in table:
            raise PrintError(number, PrintFault.Twice)
        table[row] = entry
    return [table.get(row, NONE) for row in range(inputs + inputs * outputs * counters)]


class _PrintFault(Exception):
    def __init__(self, fault: PrintFault) -> None:
        self.fault = fault


def _line_of_print(line: bytes, inputs: int, outputs: int, counters: int) -> tuple[int, int]:
    """One line: the number of its entry, and the entry."""
    word, *items = line[1:-1].split(b" ") if line[:1] + line[-1:] == b"()" else [b""]
    plain = all(item.isdigit() and (item == b"0" or not item.startswith(b"0")) for item in items)
    if not plain or (word, len(items)) not in ((b"start", 2), (b"step", 5)):
        raise _PrintFault(PrintFault.NotALine)
    numbers = list(map(int, items))
    at, counter, input, output, next = numbers if word == b"step" else (0, 0, numbers[0], numbers[1], 0)
    if at >= outputs or counter >= counters or input >= inputs:
        raise _PrintFault(PrintFault.NoSuchRow)
    entry = output + STATES * next
    if output >= STATES or entry >= NONE:
        raise _PrintFault(PrintFault.NoEntry)
    return (input if word == b"start" else inputs + (at * counters + counter) * inputs + input), entry
