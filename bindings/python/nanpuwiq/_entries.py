"""The records and the entries of the shared library, declared for ctypes. A buffer passes as its address and its length, a record by value."""

from __future__ import annotations

import ctypes
import ctypes.util
import os
import pathlib
from ctypes import POINTER, Structure, c_bool, c_char_p, c_size_t, c_uint8, c_uint16, c_uint64

VERSION = "0.1.0"
STATES, REQUIREMENTS, SETS, COMMANDS = 128, 8, 4, 16


def _record(name: str, *fields: tuple[str, object]) -> type[Structure]:
    return type(name, (Structure,), {"_fields_": list(fields)})


InState = _record("InState", ("number", c_size_t))
OutState = _record("OutState", ("number", c_size_t))
Set = _record("Set", ("low", c_uint64), ("high", c_uint64))
Graph = _record("Graph", ("states", c_size_t), ("initial", Set), ("moves", Set * STATES))
Requirement = _record(
    "Requirement", ("assumptions", Set * SETS), ("assumed", c_size_t), ("guarantees", Set * SETS), ("guaranteed", c_size_t)
)
Game = _record("Game", ("input", Graph), ("output", Graph), ("k", c_size_t), ("requirements", Requirement * REQUIREMENTS))
Drive = _record("Drive", ("modes", c_size_t), ("initial", Set), ("commands", c_size_t), ("next", c_uint8 * (STATES * COMMANDS)))
Kit = _record("Kit", ("old", Drive), ("new", Drive), ("k", c_size_t), ("requirements", Requirement * REQUIREMENTS))
Position = _record("Position", ("input", InState), ("output", OutState), ("counter", c_size_t))
Solved = _record("Solved", ("code", c_uint8), ("system", c_bool), ("entries", c_size_t))
TableMoved = _record("TableMoved", ("code", c_uint8), ("entries", c_size_t))
Counted = _record("Counted", ("code", c_uint8), ("count", c_size_t))
Judged = _record("Judged", ("code", c_uint8), ("system", c_bool))
Explained = _record(
    "Explained",
    ("code", c_uint8),
    ("ground", c_uint8),
    ("output", OutState),
    ("input", InState),
    ("requirement", c_size_t),
    ("set", c_size_t),
)
Checked = _record(
    "Checked",
    ("code", c_uint8),
    ("finding", c_uint8),
    ("input", InState),
    ("walk", c_size_t),
    ("begins", c_size_t),
    ("requirement", c_size_t),
)
Reading = _record("Reading", ("code", c_uint8), ("place", c_size_t), ("game", Game))
Written = _record("Written", ("code", c_uint8), ("bytes", c_size_t))
Moved = _record("Moved", ("at", Position), ("code", c_uint8))
PanelMove = _record("PanelMove", ("input", InState), ("counter", c_size_t), ("code", c_uint8))
Compared = _record("Compared", ("code", c_uint8), ("agree", c_bool), ("ended", c_bool), ("step", c_size_t))
InRecording = _record("InRecording", ("states", POINTER(c_uint8)), ("steps", c_size_t))
OutRecording = _record("OutRecording", ("states", POINTER(c_uint8)), ("steps", c_size_t))

_WORDS, _TABLE, _BYTES = (POINTER(c_uint64), c_size_t), (POINTER(c_uint16), c_size_t), (POINTER(c_uint8), c_size_t)

# Each entry: what it gives, and what it takes.
_ENTRIES = {
    "accept": (c_uint8, Game),
    "won_map": (c_uint8, Game, *_WORDS, *_WORDS),
    "joined_map": (c_uint8, Game, *_WORDS, *_WORDS),
    "barred_map": (c_uint8, Game, *_WORDS, *_WORDS, *_WORDS),
    "barred_verdict": (Judged, Game, *_WORDS, *_WORDS),
    "explain": (Explained, Game, *_WORDS, InState, OutState),
    "explain_all": (c_uint8, Game, *_WORDS, *_TABLE),
    "check": (Checked, Game, *_TABLE, *_TABLE),
    "solve": (Solved, Game, *_WORDS, *_TABLE, *_TABLE),
    "solve_compact": (Solved, Game, *_WORDS, *_TABLE, *_TABLE),
    "components": (Counted, Game),
    "to_compact": (TableMoved, Game, *_TABLE, *_TABLE),
    "to_full": (TableMoved, Game, *_TABLE, *_TABLE),
    "compact_row": (c_uint16, *_TABLE, c_size_t, c_size_t, c_size_t, OutState, c_size_t, InState),
    "accept_kit": (c_uint8, Kit),
    "solve_kit": (Solved, Kit, *_WORDS, *_TABLE, *_TABLE, *_TABLE),
    "read": (Reading, *_BYTES),
    "write": (Written, Game, *_BYTES),
    "begin": (Moved, Game, *_TABLE, InState),
    "step": (Moved, Game, *_TABLE, Position, InState),
    "advance": (c_uint8, Game, *_TABLE, POINTER(Position), InState),
    "panel_first": (PanelMove, Game, *_TABLE),
    "panel_begin": (Moved, Game, *_TABLE, OutState),
    "panel_next": (PanelMove, Game, *_TABLE, Position),
    "panel_step": (Moved, Game, *_TABLE, Position, OutState),
    "compare": (Compared, Game, *_TABLE, InRecording, OutRecording),
}
_SIZED = (Game, Kit, Position, Solved, TableMoved, Counted, Judged, Explained, Checked, Reading, Written, Moved, PanelMove, Compared, InRecording)


def _found() -> str:
    """The shared library: in the folder that NANPUWIQ_LIB names, beside this file, where `make shared` writes it, or where the system has it."""
    here = pathlib.Path(__file__).resolve()
    folders = [pathlib.Path(os.environ["NANPUWIQ_LIB"])] if os.environ.get("NANPUWIQ_LIB") else [here.parent]
    if not os.environ.get("NANPUWIQ_LIB") and len(here.parents) > 3:
        folders.append(here.parents[3] / "target" / "shared")
    for folder in folders:
        if (folder / "libnanpuwiq.so").is_file():
            return str(folder / "libnanpuwiq.so")
    system = None if os.environ.get("NANPUWIQ_LIB") else ctypes.util.find_library("nanpuwiq")
    if system is None:
        raise ImportError("libnanpuwiq.so is in none of: %s. `make shared` makes it; NANPUWIQ_LIB names another folder" % ", ".join(map(str, folders)))
    return system


def _opened() -> ctypes.CDLL:
    name = _found()
    library = ctypes.CDLL(name)
    library.nanpuwiq_shared_version.restype = c_char_p
    library.nanpuwiq_shared_words.restype, library.nanpuwiq_shared_words.argtypes = c_char_p, [c_uint8]
    library.nanpuwiq_shared_size.restype, library.nanpuwiq_shared_size.argtypes = c_size_t, [c_size_t]
    version = library.nanpuwiq_shared_version().decode()
    if version != VERSION:
        raise ImportError("%s is of version %s, this package of %s" % (name, version, VERSION))
    if [library.nanpuwiq_shared_size(n) for n in range(len(_SIZED))] != [ctypes.sizeof(record) for record in _SIZED]:
        raise ImportError("%s has records of other sizes than this package" % name)
    for entry, (gives, *takes) in _ENTRIES.items():
        function = getattr(library, "nanpuwiq_" + entry)
        function.restype, function.argtypes = gives, takes
    return library


_library = _opened()


def call(entry: str, *values: object):
    """Calls an entry; a ctypes array passes as its address and its length."""
    passed: list[object] = []
    for value in values:
        passed += [value, len(value)] if isinstance(value, ctypes.Array) else [value]
    return getattr(_library, "nanpuwiq_" + entry)(*passed)


def words(number: int) -> str:
    return _library.nanpuwiq_shared_words(number).decode()
