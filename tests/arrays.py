#!/usr/bin/env python3
"""No array of over eight words beside scratch, but copies of the game's (document 02, M-103).

    tests/arrays.py MIR

MIR is the folder where tools/prove lays out the code that the crates were lowered to, which lists the locals of every function with their types (tests/mir.py).
Of the functions that the entries below call, directly or not, a local that holds an array of over 64 bytes, also inside a struct or an enum, must be a copy
of the game's: its type is one of the game's (or of the kit's drives, of which the kit's game is made, or that of the list of the game's sets), or the array
inside one; and it is a parameter, or assigned whole from another such local, or a function's result. Nothing is written into it, nor is a `&mut` to it made. The two functions
that make a kit's game out of its drives may write what they make, and so may `game_sets::list_of`. Its list is a copy of the game's arrays of sets, all of
them and nothing else, as its contract `Lists` says; here it is seen that it makes no other such array, and that the list has no more bytes than those sets.

A board is the game laid out in words, as the contract of `board::lay` says. A local with a board's type may be made of zeros, and a `&mut` to it may be made
for a call of `board::lay` and for nothing else; and a board must have as many bytes as a game without its three sizes, which go by value.

Nor may a list stand in parts: the arrays that a struct or an enum holds, copies of the game's left out, have 64 bytes together at most. One list does, and is
named below.

Then the test is tried itself. It must find something with a set more in the arrays of eight words, with a list as long as a graph's rows, with no type of
the game's known, with the makers not known, with a board that another function fills, with a word more on a board, and with the list in parts not known.
"""
import json
import sys

import mir

BYTES = 64
ENTRIES = [
    "map::won_map",
    "solver::solve_into",
    "solver::solve_compact_into",
    "kit::solve_kit",
    "joined::joined_map",
    "interlock::barred_map",
    "interlock::barred_verdict",
    "explain::explain",
]
GAMES = {"game::Game", "game::Graph", "kit_drives::Kit", "kit_drives::Drive", "game_sets::Listed"}
LISTER = "game_sets::list_of"
MAKERS = {"kit_drives::graph_of", "kit_drives::game_of", LISTER}
LAYER, SIZES = "board::lay", "board::Sizes"
COPIES = {"game::Requirement", "table_sizes::Outline"}  # an outline holds how many sets each requirement has in use, as the game does
PARTED = {"region_dues::Servers"}  # one list in two arrays, which stays: docs/DECISIONS.md, "Arrays beside scratch"


def key(t):
    return json.dumps(t)


def named(t):
    """The name of a struct's or an enum's type, else None."""
    return t["Named"][0]["name"] if isinstance(t, dict) and "Named" in t else None


def given(t, arguments):
    """A type of a generic struct or enum with its arguments in the place of its parameters."""
    if isinstance(t, dict):
        return arguments[t["Param"]] if "Param" in t else {word: given(inner, arguments) for word, inner in t.items()}
    return [given(inner, arguments) for inner in t] if isinstance(t, list) else t


def is_mut(t):
    return isinstance(t, dict) and "Ref" in t and t["Ref"][1] == "Mut"


def is_pointer(t):
    return t == "Ptr" or isinstance(t, dict) and "Ref" in t


def places(value):
    """Every place within a value."""
    if isinstance(value, dict):
        if "local" in value:
            yield value
        for inner in value.values():
            yield from places(inner)
    elif isinstance(value, list):
        for inner in value:
            yield from places(inner)


class Function(mir.Function):
    def __init__(self, name, said):
        super().__init__(name, said)
        self.assigned = [inner for word, inner in mir.terms(self.body) if word == "Assign"]
        self.called = [inner for word, inner in mir.terms(self.body) if word == "Call"]

    def variants(self, t):
        """The fields of each variant of a named type; a struct has one."""
        name, arguments = t["Named"]
        shape = self.shapes[name["name"]]
        return given([shape["Fields"]] if "Fields" in shape else shape["Variants"], arguments)

    def size(self, t):
        """Size and alignment in bytes."""
        if isinstance(t, str):
            return {"Bool": (1, 1), "Unit": (0, 1), "Ptr": (8, 8)}[t]
        (kind, inner), = t.items()
        if kind in ("Int", "Float"):
            return inner // 8, inner // 8
        if kind == "Ref":
            return 8, 8
        if kind == "Array":
            size, align = self.size(inner[0])
            return size * inner[1]["Lit"], align
        if kind == "Struct":
            return self.laid(inner[1])
        assert kind == "Named", t
        if "Fields" in self.shapes[named(t)]:
            return self.laid(self.variants(t)[0])
        sizes = [self.laid([{"Int": 8}] + fields) for fields in self.variants(t)]
        return max((s[0] for s in sizes), default=0), max((s[1] for s in sizes), default=1)

    def laid(self, fields):
        at, most = 0, 1
        for size, align in map(self.size, fields):
            at = -(-at // align) * align + size
            most = max(most, align)
        return -(-at // most) * most, most

    def sets(self):
        """How many bytes the sets of all requirements of a game have."""
        requirements, = (t["Array"] for t in self.shapes["game::Game"]["Fields"] if "Array" in t)
        sides = [t for t in self.shapes["game::Requirement"]["Fields"] if "Array" in t]
        return requirements[1]["Lit"] * sum(self.size(t)[0] for t in sides)

    def parts(self, t, games):
        """How many bytes the arrays have that a value of type t holds outside the game's types."""
        if isinstance(t, str) or named(t) in games:
            return 0
        (kind, inner), = t.items()
        if kind == "Array":
            return self.size(t)[0]
        sides = [inner[1]] if kind == "Struct" else self.variants(t) if kind == "Named" else []
        return max((sum(self.parts(field, games) for field in fields) for fields in sides), default=0)

    def arrays(self, t, within=()):
        """The arrays of over eight words that a value of type t holds itself, with the named types around each."""
        if isinstance(t, str):
            return
        (kind, inner), = t.items()
        if kind == "Array":
            if self.size(t)[0] > BYTES:
                yield t, within
            yield from self.arrays(inner[0], within)
        elif kind == "Struct":
            for field in inner[1]:
                yield from self.arrays(field, within)
        elif kind == "Named":
            for fields in self.variants(t):
                for field in fields:
                    yield from self.arrays(field, within + (named(t),))


class Test:
    def __init__(self, games=GAMES, makers=MAKERS, layer=LAYER, parted=COPIES | PARTED):
        self.games, self.makers, self.layer, self.parted = games, makers, layer, parted
        self.board = None
        self.found, self.functions, self.copies = [], 0, 0

    def say(self, f, n, what):
        self.found.append(f"{f.name}, local {n}: {what}")

    def program(self, text, entry):
        functions = {name: Function(name, said) for name, said in json.loads(text)}
        own = set()  # the arrays inside the game's types
        for f in functions.values():
            for name in self.games & f.shapes.keys():
                own.update(key(array) for array, _ in f.arrays({"Named": [{"name": name}, []]}))
        self.board = None
        if self.layer in functions:
            self.laid(functions[self.layer], own)
        reached = mir.reached(functions, entry)
        for f in reached:
            self.function(f, own)
        self.functions += len(reached)

    def laid(self, f, own):
        """The board's type is that of what `lay` fills; it is the game's but for the sizes."""
        self.board = f.types[2]["Ref"][2]
        own.add(key(self.board))
        words, game, sizes = f.size(self.board)[0], f.size(f.types[1])[0], f.size(f.types[0])[0]
        if named(f.types[0]) != SIZES or words != game - sizes:
            self.say(f, 2, f"a board of {words} bytes, and a game has {game}, its sizes {sizes}")

    def function(self, f, own):
        large = set()
        for n, t in enumerate(f.types):
            arrays = list(f.arrays(t))
            if arrays:
                large.add(n)
            parts = 0 if "Array" in t else f.parts(t, self.games | self.parted)
            if parts > BYTES and not arrays:
                self.say(f, n, f"arrays of {parts} bytes together in {named(t)}")
            for array, within in arrays:
                if key(array) not in own:
                    self.say(f, n, f"an array of {f.size(array)[0]} bytes" + (f" in {' in '.join(reversed(within))}" if within else ""))
        self.copies += len(large)
        boards = {n for n in large if f.types[n] == self.board}
        written = list(self.written(f, large, boards))
        if f.name not in self.makers:
            for n, what in written:
                self.say(f, n, what)
        elif f.name == LISTER:
            self.listed(f, {n for n, _ in written})

    def listed(self, f, made):
        """That the locals `made` are the list and the record that is returned with it, and that the list has no more bytes than the game's sets."""
        arrays = [(n, f.size(array)[0]) for n in sorted(made) for array, _ in f.arrays(f.types[n])]
        if len(arrays) != 2 or 0 not in made:
            self.say(f, ", ".join(str(n) for n, _ in arrays), "not the list and the record of it alone are made")
        for n, size in arrays:
            if size > f.sets():
                self.say(f, n, f"an array of {size} bytes, and the sets of a game have {f.sets()}")

    def lent(self, f, pointer):
        """Whether a pointer is handed to nothing but `board::lay`."""
        handed = lambda value: any(place["local"] == pointer for place in places(value))
        callees = [callee for callee, arguments, _ in f.called if handed(arguments)]
        return not any(handed(value) for _, value in f.assigned) and all(callee["Fn"][0] == self.layer for callee in callees)

    def written(self, f, large, boards):
        """The locals of `large` that are written otherwise than whole, from a place or by a call, and how. Boards may be made of zeros, and laid."""
        # pointers into such a local, and those made from them; each address that a pointer is given is judged
        into, judged, before = {}, set(), None
        while before != len(into):
            before = len(into)
            for place, value in f.assigned:
                if place["steps"] or isinstance(value, str):
                    continue
                (kind, inner), = value.items()
                pointer, targets = place["local"], []
                if not is_pointer(f.types[pointer]):
                    continue
                if kind == "AddrOf" and inner["local"] in large and not any("Deref" in step for step in inner["steps"]):
                    targets = [inner["local"]]
                elif kind in ("Op2", "Opd", "AddrOf"):
                    targets = [into[part["local"]] for part in places(inner) if part["local"] in into and (kind != "Opd" or not part["steps"])]
                for target in targets:
                    into.setdefault(pointer, target)
                    if (pointer, target) in judged:
                        continue
                    judged.add((pointer, target))
                    if is_mut(f.types[pointer]) and not (target in boards and self.lent(f, pointer)):
                        yield target, "a `&mut` to it is made"
        for place, value in f.assigned:
            local, kind = place["local"], value if isinstance(value, str) else next(iter(value))
            if local in large and place["steps"]:
                yield local, "a part of it is written"
            elif local in boards and kind == "Repeat" and value["Repeat"][0] == {"Int": {"width": 64, "value": 0}}:
                continue
            elif local in large and not (kind == "Opd" and "Copy" in value["Opd"]):
                yield local, f"it is made by `{kind}`"
            elif local in into and place["steps"]:
                yield into[local], "it is written through a pointer"
        for _, _, place in f.called:
            if place["local"] in large | into.keys() and place["steps"]:
                yield into.get(place["local"], place["local"]), "a part of it is written by a call"


def whole(files, entry):
    """The functions of each crate that the entry has code of, as a text."""
    program = {f.name: f for text in files.values() for f in mir.functions(text)}
    crates = sorted({f.name.split("::")[0] for f in mir.reached(program, entry)})
    return json.dumps([function for crate in crates for function in json.loads(files[crate])])


def over(texts, change=lambda text: text, **known):
    test = Test(**known)
    for entry, text in texts.items():
        test.program(change(text), entry)
    return test


def main():
    files = mir.texts(sys.argv[1])
    texts = {entry: whole(files, entry) for entry in ENTRIES}
    test = over(texts)
    for line in test.found:
        print(line)
    print(f"arrays: {test.functions} functions, {test.copies} locals with copies of the game's arrays, {len(test.found)} arrays that are none")
    eight = key({"Array": [{"Named": [{"name": "sets::Set", "lifetimes": []}, []]}, {"Lit": 4}]})
    assert all(eight in texts[entry] for entry in ("solver::solve_into", "kit::solve_kit"))
    listed, rows, words = (key({"Array": [{"Int": 64}, {"Lit": n}]}) for n in (128, 256, 660))
    assert all(rows in text for text in texts.values()) and listed in texts["solver::solve_into"]
    assert words in texts["map::won_map"]
    called = '"Fn": ["%s"'
    tries = {
        "a set more": over(texts, lambda text: text.replace(eight, eight.replace("4", "5"))),
        "a list as long as rows": over(texts, lambda text: text.replace(listed, rows)),
        "no type of the game's": over(texts, games=set()),
        "no maker": over(texts, makers=set()),
        "a board that another function fills": over(texts, lambda text: text.replace(called % LAYER, called % "board::sizes_of")),
        "a word more on a board": over(texts, lambda text: text.replace(words, words.replace("660", "661"))),
        "a list in two parts": over(texts, parted=COPIES),
    }
    for what, tried in tries.items():
        print(f"arrays, {what}: {len(tried.found)} found, as {tried.found[0] if tried.found else 'nothing'}")
    return bool(test.found) or not all(tried.found for tried in tries.values())


if __name__ == "__main__":
    sys.exit(main())
