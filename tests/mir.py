"""The code that the crates were lowered to, before a compiler has it: what a library's rlib holds in
toolchain/mir.json, laid out by tools/prove.

A file has each function of its crate: the types of its locals, the shapes of the named types, and its body, terms one
after the other. A term is a word, or one word with what belongs to it, as {"Assign": [PLACE, VALUE]}. A place is a local
with steps to a part of it or to what it points to."""

import json
import pathlib


# What the crates call of std. Each of these looks at a value, moves it, or writes a slice that is lent to it: a local of theirs holds no more than the caller's
# own locals do. Of ours they call the methods of the impls that the call hands over, and nothing else; those are followed. Any other function that is not
# there is an error.
STD = {
    "core::clone::UsizeClone::clone",
    "core::cmp::numbers::UsizePartialEq::eq",
    "core::convert::UsizeFromU16::from",
    "core::convert::UsizeFromU8::from",
    "core::iter::base::Iterator::size_hint",
    "core::option::Option::is_some",
    "core::option::Option::unwrap",
    "core::option::OptionFromResidualNoValue::from_residual",
    "core::option::OptionTry::branch",
    "core::result::ResultFromResidualErrResidual::from_residual",
    "core::result::ResultTry::branch",
    "core::slice::edits::slice+T::copy_from_slice",
    "core::slice::edits::slice+T::fill",
}


def texts(folder):
    """The text of each crate's file, by the crate's name."""
    return {path.stem: path.read_text() for path in sorted(pathlib.Path(folder).glob("*.json"))}


def terms(value):
    """Every term within a value, as (word, what belongs to it)."""
    if isinstance(value, dict):
        for word, inner in value.items():
            yield word, inner
            yield from terms(inner)
    elif isinstance(value, list):
        for inner in value:
            yield from terms(inner)


class Function:
    def __init__(self, name, said):
        self.name, self.body = name, said["body"]
        self.types = [local["ty"] for local in said["locals"]]
        self.shapes = {named["name"]: named["shape"] for named in said["types"]}
        self.calls, self.other, self.impls = set(), [], set()
        for word, inner in terms(self.body):
            if word == "Fn":
                self.calls.add(inner[0])
                if inner[0] in STD:
                    self.impls |= {handed[0] for kind, handed in terms(inner[1]) if kind == "Impl"}
            elif word in ("CallV", "Fork") or word == "Call" and "Fn" not in inner[0]:
                self.other.append(word)


def functions(text):
    return [Function(name, said) for name, said in json.loads(text)]


def methods(program, impl):
    """The methods of an impl that a function of std is handed: none where it is std's own, and none to free what needs no freeing. An impl of ours without a
    method is an error."""
    found = {name for name in program if name.startswith(f"{impl}::")}
    if not found and not impl.startswith("core::") and not impl.endswith("::Destruct++none"):
        raise ValueError(f"{impl} has no method")
    return found


def reached(program, entry):
    """The functions that the entry calls, directly or not, and itself, but for those of STD. One that is not there, or a call of what no name tells, is an
    error: nothing is passed over in silence."""
    left, seen = [entry], {entry}
    while left:
        f = program[left.pop()]
        if f.other:
            raise ValueError(f"{f.name} calls what no name tells: {f.other[0]}")
        for name in f.calls.union(*(methods(program, impl) for impl in f.impls)) - seen - STD:
            seen.add(name)
            left.append(name)
    return [program[name] for name in sorted(seen)]
