#!/usr/bin/env python3
"""Which crates an entry's code comes from.

    tests/calls.py MIR

MIR is the folder where tools/prove lays out the code that the crates were lowered to (tests/mir.py). The solver of the lecture room "never uses components of
the single graphs" (document 02, M-108): of the functions that `joined::joined_map` calls, directly or not, none is of a crate that works out closures,
components, ranks or ways of one graph, nor of one that holds them in scratch. The test is tried itself: the solver's own map must be found to call such
crates, and so must a function that hands one of std's an impl whose method does, as `?` does with a `From`."""

import sys

import mir

# The crates with code for the closure and the components of one graph, and those that keep or read what these find.
SINGLE = ("graph_", "region", "scratch", "ground_")
# It clears words and knows no graph.
CLEARING = "scratch_clearing"


def called(program, entry):
    """The crates of the functions that the entry calls."""
    return {f.name.split("::")[0] for f in mir.reached(program, entry)}


def of_single_graphs(crates):
    return sorted(c for c in crates if c.startswith(SINGLE) and c != CLEARING)


def by_impl():
    """Whether a method that a function of std calls by its impl is reached."""
    call = lambda name, *impls: {"Call": [{"Fn": [name, {"types": [], "dicts": [{"Impl": [impl, [], []]} for impl in impls]}]}, [], {"local": 0, "steps": []}]}
    made = {
        "ours::entry": call("core::result::ResultFromResidualErrResidual::from_residual", "ours::LateFromEarly"),
        "ours::LateFromEarly::from": call("graph_closure::close"),
        "graph_closure::close": "Return",
    }
    program = {name: mir.Function(name, {"body": body, "locals": [], "types": []}) for name, body in made.items()}
    return called(program, "ours::entry") == {"ours", "graph_closure"}


def main():
    program = {f.name: f for text in mir.texts(sys.argv[1]).values() for f in mir.functions(text)}
    joined = called(program, "joined::joined_map")
    found = of_single_graphs(joined)
    print(f"calls: joined::joined_map has code of {', '.join(sorted(joined))}; of components of single graphs: {', '.join(found) or 'none'}")
    own = of_single_graphs(called(program, "map::won_map"))
    if not own:
        print("calls: the test finds no component in map::won_map either")
    if not by_impl():
        print("calls: the test does not follow an impl that a function of std is handed")
    return bool(found) or not own or not by_impl()


if __name__ == "__main__":
    sys.exit(main())
