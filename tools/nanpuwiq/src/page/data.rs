//! What the page's script is given.
use crate::graphs::{members, moves};
use crate::json::Json;
use crate::page::drawing;
use crate::page::pack;
use crate::play::aim::Aim;
use crate::play::table::{Match, Pick};
use crate::play::why::Reason;
use crate::play::{hint, screen};
use crate::requirements::{assumptions, guarantees, input_set, output_set};
use crate::said;
use crate::sizes;
use nanpuwiq::{Ground, InState, OutState, Position, Set, Winner, NONE};
use std::collections::BTreeMap;

pub fn of(title: &str, game: &Match, grounds: &[Ground]) -> Json {
    Json::object([
        ("title", title.into()),
        ("person", if game.winner == Winner::System { "old" } else { "new" }.into()),
        ("old", side(&drawing::Side::old(game))),
        ("new", side(&drawing::Side::new(game))),
        ("names", names(game)),
        ("around", around(game)),
        ("requirements", requirements(game)),
        ("said", said()),
        ("grounds", Json::list(said::GROUNDS)),
        ("reasons", reasons(game, grounds)),
        ("won", Json::List(game.won.iter().map(|row| pack::set(*row)).collect())),
        ("aims", aims(game, grounds)),
        ("hints", hints(game)),
        ("table", table(game)),
    ])
}

/// A graph: its states as people call them, its initial states and moves, the component of each state, and the sets that it belongs to.
fn side(drawn: &drawing::Side) -> Json {
    let graph = drawn.graph;
    let first = |s: usize| members(drawn.components[s]).next().unwrap_or(s);
    let tags = |s: usize| {
        Json::List(
            drawn.tags(s).iter().map(|tag| Json::List(vec![tag.label.clone().into(), tag.pattern.into()])).collect(),
        )
    };
    Json::object([
        ("called", Json::list(drawn.called.clone())),
        ("initial", pack::set(graph.initial)),
        ("moves", Json::List((0..graph.states).map(|s| pack::set(moves(graph, s))).collect())),
        ("component", Json::list((0..graph.states).map(first))),
        ("tags", Json::List((0..graph.states).map(tags).collect())),
        ("whole", drawn.is_whole().into()),
    ])
}

/// The names that a recording has: of every state its name, or its number.
fn names(game: &Match) -> Json {
    let old = (0..game.game.input.states).map(|s| game.names.input(InState(s)));
    let new = (0..game.game.output.states).map(|s| game.names.output(OutState(s)));
    Json::object([("old", Json::list(old)), ("new", Json::list(new))])
}

/// The components in words, at the place of their smallest state.
fn around(game: &Match) -> Json {
    let smallest = |states: Set, s: usize| members(states).next() == Some(s);
    let old = |words: &dyn Fn(InState) -> String| {
        let told = |s| if smallest(game.old_component(InState(s)), s) { words(InState(s)) } else { String::new() };
        Json::list((0..game.game.input.states).map(told))
    };
    let new = |s| {
        if smallest(game.new_component(OutState(s)), s) {
            game.outputs_staying(OutState(s))
        } else {
            String::new()
        }
    };
    Json::object([
        ("old", old(&|s| game.inputs_around(s))),
        ("oldStaying", old(&|s| game.inputs_staying(s))),
        ("newStaying", Json::list((0..game.game.output.states).map(new))),
    ])
}

fn requirements(game: &Match) -> Json {
    let set = |states, words: String| Json::object([("states", pack::set(states)), ("words", words.into())]);
    let used = game.game.requirements.iter().take(game.game.k);
    let sides = |q| {
        Json::object([
            ("old", Json::List(assumptions(q).iter().map(|s| set(s.0, input_set(*s, &game.names))).collect())),
            ("new", Json::List(guarantees(q).iter().map(|s| set(s.0, output_set(*s, &game.names))).collect())),
        ])
    };
    Json::List(used.map(sides).collect())
}

/// The sentences of a play by their names, and those that depend on who the person is.
fn said() -> Json {
    Json::Object(said::ALL.iter().map(|form| (form.name, form.text.into())).collect())
}

/// The positions, input by input, the outputs running fastest, with their grounds.
fn positions<'a>(game: &Match, grounds: &'a [Ground]) -> impl Iterator<Item = (Position, Ground)> + 'a {
    let outputs = game.game.output.states;
    grounds.iter().enumerate().map(move |(place, ground)| {
        (Position { input: InState(place / outputs), output: OutState(place % outputs), counter: 0 }, *ground)
    })
}

/// For each position the sentence of its ground, with the ground's numbers: sentence + 16 × first + 2048 × second.
fn reasons(game: &Match, grounds: &[Ground]) -> Json {
    pack::words(positions(game, grounds).map(|(at, ground)| {
        let Reason { sentence, first, second } = Reason::of(game, at, ground);
        (sentence + 16 * first + 2048 * second) as u16
    }))
}

/// What the table aims at: for each position a row, and in a row a sentence for each value of the counter. Few rows differ.
fn aims(game: &Match, grounds: &[Ground]) -> Json {
    let (mut aims, mut sentences) = (Numbered::default(), Numbered::default());
    let system = game.winner == Winner::System;
    let of: Vec<u16> = positions(game, grounds)
        // where the other side wins the table has no row
        .map(|(at, ground)| if ground.is_won() == system { Aim::of(game, at, ground) } else { None })
        .map(|aim| aims.number(aim) as u16)
        .collect();
    let mut row = |aim: Option<Aim>| {
        let told = |counter| aim.map_or(String::new(), |aim| aim.words(game, counter));
        Json::list((0..counters(game)).map(|counter| sentences.number(told(counter))).collect::<Vec<_>>())
    };
    let rows = Json::List(aims.listed().into_iter().map(&mut row).collect());
    Json::object([("sentences", Json::list(sentences.listed())), ("rows", rows), ("of", pack::words(of))])
}

/// Different values, numbered as they come.
struct Numbered<T>(BTreeMap<T, usize>);

impl<T> Default for Numbered<T> {
    fn default() -> Numbered<T> {
        Numbered(BTreeMap::new())
    }
}

impl<T: Ord + Clone> Numbered<T> {
    fn number(&mut self, value: T) -> usize {
        let next = self.0.len();
        *self.0.entry(value).or_insert(next)
    }

    fn listed(&self) -> Vec<T> {
        let mut values: Vec<(&usize, &T)> = self.0.iter().map(|(value, number)| (number, value)).collect();
        values.sort_by_key(|(number, _)| **number);
        values.into_iter().map(|(_, value)| value.clone()).collect()
    }
}

/// For each pick the requirements that it gives up, each with the set that cannot recur.
fn hints(game: &Match) -> Json {
    let picks: Vec<Pick> = match game.winner {
        Winner::System => (0..game.game.input.states).map(|s| Pick::Input(InState(s))).collect(),
        Winner::Environment => (0..game.game.output.states).map(|s| Pick::Output(OutState(s))).collect(),
    };
    let pairs = |pick: &Pick| {
        Json::List(hint::given_up(game, *pick).into_iter().map(|(number, set)| Json::list([number, set])).collect())
    };
    Json::object([
        ("of", Json::List(picks.iter().map(pairs).collect())),
        ("form", if game.winner == Winner::System { said::NEVER_DUE } else { said::GIVES_UP }.name.into()),
        ("certain", if game.winner == Winner::System { said::ALL_WON } else { said::ALL_LOST }.name.into()),
        ("mayBegin", screen::may(game.winner, true).name.into()),
        ("may", screen::may(game.winner, false).name.into()),
        ("stuck", screen::stuck(game.winner).name.into()),
    ])
}

pub fn counters(game: &Match) -> usize {
    match game.winner {
        Winner::System => sizes::controller_counters(&game.game),
        Winner::Environment => sizes::panel_counters(&game.game),
    }
}

/// The states that a table's starts are for, and the length of a block of rows: those of one own state and one counter.
pub fn widths(game: &Match) -> (usize, usize) {
    match game.winner {
        Winner::System => (game.game.input.states, game.game.input.states),
        Winner::Environment => (1, game.game.output.states),
    }
}

/// The winner's table: its starts, and its rows in blocks. A block that was there before is not told again.
fn table(game: &Match) -> Json {
    let (starts, width) = widths(game);
    let (starts, rows) = game.table.split_at(starts.min(game.table.len()));
    let mut blocks = Numbered::default();
    let of: Vec<u16> = rows.chunks(width).map(|block| blocks.number(block.to_vec()) as u16).collect();
    Json::object([
        ("counters", counters(game).into()),
        ("width", width.into()),
        ("none", NONE.into()),
        ("starts", pack::words(starts.iter().copied())),
        ("blockOf", pack::words(of)),
        ("blocks", pack::words(blocks.listed().concat())),
    ])
}
