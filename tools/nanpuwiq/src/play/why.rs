//! Why a position is won or lost: the library's ground of it, in words with the names of the states.
use super::table::Match;
use crate::graphs::{has, members, moves};
use crate::requirements::{guarantees, output_set};
use crate::said::{self, Form};
use nanpuwiq::{Error, Graph, Ground, InState, OutState, Position, Set};
use std::fmt::Write;

pub fn words(game: &Match, at: Option<Position>) -> Result<String, Error> {
    match at {
        Some(at) => Ok(said::WHY.with(&[("ground", &ground(game, at)?)]) + "\n"),
        None => beginnings(game),
    }
}

/// Before the first pick there is no position: the ground of each one that a pick begins with.
fn beginnings(game: &Match) -> Result<String, Error> {
    let mut text = String::new();
    for pick in game.allowed(None)? {
        let at = game.pick(None, pick)?;
        let (old, new) = (game.input_called(at.input), game.output_called(at.output));
        let line = said::BEGINNING.with(&[("old", &old), ("new", &new), ("ground", &ground(game, at)?)]);
        let _ = writeln!(text, "    {line}");
    }
    Ok(match text.is_empty() {
        true => said::NOTHING_TO_BEGIN.with(&[]) + "\n",
        false => format!("{}\n{text}", said::NOTHING_PLAYED.with(&[])),
    })
}

/// The ground's words. Those of a lost position after the first two are given only where the old drive can stay in its component.
fn ground(game: &Match, at: Position) -> Result<String, Error> {
    Ok(Reason::of(game, at, game.ground(at)?).words(game, at))
}

/// The sentence for a ground: its number in `said::GROUNDS`, and the numbers that come with the ground.
pub struct Reason {
    pub sentence: usize,
    pub first: usize,
    pub second: usize,
}

impl Reason {
    pub fn of(game: &Match, at: Position, ground: Ground) -> Reason {
        let (sentence, first, second) = match ground {
            Ground::InputStuck => (0, 0, 0),
            Ground::ByReplies => (1, 0, 0),
            Ground::AtHome(home) => {
                let there = has(game.new_component(home), at.output.0);
                let exit = has_exit(&game.game.input, game.old_component(at.input));
                (2 + 2 * usize::from(!there) + usize::from(exit), home.0, 0)
            }
            Ground::OutputStuck => (6, 0, 0),
            Ground::Unanswered(next) => (7, next.0, 0),
            Ground::ByWayOut(entered) => (8, entered.0, 0),
            Ground::Unserved(requirement, set) => (9, requirement, set),
            Ground::PushedOn => (10, 0, 0),
        };
        Reason { sentence, first, second }
    }

    /// The sentence with its holes filled, for the position.
    fn words(&self, game: &Match, at: Position) -> String {
        let Reason { sentence, first, second } = *self;
        let set = game.game.requirements.get(first).and_then(|q| guarantees(q).get(second));
        let form = Form { name: "", text: said::GROUNDS[sentence] };
        form.with(&[
            ("old", &game.input_called(at.input)),
            ("new", &game.output_called(at.output)),
            ("next", &game.input_called(InState(first))),
            ("home", &game.outputs_staying(OutState(first))),
            ("old_around", &game.inputs_around(at.input)),
            ("old_staying", &game.inputs_staying(at.input)),
            ("new_staying", &game.outputs_staying(at.output)),
            ("number", &first.to_string()),
            ("set", &set.map_or(String::new(), |set| output_set(*set, &game.names))),
        ])
    }
}

/// Whether a move leads out of these states.
fn has_exit(graph: &Graph, states: Set) -> bool {
    members(states).any(|s| members(moves(graph, s)).any(|t| !has(states, t)))
}
