//! What made a position won or lost: the library's ground of it, in words with the names of the states.
use crate::graphs::{components, has, members, moves};
use crate::names::Names;
use crate::requirements::{guarantees, output_set};
use crate::said::{self, Form};
use crate::words::listed;
use nanpuwiq::{Game, Graph, Ground, InState, OutState, Set};

/// A ground's number, 1 to 8, in the order in which they are tried.
pub fn number(ground: Ground) -> usize {
    match ground {
        Ground::InputStuck => 1,
        Ground::ByReplies => 2,
        Ground::AtHome(_) => 3,
        Ground::OutputStuck => 4,
        Ground::Unanswered(_) => 5,
        Ground::ByWayOut(_) => 6,
        Ground::Unserved(..) => 7,
        Ground::PushedOn => 8,
    }
}

/// "won" or "lost".
pub fn verdict(ground: Ground) -> &'static str {
    if ground.is_won() {
        "won"
    } else {
        "lost"
    }
}

/// A game whose states have names, with the component of each state.
pub struct Around<'a> {
    game: &'a Game,
    names: &'a Names,
    inputs: Vec<Set>,
    outputs: Vec<Set>,
}

impl<'a> Around<'a> {
    pub fn of(game: &'a Game, names: &'a Names) -> Around<'a> {
        Around { game, names, inputs: components(&game.input), outputs: components(&game.output) }
    }
}

/// A position of it.
pub struct Place<'a> {
    pub around: &'a Around<'a>,
    pub input: InState,
    pub output: OutState,
}

impl Place<'_> {
    /// "old 1 flush, new 2 economy"
    pub fn called(&self) -> String {
        let names = self.around.names;
        format!("old {}, new {}", names.input_called(self.input), names.output_called(self.output))
    }

    /// Why its ground makes it won or lost: the sentence of a play, without the verdict before it.
    pub fn because(&self, ground: Ground) -> String {
        let Around { game, names, .. } = self.around;
        let (sentence, first, second) = self.sentence(ground);
        let set = game.requirements.get(first).and_then(|q| guarantees(q).get(second));
        let form = Form { name: "", text: said::GROUNDS[sentence] };
        let told = form.with(&[
            ("old", &names.input_called(self.input)),
            ("new", &names.output_called(self.output)),
            ("next", &names.input_called(InState(first))),
            ("home", &staying(self.outputs_with(OutState(first)))),
            ("old_around", &listed(self.inputs_around())),
            ("old_staying", &staying(self.inputs_around())),
            ("new_staying", &staying(self.outputs_with(self.output))),
            ("number", &first.to_string()),
            ("set", &set.map_or(String::new(), |set| output_set(*set, names))),
        ]);
        told.split_once(": ").map_or_else(|| told.clone(), |(_, because)| because.to_string())
    }

    /// The sentence's number in `said::GROUNDS`, and the numbers that the ground names.
    fn sentence(&self, ground: Ground) -> (usize, usize, usize) {
        match ground {
            Ground::InputStuck => (0, 0, 0),
            Ground::ByReplies => (1, 0, 0),
            Ground::AtHome(home) => {
                let there = has(self.around.outputs[home.0], self.output.0);
                let exit = has_exit(&self.around.game.input, self.around.inputs[self.input.0]);
                (2 + 2 * usize::from(!there) + usize::from(exit), home.0, 0)
            }
            Ground::OutputStuck => (6, 0, 0),
            Ground::Unanswered(next) => (7, next.0, 0),
            Ground::ByWayOut(entered) => (8, entered.0, 0),
            Ground::Unserved(requirement, set) => (9, requirement, set),
            Ground::PushedOn => (10, 0, 0),
        }
    }

    /// The inputs of its input's component.
    fn inputs_around(&self) -> Vec<String> {
        let states = self.around.inputs.get(self.input.0).copied().unwrap_or_default();
        members(states).map(|s| self.around.names.input_called(InState(s))).collect()
    }

    /// The outputs of an output's component.
    fn outputs_with(&self, state: OutState) -> Vec<String> {
        let states = self.around.outputs.get(state.0).copied().unwrap_or_default();
        members(states).map(|s| self.around.names.output_called(OutState(s))).collect()
    }
}

/// Whether a move leads out of these states.
fn has_exit(graph: &Graph, states: Set) -> bool {
    members(states).any(|s| members(moves(graph, s)).any(|t| !has(states, t)))
}

/// "in 2 drain", "among 0 pump, 2 flush".
fn staying(states: Vec<String>) -> String {
    let word = if states.len() == 1 { "in" } else { "among" };
    format!("{word} {}", listed(states))
}
