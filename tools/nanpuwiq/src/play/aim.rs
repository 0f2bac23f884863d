//! What the winner's table aims at now: its counter, told as the set that it is on its way to. The set is the one that document 01's rules for a row name.
use super::table::Match;
use crate::graphs::{has, members};
use crate::requirements::{assumptions, guarantees, input_set, output_set};
use crate::said::{self, Form};
use nanpuwiq::{Ground, InState, OutState, Position, Set};

/// What the table is at in a position. A component is named by its smallest state.
#[derive(Clone, Copy, PartialEq, Eq, PartialOrd, Ord)]
pub enum Aim {
    /// The controller has a reply to everything, and nothing comes back.
    Replying,
    /// The controller is on its way to this component.
    GoingOver(usize),
    /// The controller is in this component, and goes from output set to output set.
    ControllersTour(usize),
    /// The panel's next step has no answer.
    Cornering,
    /// The panel is on its way out of this component.
    Leaving(usize),
    /// The panel stays in this component, and goes from input set to input set.
    PanelsTour(usize),
}

impl Aim {
    /// What a position with this ground is for the table; none where the play stops there.
    pub fn of(game: &Match, at: Position, ground: Ground) -> Option<Aim> {
        let around = members(game.old_component(at.input)).next().unwrap_or(at.input.0);
        match ground {
            Ground::InputStuck | Ground::OutputStuck => None,
            Ground::ByReplies => Some(Aim::Replying),
            Ground::AtHome(home) if has(game.new_component(home), at.output.0) => Some(Aim::ControllersTour(home.0)),
            Ground::AtHome(home) => Some(Aim::GoingOver(home.0)),
            Ground::Unanswered(_) => Some(Aim::Cornering),
            Ground::ByWayOut(_) => Some(Aim::Leaving(around)),
            Ground::Unserved(..) | Ground::PushedOn => Some(Aim::PanelsTour(around)),
        }
    }

    /// The words for it with this value of the counter.
    pub fn words(self, game: &Match, counter: usize) -> String {
        match self {
            Aim::Replying => said::CONTROLLER_REPLIES.with(&[]),
            Aim::GoingOver(home) => said::CONTROLLER_GOES_OVER.with(&[("home", &game.outputs_staying(OutState(home)))]),
            Aim::ControllersTour(home) => {
                let aim =
                    toured(&said::CONTROLLER_AIMS, &output_sets(game), counter, game.new_component(OutState(home)));
                aim.unwrap_or_else(|| said::CONTROLLER_IDLES.with(&[]))
            }
            Aim::Cornering => said::PANEL_CORNERS.with(&[]),
            Aim::Leaving(around) => said::PANEL_LEAVES.with(&[("around", &game.inputs_around(InState(around)))]),
            Aim::PanelsTour(around) => {
                let aim = toured(&said::PANEL_AIMS, &input_sets(game), counter, game.old_component(InState(around)));
                aim.unwrap_or_else(|| said::PANEL_IDLES.with(&[]))
            }
        }
    }
}

/// A set of a requirement that a table's tour comes by.
struct Stop {
    requirement: usize,
    states: Set,
    words: String,
}

/// The first set from the counter on, going round, that meets these states.
fn toured(form: &Form, sets: &[Stop], counter: usize, states: Set) -> Option<String> {
    let (before, after) = sets.split_at(counter.min(sets.len()));
    let aim = after.iter().chain(before).find(|stop| stop.states & states != Set::default())?;
    Some(form.with(&[("set", &aim.words), ("number", &aim.requirement.to_string())]))
}

/// The input sets of all requirements, in the file's order.
fn input_sets(game: &Match) -> Vec<Stop> {
    let mut stops = Vec::new();
    for (requirement, q) in game.game.requirements.iter().take(game.game.k).enumerate() {
        for set in assumptions(q) {
            stops.push(Stop { requirement, states: set.0, words: input_set(*set, &game.names) });
        }
    }
    stops
}

/// The output sets of all requirements, in the file's order.
fn output_sets(game: &Match) -> Vec<Stop> {
    let mut stops = Vec::new();
    for (requirement, q) in game.game.requirements.iter().take(game.game.k).enumerate() {
        for set in guarantees(q) {
            stops.push(Stop { requirement, states: set.0, words: output_set(*set, &game.names) });
        }
    }
    stops
}
