//! The match: whose turn it is, what may be picked, and what the winner's table does then. Every step is the library's.
use crate::graphs::{components, members, moves};
use crate::names::Names;
use crate::panel;
use crate::words::listed;
use nanpuwiq::{Error, Game, Ground, InState, OutState, Position, Set, Verdict, Winner};

/// A game with its winner's table, and the won map.
pub struct Match {
    pub game: Game,
    pub names: Names,
    pub winner: Winner,
    pub table: Vec<u16>,
    pub won: Vec<Set>,
    /// The component of each input and of each output.
    old_components: Vec<Set>,
    new_components: Vec<Set>,
}

/// What a person may pick: an input where they are the panel, an output where they are the new drive.
#[derive(Clone, Copy, PartialEq, Eq)]
pub enum Pick {
    Input(InState),
    Output(OutState),
}

impl Match {
    /// The game solved, by the library.
    pub fn of(game: Game, names: Names) -> Result<Match, Error> {
        let Verdict { winner, table } = game.solve()?;
        let won = game.won_map()?;
        let (old_components, new_components) = (components(&game.input), components(&game.output));
        Ok(Match { game, names, winner, table, won, old_components, new_components })
    }

    /// The inputs of a state's component.
    pub fn old_component(&self, state: InState) -> Set {
        self.old_components.get(state.0).copied().unwrap_or_default()
    }

    /// The outputs of a state's component.
    pub fn new_component(&self, state: OutState) -> Set {
        self.new_components.get(state.0).copied().unwrap_or_default()
    }

    /// What made a position won or lost.
    pub fn ground(&self, at: Position) -> Result<Ground, Error> {
        self.game.explain(at.input, at.output)
    }

    /// The picks that are allowed at a position, or at the start.
    pub fn allowed(&self, at: Option<Position>) -> Result<Vec<Pick>, Error> {
        let Match { game, winner, .. } = self;
        Ok(match winner {
            Winner::System => {
                let inputs = at.map_or(game.input.initial, |at| moves(&game.input, at.input.0));
                members(inputs).map(|s| Pick::Input(InState(s))).collect()
            }
            Winner::Environment => {
                let outputs = at.map_or(game.output.initial, |at| moves(&game.output, at.output.0));
                members(outputs).map(|s| Pick::Output(OutState(s))).collect()
            }
        })
    }

    /// The input that the table has picked before the person's output; none where the person is the panel.
    pub fn announced(&self, at: Option<Position>) -> Result<Option<InState>, Error> {
        match (self.winner, at) {
            (Winner::System, _) => Ok(None),
            (Winner::Environment, None) => Ok(Some(panel::first(&self.game, &self.table)?)),
            (Winner::Environment, Some(at)) => Ok(Some(panel::next(&self.game, &self.table, at)?)),
        }
    }

    /// The configuration after a pick and the table's part.
    pub fn pick(&self, at: Option<Position>, pick: Pick) -> Result<Position, Error> {
        let Match { game, table, .. } = self;
        match (pick, at) {
            (Pick::Input(first), None) => game.begin(table, first),
            (Pick::Input(next), Some(mut at)) => game.step(table, &mut at, next).map(|()| at),
            (Pick::Output(first), None) => panel::begin(game, table, first),
            (Pick::Output(next), Some(at)) => panel::step(game, table, at, next),
        }
    }

    /// The pick that a person means by a number or a name.
    pub fn meant(&self, word: &str) -> Option<Pick> {
        match self.winner {
            Winner::System => self.names.input_of(word, self.game.input.states).map(Pick::Input),
            Winner::Environment => self.names.output_of(word, self.game.output.states).map(Pick::Output),
        }
    }

    /// A pick for people: its number, and its name where it has one.
    pub fn called(&self, pick: Pick) -> String {
        let (number, name) = match pick {
            Pick::Input(s) => (s.0, self.names.input(s)),
            Pick::Output(s) => (s.0, self.names.output(s)),
        };
        match name == number.to_string() {
            true => name,
            false => format!("{number} {name}"),
        }
    }

    pub fn input_called(&self, state: InState) -> String {
        self.called(Pick::Input(state))
    }

    pub fn output_called(&self, state: OutState) -> String {
        self.called(Pick::Output(state))
    }

    /// The inputs of a component: "0 pump, 1 flush".
    pub fn inputs_around(&self, state: InState) -> String {
        listed(self.inputs_of(state))
    }

    /// The same with a word before it: "in 2 drain", "among 0 pump, 1 flush".
    pub fn inputs_staying(&self, state: InState) -> String {
        staying(self.inputs_of(state))
    }

    pub fn outputs_staying(&self, state: OutState) -> String {
        let states = members(self.new_component(state));
        staying(states.map(|s| self.output_called(OutState(s))).collect())
    }

    fn inputs_of(&self, state: InState) -> Vec<String> {
        members(self.old_component(state)).map(|s| self.input_called(InState(s))).collect()
    }
}

fn staying(states: Vec<String>) -> String {
    let word = if states.len() == 1 { "in" } else { "among" };
    format!("{word} {}", listed(states))
}
