//! The player of a table, as exported code tells it: the modes of one drive are heard, those of the other are answered.
//!
//! A row is told by its number: state × counters + counter, the state being the answered one. An entry is the number of the next row.
use super::identifiers::{symbols, Symbol};
use super::source_name;
use crate::graphs::has;
use crate::names::Names;
use crate::sizes;
use nanpuwiq::{Game, Graph, InState, OutState, NONE, STATES};

/// Whose table is played.
#[derive(Clone, Copy, PartialEq, Eq)]
pub enum Side {
    /// The controller hears inputs and answers outputs.
    Controller,
    /// The panel hears outputs and answers inputs; its first input answers nothing.
    Panel,
}

pub struct Player<'a> {
    pub name: &'a str,
    pub file: String,
    pub side: Side,
    pub inputs: Vec<Symbol>,
    pub outputs: Vec<Symbol>,
    pub counters: usize,
    /// The controller's for each input; the panel's alone.
    pub starts: Vec<Option<usize>>,
    /// The component of each input, where the rows are by component.
    pub ranks: Option<Vec<usize>>,
    pub rows: Vec<Option<usize>>,
    heard: Graph,
}

impl<'a> Player<'a> {
    /// The controller, from its table in the full or the compact layout.
    pub fn controller(
        name: &'a str,
        file: &str,
        game: &Game,
        names: &Names,
        table: &[u16],
        compact: bool,
    ) -> Player<'a> {
        let (inputs, counters) = (game.input.states, sizes::controller_counters(game));
        let (starts, rest) = table.split_at(inputs.min(table.len()));
        let (ranks, rows) = rest.split_at(if compact { inputs.min(rest.len()) } else { 0 });
        let ranks = compact.then(|| ranks.iter().map(|rank| usize::from(*rank)).collect());
        Player {
            starts: entries(starts, counters),
            ranks,
            ..Player::of(name, file, Side::Controller, game, names, counters, rows)
        }
    }

    /// The panel, from its table.
    pub fn panel(name: &'a str, file: &str, game: &Game, names: &Names, table: &[u16]) -> Player<'a> {
        let counters = sizes::panel_counters(game);
        let (starts, rows) = table.split_at(1.min(table.len()));
        Player { starts: entries(starts, counters), ..Player::of(name, file, Side::Panel, game, names, counters, rows) }
    }

    fn of(
        name: &'a str,
        file: &str,
        side: Side,
        game: &Game,
        names: &Names,
        counters: usize,
        rows: &[u16],
    ) -> Player<'a> {
        let inputs: Vec<String> = (0..game.input.states).map(|s| names.input(InState(s))).collect();
        let outputs: Vec<String> = (0..game.output.states).map(|s| names.output(OutState(s))).collect();
        Player {
            name,
            file: source_name(file),
            side,
            inputs: symbols(&inputs),
            outputs: symbols(&outputs),
            counters,
            starts: Vec::new(),
            ranks: None,
            rows: entries(rows, counters),
            heard: if side == Side::Controller { game.input } else { game.output },
        }
    }

    /// The modes that are told to the code.
    pub fn heard(&self) -> &[Symbol] {
        match self.side {
            Side::Controller => &self.inputs,
            Side::Panel => &self.outputs,
        }
    }

    /// The modes that it answers with.
    pub fn answered(&self) -> &[Symbol] {
        match self.side {
            Side::Controller => &self.outputs,
            Side::Panel => &self.inputs,
        }
    }

    /// Entries of a row: one for each mode that is heard, or component.
    pub fn columns(&self) -> usize {
        self.rows.len() / (self.answered().len() * self.counters).max(1)
    }

    /// Which modes may be heard after each mode, and in a last line which may be heard first.
    pub fn may(&self) -> Vec<Vec<bool>> {
        let states = self.heard.states;
        let sets = self.heard.moves.iter().take(states).chain([&self.heard.initial]);
        sets.map(|set| (0..states).map(|s| has(*set, s)).collect()).collect()
    }

    /// Whether some mode that is heard has a move to itself.
    pub fn can_stay(&self) -> bool {
        (0..self.heard.states).any(|s| has(self.heard.moves[s], s))
    }
}

/// Entries of the library's as numbers of rows.
fn entries(table: &[u16], counters: usize) -> Vec<Option<usize>> {
    let row = |entry: usize| entry % STATES * counters + entry / STATES;
    table.iter().map(|entry| (*entry != NONE).then(|| row(usize::from(*entry)))).collect()
}
