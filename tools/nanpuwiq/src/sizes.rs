//! How long a game's tables are, and how an entry is taken apart.
use nanpuwiq::{Game, InState, OutState, NONE, STATES};

/// Entries that the programs `solve` and `catalogue` lend for each table.
pub const PROGRAM_ROOM: usize = 32_768;

/// Values of the controller's counter: one for each output set, one at least.
pub fn controller_counters(game: &Game) -> usize {
    game.requirements.iter().map(|q| q.guaranteed).sum::<usize>().max(1)
}

/// Values of the panel's counter: one for each input set, one at least.
pub fn panel_counters(game: &Game) -> usize {
    game.requirements.iter().map(|q| q.assumed).sum::<usize>().max(1)
}

pub fn controller_entries(game: &Game) -> usize {
    game.input.states + game.output.states * controller_counters(game) * game.input.states
}

pub fn panel_entries(game: &Game) -> usize {
    1 + game.input.states * panel_counters(game) * game.output.states
}

/// The next state and the next counter of an entry, where it is not none.
fn parts(entry: u16) -> Option<(usize, usize)> {
    (entry != NONE).then(|| (usize::from(entry) % STATES, usize::from(entry) / STATES))
}

/// A controller's entry: an output and a counter.
pub fn controller_entry(entry: u16) -> Option<(OutState, usize)> {
    parts(entry).map(|(state, counter)| (OutState(state), counter))
}

/// A panel's entry: an input and a counter.
pub fn panel_entry(entry: u16) -> Option<(InState, usize)> {
    parts(entry).map(|(state, counter)| (InState(state), counter))
}
