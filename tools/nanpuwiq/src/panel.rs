//! The panel's side of a play, by the panel's table. This is the only file that names those entries of the library.
use nanpuwiq::{Error, Game, InState, OutState, Position};

/// The panel's first input.
pub fn first(game: &Game, table: &[u16]) -> Result<InState, Error> {
    game.panel_first(table).map(|picked| picked.input)
}

/// The position after the first output.
pub fn begin(game: &Game, table: &[u16], output: OutState) -> Result<Position, Error> {
    game.panel_begin(table, output)
}

/// The panel's pick at a position.
pub fn next(game: &Game, table: &[u16], at: Position) -> Result<InState, Error> {
    game.panel_next(table, at).map(|picked| picked.input)
}

/// The position after the panel's pick there and this output.
pub fn step(game: &Game, table: &[u16], at: Position, output: OutState) -> Result<Position, Error> {
    game.panel_step(table, at, output)
}
