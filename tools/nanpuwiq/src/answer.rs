//! The print of an answer, as document 01 fixes it.
use crate::sizes;
use nanpuwiq::{Error, Game, Winner};
use std::fmt::Write;

/// A table by its lines: the numbers of each start and of each step. Rows of none are left out.
pub struct Lines {
    pub starts: Vec<Vec<usize>>,
    pub steps: Vec<Vec<usize>>,
}

/// The winner and the lines of its table.
pub fn print(game: &Game, winner: Winner, table: &[u16]) -> String {
    let Lines { starts, steps } = lines(game, winner, table);
    let mut text = String::from(match winner {
        Winner::System => "(wins system)\n",
        Winner::Environment => "(wins environment)\n",
    });
    for (word, rows) in [("start", starts), ("step", steps)] {
        for row in rows {
            let numbers: Vec<String> = row.iter().map(usize::to_string).collect();
            let _ = writeln!(text, "({word} {})", numbers.join(" "));
        }
    }
    text
}

/// The line of a refusal.
pub fn refused(error: Error) -> String {
    match error.number {
        11 => format!("(refused 11 {})\n", error.place),
        number => format!("(refused {number})\n"),
    }
}

/// The lines of the winner's table.
pub fn lines(game: &Game, winner: Winner, table: &[u16]) -> Lines {
    match winner {
        Winner::System => controller(game, table),
        Winner::Environment => panel(game, table),
    }
}

/// Starts as input, output; steps as output, counter, input, next output, next counter.
fn controller(game: &Game, table: &[u16]) -> Lines {
    let (inputs, counters) = (game.input.states, sizes::controller_counters(game));
    let (starts, rows) = table.split_at(inputs.min(table.len()));
    let starts = starts.iter().enumerate().filter_map(|(input, entry)| {
        let (output, _) = sizes::controller_entry(*entry)?;
        Some(vec![input, output.0])
    });
    let steps = rows.iter().enumerate().filter_map(|(row, entry)| {
        let (output, next) = sizes::controller_entry(*entry)?;
        Some(vec![row / inputs / counters, row / inputs % counters, row % inputs, output.0, next])
    });
    Lines { starts: starts.collect(), steps: steps.collect() }
}

/// One start, an input; steps as input, counter, output, next input, next counter.
fn panel(game: &Game, table: &[u16]) -> Lines {
    let (outputs, counters) = (game.output.states, sizes::panel_counters(game));
    let (start, rows) = table.split_at(1.min(table.len()));
    let starts = start.iter().filter_map(|entry| Some(vec![sizes::panel_entry(*entry)?.0 .0]));
    let steps = rows.iter().enumerate().filter_map(|(row, entry)| {
        let (input, next) = sizes::panel_entry(*entry)?;
        Some(vec![row / outputs / counters, row / outputs % counters, row % outputs, input.0, next])
    });
    Lines { starts: starts.collect(), steps: steps.collect() }
}
