//! The won map as a grid to point at: a row for each input, a column for each output.
use crate::graphs::members;
use crate::page::drawing::wide;
use crate::page::pack::escaped;
use crate::play::table::Match;
use nanpuwiq::{InState, OutState};
use std::fmt::Write;

/// The picture. Its cells are one path, so that 16,384 of them are no burden; `data-` attributes tell the script where a cell is.
pub fn grid(game: &Match) -> String {
    let (inputs, outputs) = (game.game.input.states, game.game.output.states);
    let old: Vec<String> = (0..inputs).map(|s| game.input_called(InState(s))).collect();
    let new: Vec<String> = (0..outputs).map(|s| game.output_called(OutState(s))).collect();
    let longest = |names: &[String]| names.iter().map(|name| wide(name)).fold(1.0, f64::max);
    let (cell, letter) = match inputs.max(outputs) {
        0..=12 => (32.0, 7.4),
        13..=40 => (20.0, 6.6),
        _ => (11.0, 5.6),
    };
    let left = longest(&old) * letter + 14.0;
    // names of columns are written upwards
    let top = longest(&new) * letter + 14.0;
    let (width, height) = (left + cell * outputs as f64 + 4.0, top + cell * inputs as f64 + 4.0);
    let mut text = format!(
        "<svg id=\"grid\" class=\"cells{}\" viewBox=\"0 0 {width:.0} {height:.0}\" width=\"{width:.0}\" height=\"{height:.0}\" data-cell=\"{cell}\" data-left=\"{left:.1}\" data-top=\"{top:.1}\" role=\"img\" aria-label=\"The won map: a row for each mode of the old drive, a column for each of the new\">",
        match cell as usize { 32 => "", 20 => " middling", _ => " small" }
    );
    for (row, name) in old.iter().enumerate() {
        let y = top + cell * (row as f64 + 0.5);
        let _ = write!(
            text,
            "<text class=\"row\" x=\"{:.1}\" y=\"{:.1}\">{}</text>",
            left - 6.0,
            y + letter / 2.0 + 0.5,
            escaped(name)
        );
    }
    for (column, name) in new.iter().enumerate() {
        let (x, y) = (left + cell * (column as f64 + 0.5) + letter / 2.0 + 0.5, top - 6.0);
        let _ = write!(
            text,
            "<text class=\"column\" x=\"{x:.1}\" y=\"{y:.1}\" transform=\"rotate(-90 {x:.1} {y:.1})\">{}</text>",
            escaped(name)
        );
    }
    let _ = write!(text, "<path class=\"won\" d=\"{}\"/>", won(game, cell, left, top));
    let _ = write!(text, "<path class=\"lines\" d=\"{}\"/>", lines(inputs, outputs, cell, left, top));
    text + "<rect class=\"cursor\"/><rect class=\"present\"/></svg>"
}

/// The won cells; those side by side in a row are one box.
fn won(game: &Match, cell: f64, left: f64, top: f64) -> String {
    let mut path = String::new();
    for (row, set) in game.won.iter().take(game.game.input.states).enumerate() {
        let mut from: Option<(usize, usize)> = None;
        for column in members(*set) {
            from = match from {
                Some((first, last)) if last + 1 == column => Some((first, column)),
                other => {
                    boxed(&mut path, other, row, (cell, left, top));
                    Some((column, column))
                }
            };
        }
        boxed(&mut path, from, row, (cell, left, top));
    }
    path
}

fn boxed(path: &mut String, columns: Option<(usize, usize)>, row: usize, (cell, left, top): (f64, f64, f64)) {
    if let Some((first, last)) = columns {
        let (x, y, width) = (left + cell * first as f64, top + cell * row as f64, cell * (last - first + 1) as f64);
        let _ = write!(path, "M{x:.1} {y:.1}h{width:.0}v{cell:.0}h-{width:.0}z");
    }
}

fn lines(inputs: usize, outputs: usize, cell: f64, left: f64, top: f64) -> String {
    let (width, height) = (cell * outputs as f64, cell * inputs as f64);
    let across = (0..=inputs).map(|row| format!("M{left:.1} {:.1}h{width:.0}", top + cell * row as f64));
    let down = (0..=outputs).map(|column| format!("M{:.1} {top:.1}v{height:.0}", left + cell * column as f64));
    across.chain(down).collect()
}
