//! What is there to read: the requirements and the winner's table, as HTML.
use crate::page::data::{counters, widths};
use crate::page::pack::escaped;
use crate::play::table::Match;
use crate::words::grouped;
use nanpuwiq::{InState, OutState, Winner, NONE, STATES};
use std::collections::BTreeMap;
use std::fmt::Write;

/// Cells of a table that are there to read at most; the script has those of a longer one too. More would make the page slow to open.
const PRINTED: usize = 1_024;

/// The requirements, each with its pattern.
pub fn requirements(game: &Match, lines: &[String]) -> String {
    if game.game.k == 0 {
        return "<p>Nothing is required: the new drive must only keep up.</p>".to_string();
    }
    let line = |(number, line): (usize, &String)| {
        let swatch = format!("<svg class=\"key\" width=\"16\" height=\"16\" aria-hidden=\"true\"><rect class=\"swatch\" x=\"1\" y=\"1\" width=\"14\" height=\"14\" fill=\"url(#pattern{number})\"/></svg>");
        format!("<li data-requirement=\"{number}\">{swatch}<span>{}</span></li>", escaped(line))
    };
    format!("<ul class=\"requirements\">{}</ul>", lines.iter().enumerate().map(line).collect::<String>())
}

/// The table: a row for an own state and a value of the counter, a column for what the other side can do. Equal columns stand together.
pub fn table(game: &Match) -> String {
    let (starts, width) = widths(game);
    let (starts, rows) = game.table.split_at(starts.min(game.table.len()));
    let blocks: Vec<&[u16]> = rows.chunks(width).collect();
    let columns = equal_columns(&blocks, width);
    let mut text = format!("<p>{}</p>", escaped(&beginning(game, starts)));
    if blocks.len() * columns.len() > PRINTED {
        let export = if game.winner == Winner::System { "export --c" } else { "export --c --panel" };
        let _ = write!(text, "<p>The table has {} entries, too many to be printed here: the page plays by them, and <code>nanpuwiq {export}</code> writes them.</p>", grouped(game.table.len()));
        return text;
    }
    let (own, other) = match game.winner {
        Winner::System => ("New drive", "the old drive goes to"),
        Winner::Environment => ("Old drive", "the new drive is in"),
    };
    let heads: String =
        columns.iter().map(|(_, group)| format!("<th scope=\"col\">{}</th>", escaped(&listed(game, group)))).collect();
    let _ = write!(text, "<p class=\"note\" id=\"table-note\">{}</p><div class=\"sheet\"><table aria-describedby=\"table-note\"><thead><tr><th scope=\"col\">{own}</th><th scope=\"col\">Counter</th>{heads}</tr></thead><tbody>", escaped(&caption(game, other)));
    for (row, block) in blocks.iter().enumerate() {
        let (state, counter) = (row / counters(game), row % counters(game));
        let cells: String =
            columns.iter().map(|(first, _)| format!("<td>{}</td>", escaped(&entry(game, block[*first])))).collect();
        let _ = write!(
            text,
            "<tr><th scope=\"row\">{}</th><td>{counter}</td>{cells}</tr>",
            escaped(&own_called(game, state))
        );
    }
    text + "</tbody></table></div>"
}

fn caption(game: &Match, other: &str) -> String {
    match game.winner {
        Winner::System => format!("What the new drive does next, by its mode and the counter, when {other} one of these; after the dot, the counter then."),
        Winner::Environment => format!("What the panel does next, by the old drive's mode and the counter, when {other} one of these; after the dot, the counter then."),
    }
}

/// The columns that differ: the first of each kind, and all that are like it.
fn equal_columns(blocks: &[&[u16]], width: usize) -> Vec<(usize, Vec<usize>)> {
    let mut kinds: BTreeMap<Vec<u16>, usize> = BTreeMap::new();
    let mut columns: Vec<(usize, Vec<usize>)> = Vec::new();
    for column in 0..width {
        let entries: Vec<u16> = blocks.iter().map(|block| block.get(column).copied().unwrap_or(NONE)).collect();
        match kinds.get(&entries) {
            Some(kind) => columns[*kind].1.push(column),
            None => {
                kinds.insert(entries, columns.len());
                columns.push((column, vec![column]));
            }
        }
    }
    columns
}

/// The names of a column's states. Many are told by how many they are.
fn listed(game: &Match, states: &[usize]) -> String {
    match states.len() {
        all if all == widths(game).1 && all > 1 => "any".to_string(),
        _ => some_of(game, states),
    }
}

fn some_of(game: &Match, states: &[usize]) -> String {
    match states.len() {
        0..=6 => states.iter().map(|s| other_called(game, *s)).collect::<Vec<_>>().join(", "),
        many => format!("{} and {} more", other_called(game, states[0]), many - 1),
    }
}

/// Where the table begins. Inputs with the same first output stand together.
fn beginning(game: &Match, starts: &[u16]) -> String {
    let mut first: BTreeMap<usize, Vec<usize>> = BTreeMap::new();
    for (state, entry) in starts.iter().enumerate().filter(|(_, entry)| **entry != NONE) {
        first.entry(usize::from(*entry) % STATES).or_default().push(state);
    }
    let told = |(next, states): (usize, Vec<usize>)| match game.winner {
        Winner::System => {
            let begins = some_of(game, &states);
            format!("where the panel begins in {begins} the new drive begins in {}", game.output_called(OutState(next)))
        }
        Winner::Environment => format!("the panel begins in {}", game.input_called(InState(next))),
    };
    let told: Vec<String> = first.into_iter().map(told).collect();
    format!("The beginning: {}; the counter is 0.", told.join("; "))
}

fn own_called(game: &Match, state: usize) -> String {
    match game.winner {
        Winner::System => game.output_called(OutState(state)),
        Winner::Environment => game.input_called(InState(state)),
    }
}

fn other_called(game: &Match, state: usize) -> String {
    match game.winner {
        Winner::System => game.input_called(InState(state)),
        Winner::Environment => game.output_called(OutState(state)),
    }
}

fn entry(game: &Match, entry: u16) -> String {
    match entry {
        NONE => "–".to_string(),
        entry => {
            let (state, counter) = (usize::from(entry) % STATES, usize::from(entry) / STATES);
            format!("{} · {counter}", own_called(game, state))
        }
    }
}
