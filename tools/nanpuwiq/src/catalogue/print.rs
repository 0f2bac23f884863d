//! A catalogue for people, as a list or a matrix, and for programs, as CSV or JSON.
use super::judge::Outcome;
use super::{Catalogue, Games};
use crate::failure::Fault;
use crate::json::Json;
use crate::report;
use crate::standard;
use crate::words::{count, grouped};
use nanpuwiq::Winner;
use std::fmt::Write;

/// Columns of a terminal that does not tell, or of a file.
const WIDTH: usize = 100;

/// What a game is called.
fn name(games: &Games, game: usize) -> Vec<&str> {
    match games {
        Games::Files(files) => vec![&files[game]],
        Games::Pairs { old, new, .. } => vec![&old[game / new.len()], &new[game % new.len()]],
    }
}

fn verdict(outcome: &Outcome) -> &'static str {
    match outcome {
        Outcome::Judged { winner: Winner::System, .. } => "adapter",
        Outcome::Judged { winner: Winner::Environment, .. } => "no adapter",
        Outcome::Refused(_) => "refused",
    }
}

/// "line 3, column 5: expected .. (refused 11)": of a file whose name stands before it.
fn refusal_words(fault: &Fault) -> String {
    let place = fault.place.map_or(String::new(), |(line, column)| format!("line {line}, column {column}: "));
    let number = fault.number.map_or(String::new(), |number| format!(" (refused {number})"));
    format!("{place}{}{number}", fault.words)
}

/// A line for each game, and the totals.
pub fn list(catalogue: &Catalogue) -> String {
    let heads: &[&str] = match catalogue.games {
        Games::Files(_) => &["FILE"],
        Games::Pairs { .. } => &["OLD", "NEW"],
    };
    let mut rows = vec![heads.iter().map(|head| head.to_string()).collect::<Vec<_>>()];
    rows[0].extend(["VERDICT", "WON", "TABLE"].map(String::from));
    let mut words = vec![String::new()];
    for (game, outcome) in catalogue.outcomes.iter().enumerate() {
        let mut row: Vec<String> = name(&catalogue.games, game).into_iter().map(String::from).collect();
        row.push(verdict(outcome).to_string());
        let mut told = String::new();
        match outcome {
            Outcome::Judged { won, positions, entries, .. } => {
                row.push(format!("{} of {}", grouped(*won), grouped(*positions)));
                row.push(count(*entries, "entry", "entries"));
            }
            Outcome::Refused(fault) => {
                told = match catalogue.games {
                    Games::Files(_) => refusal_words(fault),
                    Games::Pairs { .. } => fault.to_string(),
                }
            }
        }
        rows.push(row);
        words.push(told);
    }
    let mut text = String::new();
    if rows.len() > 1 {
        let widths = widths(&rows);
        for (row, told) in rows.iter().zip(&words) {
            let cells: Vec<String> = row.iter().zip(&widths).map(|(cell, width)| padded(cell, *width)).collect();
            let line =
                if told.is_empty() { cells.join("  ") } else { format!("{}: {told}", cells.join("  ").trim_end()) };
            let _ = writeln!(text, "{}", line.trim_end());
        }
        text.push('\n');
    }
    text + &tail(catalogue)
}

/// The width of each column.
fn widths(rows: &[Vec<String>]) -> Vec<usize> {
    let columns = rows.iter().map(Vec::len).max().unwrap_or(0);
    (0..columns)
        .map(|column| rows.iter().filter_map(|row| row.get(column)).map(|cell| letters(cell)).max().unwrap_or(0))
        .collect()
}

fn letters(text: &str) -> usize {
    text.chars().count()
}

fn padded(cell: &str, width: usize) -> String {
    format!("{cell}{}", " ".repeat(width.saturating_sub(letters(cell))))
}

/// Notes, and the totals in words.
fn tail(catalogue: &Catalogue) -> String {
    match &catalogue.games {
        Games::Files(_) => catalogue.totals.words("file", "files"),
        Games::Pairs { notes, .. } => {
            let notes: String = notes.iter().map(|note| format!("Note: {note}.\n")).collect();
            catalogue.totals.words("pair", "pairs") + &notes
        }
    }
}

/// The old drives down, the new ones across.
pub fn matrix(catalogue: &Catalogue) -> String {
    let Games::Pairs { old, new, .. } = &catalogue.games else {
        return list(catalogue);
    };
    let names = old.iter().map(|name| letters(name)).max().unwrap_or(0).max(letters("old \\ new"));
    let room = width().saturating_sub(names);
    let widest = new.iter().map(|name| letters(name)).max().unwrap_or(0).max(letters("refused"));
    let mut text = String::from("Can the panel of the old drive (down) run the new drive (across)?\n\n");
    if (widest + 2) * new.len() <= room {
        let heads: Vec<String> = new.clone();
        let cell = |outcome: &Outcome| match outcome {
            Outcome::Judged { winner: Winner::System, .. } => "yes",
            Outcome::Judged { winner: Winner::Environment, .. } => "no",
            Outcome::Refused(_) => "refused",
        };
        text += &block(catalogue, &heads, 0, names, cell);
    } else {
        // numbers for the new drives, and as many columns at a time as there is room for
        let number = |k: usize| (k + 1).to_string();
        let across = (room / (letters(&number(new.len())) + 2)).max(1);
        let cell = |outcome: &Outcome| match outcome {
            Outcome::Judged { winner: Winner::System, .. } => "y",
            Outcome::Judged { winner: Winner::Environment, .. } => "-",
            Outcome::Refused(_) => "?",
        };
        for first in (0..new.len()).step_by(across) {
            let heads: Vec<String> = (first..new.len().min(first + across)).map(number).collect();
            text += &block(catalogue, &heads, first, names, cell);
            text.push('\n');
        }
        text += "y yes, - no, ? refused. The new drives:\n";
        let width = letters(&number(new.len()));
        for (k, name) in new.iter().enumerate() {
            let _ = writeln!(text, "  {:>width$}  {name}", k + 1);
        }
    }
    text += &refusals(catalogue);
    text.push('\n');
    text + &tail(catalogue)
}

/// Some columns of the matrix, from `first` on.
fn block(
    catalogue: &Catalogue,
    heads: &[String],
    first: usize,
    names: usize,
    cell: impl Fn(&Outcome) -> &'static str,
) -> String {
    let Games::Pairs { old, new, .. } = &catalogue.games else {
        return String::new();
    };
    let rows: Vec<Vec<String>> = old
        .iter()
        .enumerate()
        .map(|(row, name)| {
            let cells = (first..first + heads.len()).map(|column| cell(&catalogue.outcomes[row * new.len() + column]));
            [name.clone()].into_iter().chain(cells.map(String::from)).collect()
        })
        .collect();
    let mut all = vec![[String::from("old \\ new")].into_iter().chain(heads.iter().cloned()).collect::<Vec<_>>()];
    all.extend(rows);
    let mut widths = widths(&all);
    widths[0] = widths[0].max(names);
    let mut text = String::new();
    for row in &all {
        let cells: Vec<String> = row.iter().zip(&widths).map(|(cell, width)| padded(cell, *width)).collect();
        let _ = writeln!(text, "{}", cells.join("  ").trim_end());
    }
    text
}

/// Each refusal once, in words: a drive at fault has all of its pairs refused for one reason.
fn refusals(catalogue: &Catalogue) -> String {
    let Games::Pairs { old, new, .. } = &catalogue.games else {
        return String::new();
    };
    let mut told: Vec<(&Fault, Vec<usize>)> = Vec::new();
    for (pair, outcome) in catalogue.outcomes.iter().enumerate() {
        if let Outcome::Refused(fault) = outcome {
            match told.iter_mut().find(|(other, _)| *other == fault) {
                Some((_, pairs)) => pairs.push(pair),
                None => told.push((fault, vec![pair])),
            }
        }
    }
    if told.is_empty() {
        return String::new();
    }
    let whose = |pairs: &[usize]| {
        let (row, column) = (pairs[0] / new.len(), pairs[0] % new.len());
        if pairs.iter().all(|pair| pair / new.len() == row) && pairs.len() == new.len() {
            format!("{}, with every new drive", old[row])
        } else if pairs.iter().all(|pair| pair % new.len() == column) && pairs.len() == old.len() {
            format!("{}, with every old drive", new[column])
        } else {
            count(pairs.len(), "pair", "pairs")
        }
    };
    let line = |(fault, pairs): &(&Fault, Vec<usize>)| format!("  {}:\n    {fault}\n", whose(pairs));
    format!("\nRefused:\n{}", told.iter().map(line).collect::<String>())
}

/// The columns of the terminal, where it tells.
fn width() -> usize {
    let told = std::env::var("COLUMNS").ok().and_then(|columns| columns.parse().ok());
    told.or_else(standard::output_columns).unwrap_or(WIDTH).max(20)
}

/// A line for each game, the first with the names of the fields.
pub fn csv(catalogue: &Catalogue) -> String {
    let heads = match catalogue.games {
        Games::Files(_) => "file",
        Games::Pairs { .. } => "old,new",
    };
    let mut text = format!("{heads},verdict,won,positions,entries,number,line,column,words\n");
    for (game, outcome) in catalogue.outcomes.iter().enumerate() {
        let mut fields: Vec<String> = name(&catalogue.games, game).into_iter().map(String::from).collect();
        fields.push(verdict(outcome).to_string());
        match outcome {
            Outcome::Judged { won, positions, entries, .. } => {
                fields.extend([*won, *positions, *entries].map(|number| number.to_string()));
                fields.extend([const { String::new() }; 4]);
            }
            Outcome::Refused(fault) => {
                fields.extend([const { String::new() }; 3]);
                fields.push(fault.number.map_or(String::new(), |number| number.to_string()));
                fields.push(fault.place.map_or(String::new(), |(line, _)| line.to_string()));
                fields.push(fault.place.map_or(String::new(), |(_, column)| column.to_string()));
                fields.push(fault.words.clone());
            }
        }
        let fields: Vec<String> = fields.iter().map(|field| csv_field(field)).collect();
        let _ = writeln!(text, "{}", fields.join(","));
    }
    text
}

/// A field, in quotes where it needs them.
fn csv_field(field: &str) -> String {
    if field.contains([',', '"', '\n', '\r']) {
        format!("\"{}\"", field.replace('"', "\"\""))
    } else {
        field.to_string()
    }
}

/// The fields of the object.
pub fn fields(catalogue: &Catalogue) -> Vec<(&'static str, Json)> {
    let game = |(game, outcome): (usize, &Outcome)| {
        let names = name(&catalogue.games, game);
        let (file, old, new) = match catalogue.games {
            Games::Files(_) => (Some(names[0]), None, None),
            Games::Pairs { .. } => (None, Some(names[0]), Some(names[1])),
        };
        let mut fields = vec![("file", file.into()), ("old", old.into()), ("new", new.into())];
        fields.extend(outcome_fields(outcome));
        Json::Object(fields)
    };
    let games: Vec<Json> = catalogue.outcomes.iter().enumerate().map(game).collect();
    let totals = &catalogue.totals;
    let number =
        |(number, games): (&u8, &usize)| Json::object([("number", (*number).into()), ("games", (*games).into())]);
    let notes: &[String] = match &catalogue.games {
        Games::Files(_) => &[],
        Games::Pairs { notes, .. } => notes,
    };
    vec![
        ("games", Json::List(games)),
        (
            "totals",
            Json::object([
                ("system", totals.system.into()),
                ("environment", totals.environment.into()),
                ("refused", totals.refused.into()),
                ("numbers", Json::List(totals.numbers.iter().map(number).collect())),
                ("positions", positions(totals.won, totals.positions)),
            ]),
        ),
        ("notes", Json::list(notes.iter().map(String::as_str))),
    ]
}

fn positions(won: usize, all: usize) -> Json {
    Json::object([("won", won.into()), ("all", all.into())])
}

fn outcome_fields(outcome: &Outcome) -> [(&'static str, Json); 4] {
    match outcome {
        Outcome::Judged { winner, won, positions: all, entries } => {
            let winner = if *winner == Winner::System { "system" } else { "environment" };
            [
                ("error", Json::Null),
                ("winner", winner.into()),
                ("positions", positions(*won, *all)),
                ("entries", (*entries).into()),
            ]
        }
        Outcome::Refused(fault) => [
            ("error", report::fault(fault.clone())),
            ("winner", Json::Null),
            ("positions", Json::Null),
            ("entries", Json::Null),
        ],
    }
}
