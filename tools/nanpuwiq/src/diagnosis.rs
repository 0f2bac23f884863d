//! A refusal in words: what is at fault, and the line and the column where that can be told.
use crate::failure::Fault;
use crate::kinds::{self, Kind};
use crate::shape::{self, Number, Row, Shape};
use crate::sizes::{self, PROGRAM_ROOM};
use crate::words::{count, counted, grouped};
use nanpuwiq::{words, Error, Game};

/// What is at fault and where: a place in the text, from 0.
pub struct Finding {
    pub place: Option<usize>,
    pub number: u8,
    pub words: String,
}

impl Finding {
    /// The same by its parts.
    pub fn fault(&self, name: &str, text: &[u8]) -> Fault {
        let place = self.place.map(|place| line_column(text, place));
        Fault { file: name.to_string(), place, number: Some(self.number), words: self.words.clone() }
    }

    /// `FILE:LINE:COLUMN: words (refused N)`.
    pub fn line(&self, name: &str, text: &[u8]) -> String {
        self.fault(name, text).to_string()
    }
}

/// The line and the column of a place, both from 1. A column counts letters, as an editor does: of the bytes of a letter in UTF-8 the first.
pub fn line_column(text: &[u8], place: usize) -> (usize, usize) {
    let before = &text[..place.min(text.len())];
    let line = before.iter().filter(|byte| **byte == b'\n').count() + 1;
    let in_line = before.iter().rev().take_while(|byte| **byte != b'\n');
    let column = in_line.filter(|byte| **byte & 0xc0 != 0x80).count() + 1;
    (line, column)
}

/// The refusal of a text, in words. The place of 11 is the library's.
pub fn of_text(text: &[u8], error: Error) -> Finding {
    let (place, told) = match error.number {
        11 => (Some(error.place), misshapen(text, error.place)),
        12 => (None, "the file has over 40,960 bytes: no longer text is read".to_string()),
        2 => located(text, past_count),
        3 => located(text, no_initial),
        7 => located(text, set_past_count),
        9 | 10 => (None, short_room(text, error.number)),
        number => (None, words(number).to_string()),
    };
    Finding { place, number: error.number, words: told }
}

/// Why the bytes from this place on are no game's text.
fn misshapen(text: &[u8], place: usize) -> String {
    let written = |told: String| format!("{told}; 'nanpuwiq format' writes it so");
    if let Some(told) = other_kind(text).or_else(|| typed(text, place)).or_else(|| foreign(text, place).map(written)) {
        return told;
    }
    match text.get(place) {
        None if text.is_empty() => "the file is empty: it begins with '(game '".to_string(),
        None if lacks_newline(text) => NO_LAST_NEWLINE.to_string(),
        None => format!("the file ends too early: {}", by_shape(text)),
        Some(_) => by_shape(text),
    }
}

pub const NO_LAST_NEWLINE: &str = "the last newline is missing: every line ends in one, the last too";

/// What editors and other systems do to a strict text, where it is that which is at fault at this place.
pub fn foreign(text: &[u8], place: usize) -> Option<String> {
    let told = match text.get(place) {
        Some(b'\r') => {
            "the line ends in a carriage return and a newline (CRLF, as on Windows): every line ends in a newline alone"
        }
        Some(b'\t') => "a tab: one blank separates items, and there is none elsewhere",
        _ => return foreign_mark(text),
    };
    Some(foreign_mark(text).unwrap_or_else(|| told.to_string()))
}

/// Marks that editors put before a text.
fn foreign_mark(text: &[u8]) -> Option<String> {
    if text.starts_with(b"\xef\xbb\xbf") {
        return Some("the file begins with a byte-order mark: save it as plain text without one".to_string());
    }
    let wide = text.starts_with(b"\xff\xfe") || text.starts_with(b"\xfe\xff");
    wide.then(|| "the file is UTF-16 text: save it as plain ASCII".to_string())
}

/// A file of another kind, and who reads it.
fn other_kind(text: &[u8]) -> Option<String> {
    match kinds::of(text) {
        Kind::Game | Kind::Other | Kind::Requirements => None,
        kind => Some(format!("no game's file: {}", kind.words())),
    }
}

/// What people type into a game and only `format` takes: comments, and names in the place of numbers.
fn typed(text: &[u8], place: usize) -> Option<String> {
    let rest = text.get(place..)?;
    let blanks = rest.iter().take_while(|byte| matches!(byte, b' ' | b'\t')).count();
    if rest[blanks..].starts_with(b";") || rest[blanks..].starts_with(b"#") || rest[blanks..].starts_with(b"//") {
        return Some("a comment: a game's file has none; 'nanpuwiq format' writes the game without it".to_string());
    }
    let letter = rest.first().is_some_and(|byte| byte.is_ascii_alphabetic() || !byte.is_ascii());
    // a number is expected, and no fixed word
    let number =
        shape::read(text).is_err_and(|told| told.starts_with("expected a ") || told.starts_with("expected the "));
    (letter && number).then(|| {
        "a name: a game's file has numbers alone, and names stand in a file of their own beside it (FILE.names); \
         'nanpuwiq format' puts numbers for names"
            .to_string()
    })
}

/// Whether one newline more makes it a text of the right shape.
fn lacks_newline(text: &[u8]) -> bool {
    shape::read(&[text, b"\n"].concat()).is_ok()
}

fn by_shape(text: &[u8]) -> String {
    match shape::read(text) {
        Err(told) if told.ends_with("found a blank") => {
            format!("{told}: one blank separates items, and there is none elsewhere")
        }
        Err(told) => told,
        Ok(_) => words(11).to_string(),
    }
}

/// A fault of a text that has the right shape.
fn located(text: &[u8], fault: fn(&Shape) -> Option<(usize, String)>) -> (Option<usize>, String) {
    match shape::read(text).ok().as_ref().and_then(fault) {
        Some((place, told)) => (Some(place), told),
        None => (None, "the game is at fault".to_string()),
    }
}

fn past_count(shape: &Shape) -> Option<(usize, String)> {
    let past = |rows: &[Row], side: &str| {
        let past = rows.iter().flat_map(|row| &row.moves).find(|to| to.value >= rows.len())?;
        Some((past.place, format!("a move to {side} {}: {}", past.value, counted(rows.len(), side))))
    };
    past(&shape.inputs, "input").or_else(|| past(&shape.outputs, "output"))
}

fn no_initial(shape: &Shape) -> Option<(usize, String)> {
    let none = |rows: &[Row], side: &str| {
        let first = rows.first().filter(|_| rows.iter().all(|row| !row.initial))?;
        Some((
            first.place,
            format!("no {side} is initial: the number after the state's is 1 where it is, and one at least must be"),
        ))
    };
    none(&shape.inputs, "input").or_else(|| none(&shape.outputs, "output"))
}

fn set_past_count(shape: &Shape) -> Option<(usize, String)> {
    let past = |sets: &[Vec<Number>], count: usize, side: &str| {
        let past = sets.iter().flatten().find(|state| state.value >= count)?;
        Some((past.place, format!("a set with {side} {}: {}", past.value, counted(count, side))))
    };
    shape.requirements.iter().find_map(|q| {
        past(&q.input_sets, shape.inputs.len(), "input").or_else(|| past(&q.output_sets, shape.outputs.len(), "output"))
    })
}

/// A table that the program's room does not hold, and the length that would do.
fn short_room(text: &[u8], number: u8) -> String {
    let Ok(game) = Game::read(text) else {
        return words(number).to_string();
    };
    let (whose, entries) = short_table(&game, number);
    let (needed, room) = (count(entries, "entry", "entries"), grouped(PROGRAM_ROOM));
    format!(
        "the {whose}'s table of this game has {needed}, and the programs lend {room} for each table: \
         a caller of the library that lends {} is answered, and so are the other subcommands",
        grouped(entries)
    )
}

/// Whose table a room is too short for, by the number of the refusal, and how many entries it has.
pub fn short_table(game: &Game, number: u8) -> (&'static str, usize) {
    match number {
        9 => ("controller", sizes::controller_entries(game)),
        _ => ("panel", sizes::panel_entries(game)),
    }
}
