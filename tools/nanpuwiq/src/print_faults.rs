//! Why a file is not taken for the print of a controller's table, in words with line and column. Whether it is taken the binding decides; this is asked only where
//! it is not.
use crate::diagnosis::{foreign, NO_LAST_NEWLINE};
use crate::shape::{number, Number, Reader};
use crate::sizes;
use crate::words::counted;
use nanpuwiq::{Game, PrintError, PrintFault, STATES};

/// The place of the fault in the line, from 0, and the words.
type Fault = (usize, String);

/// A line of a print, taken apart.
struct Line {
    start: bool,
    numbers: Vec<Number>,
}

/// Line, column and words of what the binding has found.
pub fn located(game: &Game, print: &[u8], error: PrintError) -> ((usize, usize), String) {
    let bytes = line(print, error.line);
    let (place, words) = match error.fault {
        PrintFault::NotTheSystems => first_line(print, bytes),
        PrintFault::Twice => (0, twice(print, error.line)),
        PrintFault::TooLarge => (0, PrintFault::TooLarge.to_string()),
        PrintFault::NotALine | PrintFault::NoSuchRow | PrintFault::NoEntry => match read(bytes) {
            Err((place, words)) => (place, foreign(bytes, place).unwrap_or_else(|| with_rule(words))),
            Ok(line) => past(game, &line).unwrap_or((0, error.fault.to_string())),
        },
    };
    ((error.line, place + 1), words)
}

/// A line with its end, by its number from 1.
fn line(print: &[u8], number: usize) -> &[u8] {
    print.split_inclusive(|byte| *byte == b'\n').nth(number - 1).unwrap_or_default()
}

/// Why the first line is not (wins system).
fn first_line(print: &[u8], bytes: &[u8]) -> Fault {
    let wanted = b"(wins system)\n";
    let place = bytes.iter().zip(wanted).take_while(|(byte, wanted)| byte == wanted).count();
    let begins = |word: &str| bytes.starts_with(word.as_bytes());
    let words = match foreign(print, place) {
        Some(words) => words,
        None if print.is_empty() => {
            "the file is empty: the print of a controller's table begins with (wins system)".to_string()
        }
        None if bytes == b"(wins system)" => NO_LAST_NEWLINE.to_string(),
        None if begins("(wins environment)") => {
            "expected (wins system), a controller's table: this is the panel's, for no adapter exists".to_string()
        }
        None if begins("(refused ") => {
            "expected (wins system), a controller's table: this is the print of a refusal".to_string()
        }
        None if begins("(game ") => {
            "expected (wins system), a controller's table: this is a game's file, which comes before the table's"
                .to_string()
        }
        None => PrintFault::NotTheSystems.to_string(),
    };
    (place, words)
}

/// The line's word and numbers, or where it has not their shape.
fn read(bytes: &[u8]) -> Result<Line, Fault> {
    let forms: [(&str, &[&str]); 2] = [
        ("(start ", &["the number of the input", "the number of the first output"]),
        (
            "(step ",
            &[
                "the number of the output",
                "the counter",
                "the number of the new input",
                "the number of the next output",
                "the next counter",
            ],
        ),
    ];
    let Some((word, items)) = forms.iter().find(|(word, _)| bytes.starts_with(word.as_bytes())) else {
        let alike = |word: &str| bytes.iter().zip(word.bytes()).take_while(|(byte, wanted)| **byte == *wanted).count();
        let place = forms.iter().map(|(word, _)| alike(word)).max().unwrap_or(0);
        return Err((place, PrintFault::NotALine.to_string()));
    };
    let mut reader = Reader { text: bytes, at: word.len() };
    let mut numbers = Vec::new();
    let mut whole = || -> Result<(), String> {
        for (place, what) in items.iter().enumerate() {
            if place > 0 && reader.text.get(reader.at) == Some(&b')') {
                return Err(format!("the line ends before {what}: {}", PrintFault::NotALine));
            }
            if place > 0 {
                reader.word(" ")?;
            }
            numbers.push(reader.digits(what)?);
        }
        if reader.text[reader.at..] == *b")" {
            reader.at += 1;
            return Err(NO_LAST_NEWLINE.to_string());
        }
        reader.word(")\n")
    };
    match whole() {
        Ok(()) => Ok(Line { start: word.starts_with("(start"), numbers }),
        Err(words) => Err((reader.at, words)),
    }
}

/// Words about a blank, with what is asked of blanks.
fn with_rule(words: String) -> String {
    match words.ends_with("found a blank") {
        true => format!("{words}: one blank separates items, and there is none elsewhere"),
        false => words,
    }
}

/// The first number of a line that no row or no entry has.
fn past(game: &Game, line: &Line) -> Option<Fault> {
    // a number below the limit is fine; the words stand before and after one that is not
    let none =
        |side: &str, count: usize| (count, format!("there is no {side} "), format!(": {}", counted(count, side)));
    let over = |what: &str, count: usize| (count, format!("{what} is 0 to {}, not ", count - 1), String::new());
    let (input, output) = (none("input", game.input.states), over("an output", STATES));
    let limits = match line.start {
        true => vec![input, output],
        false => vec![
            none("output", game.output.states),
            none("counter", sizes::controller_counters(game)),
            input,
            output,
            over("a next counter", 1 + usize::from(u16::MAX) / STATES),
        ],
    };
    let past = line.numbers.iter().zip(limits).find(|(given, (limit, ..))| given.value >= *limit);
    past.map(|(given, (_, before, after))| (given.place, format!("{before}{}{after}", number(given.value))))
}

/// A second line for one start or row, and where the first is.
fn twice(print: &[u8], second: usize) -> String {
    // the numbers that tell which start or row it is
    let key = |bytes: &[u8]| {
        let line = read(bytes).ok()?;
        let count = if line.start { 1 } else { 3 };
        Some((line.start, line.numbers.iter().take(count).map(|number| number.value).collect::<Vec<_>>()))
    };
    let wanted = key(line(print, second));
    let mut lines = print.split_inclusive(|byte| *byte == b'\n');
    match lines.position(|bytes| key(bytes).is_some() && key(bytes) == wanted) {
        Some(first) => format!("a second line for one start or row: line {} is for it too", first + 1),
        None => PrintFault::Twice.to_string(),
    }
}
