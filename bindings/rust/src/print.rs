//! From the print of a controller's table, as the program `solve` writes it, to the table's entries.
use crate::{Game, CONTROLLER_MOST, NONE, STATES};
use std::fmt;

/// Why a print is not taken: the line, from 1, and what is wrong there.
#[derive(Clone, Copy, Debug, PartialEq, Eq)]
pub struct PrintError {
    pub line: usize,
    pub fault: PrintFault,
}

#[derive(Clone, Copy, Debug, PartialEq, Eq)]
pub enum PrintFault {
    /// The first line is not `(wins system)`.
    NotTheSystems,
    /// Neither `(start INPUT OUTPUT)` nor `(step OUTPUT COUNTER INPUT OUTPUT COUNTER)`, with one blank between items and a line's end after it.
    NotALine,
    /// A start or a row that the game does not have.
    NoSuchRow,
    /// A second line for one start or row.
    Twice,
    /// An output and a counter that no entry can hold.
    NoEntry,
    /// A game that is not accepted, with longer tables than any that is.
    TooLarge,
}

impl fmt::Display for PrintFault {
    fn fmt(&self, f: &mut fmt::Formatter<'_>) -> fmt::Result {
        f.write_str(match self {
            PrintFault::NotTheSystems => "expected (wins system): the print of a controller's table",
            PrintFault::NotALine => "expected (start INPUT OUTPUT) or (step OUTPUT COUNTER INPUT OUTPUT COUNTER)",
            PrintFault::NoSuchRow => "a start or a row that the game does not have",
            PrintFault::Twice => "a second line for one start or row",
            PrintFault::NoEntry => "an output and a counter that no entry can hold",
            PrintFault::TooLarge => "a table of a game that is not accepted",
        })
    }
}

impl fmt::Display for PrintError {
    fn fmt(&self, f: &mut fmt::Formatter<'_>) -> fmt::Result {
        write!(f, "line {}: {}", self.line, self.fault)
    }
}

impl std::error::Error for PrintError {}

impl Game {
    /// The entries of a controller's table that is printed as `solve` prints it; a start or row without a line is none. The lines may come in any order,
    /// and may name outputs and counters that are no legal reply: that is for `check` to say, which also
    /// says where the game has more places than it takes. A start's counter is 0.
    pub fn entries_of_print(&self, print: &[u8]) -> Result<Vec<u16>, PrintError> {
        let (inputs, outputs, counters) = (self.input.states, self.output.states, self.controller_counters());
        let places = inputs.checked_mul(outputs).and_then(|n| n.checked_mul(counters)).filter(|n| *n <= CONTROLLER_MOST);
        let places = places.ok_or(PrintError { line: 1, fault: PrintFault::TooLarge })?;
        let mut lines = print.split_inclusive(|byte| *byte == b'\n').zip(1..);
        match lines.next() {
            Some((b"(wins system)\n", _)) => {}
            _ => return Err(PrintError { line: 1, fault: PrintFault::NotTheSystems }),
        }
        let mut table = vec![None; inputs + places];
        for (bytes, line) in lines {
            let stop = |fault| PrintError { line, fault };
            let (row, entry) = self.line_of_print(bytes, counters).map_err(stop)?;
            let held = table.get_mut(row).ok_or(stop(PrintFault::NoSuchRow))?;
            if held.replace(entry).is_some() {
                return Err(stop(PrintFault::Twice));
            }
        }
        Ok(table.into_iter().map(|entry| entry.unwrap_or(NONE)).collect())
    }

    /// One line: the number of its entry, and the entry.
    fn line_of_print(&self, bytes: &[u8], counters: usize) -> Result<(usize, u16), PrintFault> {
        let (inputs, outputs) = (self.input.states, self.output.states);
        let (word, numbers) = parts(bytes).ok_or(PrintFault::NotALine)?;
        let (row, output, counter) = match (word, &numbers[..]) {
            ("start", &[input, output]) if input < inputs => (input, output, 0),
            ("step", &[at, counter, input, output, next]) if at < outputs && counter < counters && input < inputs => {
                (inputs + (at * counters + counter) * inputs + input, output, next)
            }
            ("start", [_, _]) | ("step", [_, _, _, _, _]) => return Err(PrintFault::NoSuchRow),
            _ => return Err(PrintFault::NotALine),
        };
        let entry = counter.checked_mul(STATES).and_then(|n| n.checked_add(output)).and_then(|n| u16::try_from(n).ok());
        match entry {
            Some(entry) if output < STATES && entry != NONE => Ok((row, entry)),
            _ => Err(PrintFault::NoEntry),
        }
    }
}

/// The word and the numbers of a line such as `(start 0 1)`, which has its end.
fn parts(line: &[u8]) -> Option<(&str, Vec<usize>)> {
    let line = std::str::from_utf8(line).ok()?.strip_prefix('(')?.strip_suffix(")\n")?;
    let mut items = line.split(' ');
    let word = items.next()?;
    let numbers = items.map(number).collect::<Option<Vec<usize>>>()?;
    Some((word, numbers))
}

/// A decimal without leading zeros.
fn number(word: &str) -> Option<usize> {
    let plain = word.bytes().all(|byte| byte.is_ascii_digit()) && (word == "0" || !word.starts_with('0'));
    word.parse().ok().filter(|_| plain)
}
