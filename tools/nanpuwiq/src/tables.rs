//! Stored tables of a controller: a print, raw entries, or entries in hex or CSV; in the full layout or in the compact one.
use crate::answer;
use crate::arguments::Arguments;
use crate::failure::{Failure, Fault};
use crate::files::{self, GameFile, Source};
use crate::graphs::{component, members};
use crate::listing::{self, Word};
use crate::print_faults;
use crate::sizes;
use crate::words::{count, grouped};
use nanpuwiq::{Error, Game, InState, OutState, Set, Winner};
use std::ffi::OsStr;

/// Bytes of a stored table at most: the longest print has under 12,000,000.
const TABLE_MOST: usize = 1 << 24;

/// How a table is written down.
#[derive(Clone, Copy, PartialEq, Eq)]
pub enum Form {
    /// As `solve` prints it: the full layout.
    Print,
    /// 16 bits an entry, the low byte first.
    Raw,
    /// Entries of up to four hex digits.
    Hex,
    /// Decimal entries.
    Csv,
}

#[derive(Clone, Copy, PartialEq, Eq)]
pub enum Layout {
    Full,
    Compact,
}

const FORMS: [(&str, Form); 4] = [("print", Form::Print), ("raw", Form::Raw), ("hex", Form::Hex), ("csv", Form::Csv)];
const LAYOUTS: [(&str, Layout); 2] = [("full", Layout::Full), ("compact", Layout::Compact)];

/// The form that an option names.
pub fn form(arguments: &Arguments, option: &str) -> Result<Option<Form>, Failure> {
    chosen(arguments, option, &FORMS)
}

/// The layout that --layout names.
pub fn layout(arguments: &Arguments) -> Result<Option<Layout>, Failure> {
    chosen(arguments, "--layout", &LAYOUTS)
}

fn chosen<T: Copy>(arguments: &Arguments, option: &str, known: &[(&str, T)]) -> Result<Option<T>, Failure> {
    let Some(given) = arguments.value(option) else {
        return Ok(None);
    };
    match known.iter().find(|(name, _)| given == *name) {
        Some((_, chosen)) => Ok(Some(*chosen)),
        None => {
            let names: Vec<&str> = known.iter().map(|(name, _)| *name).collect();
            Err(arguments.wrong(&format!("{option} is one of {}, not '{}'", names.join(", "), given.to_string_lossy())))
        }
    }
}

/// A table as its file has it, not yet looked at.
pub struct Stored {
    pub name: String,
    pub form: Form,
    pub entries: Vec<u16>,
}

/// The table of a file, by the form that is given or by its look.
pub fn read(game: &Game, file: &OsStr, form: Option<Form>) -> Result<Stored, Failure> {
    let source = files::read(file, TABLE_MOST)?;
    let refused = |words: String| Fault { file: source.name.clone(), place: None, number: None, words };
    if source.text.len() > TABLE_MOST {
        return Err(refused(format!("a table of over {TABLE_MOST} bytes")).into());
    }
    let form = match form {
        Some(form) => form,
        None => look(&source).map_err(refused)?,
    };
    let entries = match form {
        Form::Print => game.entries_of_print(&source.text).map_err(|error| {
            let (place, words) = print_faults::located(game, &source.text, error);
            Fault { place: Some(place), ..refused(words) }
        })?,
        Form::Raw => raw(&source.text).map_err(refused)?,
        Form::Hex => listed(&source, hex)?,
        Form::Csv => listed(&source, decimal)?,
    };
    Ok(Stored { name: source.name, form, entries })
}

/// The form that a file has by its look: a print begins with a bracket, a raw table has bytes that no text has, and hex has letters, 0x or leading zeros.
fn look(source: &Source) -> Result<Form, String> {
    let text = &source.text[..];
    if text.is_empty() {
        return Err("the file is empty: a table is a print, raw entries, or entries in hex or CSV".to_string());
    }
    let marked =
        text.starts_with(b"\xef\xbb\xbf") || text.starts_with(b"\xff\xfe(") || text.starts_with(b"\xfe\xff\0(");
    if text.starts_with(b"(") || marked {
        return Ok(Form::Print);
    }
    if !text.iter().all(|byte| byte.is_ascii_graphic() || b" \t\r\n".contains(byte)) {
        return Ok(Form::Raw);
    }
    let words = listing::words(source, TABLE_MOST).map_err(|fault| fault.words)?;
    if words.is_empty() {
        return Err("no entries: a table is a print, raw entries, or entries in hex or CSV".to_string());
    }
    let all = |test: fn(&str) -> bool| words.iter().all(|word| test(word.text));
    let decimal = all(|word| word.bytes().all(|b| b.is_ascii_digit()) && (word == "0" || !word.starts_with('0')));
    let four = all(|word| word.len() == 4);
    match (decimal, all(is_hex)) {
        (true, _) if four => {
            Err("entries of four digits each: they may be hex or decimal; say --form hex or --form csv".to_string())
        }
        (true, _) => Ok(Form::Csv),
        (false, true) => Ok(Form::Hex),
        (false, false) => match words.iter().any(|word| word.text.bytes().any(|b| b.is_ascii_digit())) {
            // what is wrong with an entry is told with its place
            true => Ok(if words.iter().any(|word| word.text.starts_with("0x")) { Form::Hex } else { Form::Csv }),
            false => {
                Err("neither a print, which begins with (wins system), nor entries: raw, in hex or CSV".to_string())
            }
        },
    }
}

fn is_hex(word: &str) -> bool {
    let digits = without_mark(word);
    (1..=4).contains(&digits.len()) && digits.bytes().all(|byte| byte.is_ascii_hexdigit())
}

/// A hex number without its 0x.
fn without_mark(word: &str) -> &str {
    word.strip_prefix("0x").or_else(|| word.strip_prefix("0X")).unwrap_or(word)
}

fn raw(bytes: &[u8]) -> Result<Vec<u16>, String> {
    let pairs = bytes.chunks_exact(2);
    match pairs.remainder() {
        [] => Ok(pairs.map(|pair| u16::from_le_bytes([pair[0], pair[1]])).collect()),
        _ => Err(format!("{}: a raw table has two for each entry", count(bytes.len(), "byte", "bytes"))),
    }
}

/// The entries of a list.
fn listed(source: &Source, entry: fn(&str) -> Result<u16, String>) -> Result<Vec<u16>, Fault> {
    let words = listing::words(source, TABLE_MOST)?;
    words.iter().map(|word: &Word| entry(word.text).map_err(|told| word.fault(source, told))).collect()
}

fn hex(word: &str) -> Result<u16, String> {
    match is_hex(word) {
        // four hex digits are 16 bits
        true => Ok(u16::from_str_radix(without_mark(word), 16).unwrap_or(u16::MAX)),
        false => Err(format!("'{}' is no entry in hex: one to four digits, as 0x00ff or 00ff", cut(word))),
    }
}

fn decimal(word: &str) -> Result<u16, String> {
    let digits = word.bytes().all(|byte| byte.is_ascii_digit());
    match word.parse() {
        Ok(entry) if digits => Ok(entry),
        _ if digits => Err(format!("an entry is 0 to 65535, not {}", cut(word))),
        _ => Err(format!("'{}' is no entry: a decimal number from 0 to 65535 (65535 is none)", cut(word))),
    }
}

fn cut(word: &str) -> String {
    word.chars().take(20).collect()
}

/// Lengths of the game's tables, full and compact.
pub struct Lengths {
    pub full: usize,
    pub compact: usize,
}

impl Lengths {
    pub fn of(game: &Game) -> Result<Lengths, Error> {
        let rows = game.output.states * sizes::controller_counters(game);
        let compact = 2 * game.input.states + rows * game.components()?;
        Ok(Lengths { full: sizes::controller_entries(game), compact })
    }

    pub fn of_layout(&self, layout: Layout) -> usize {
        match layout {
            Layout::Full => self.full,
            Layout::Compact => self.compact,
        }
    }

    /// "6 entries: this game's tables have 8 in the full layout and 7 in the compact one"
    pub fn words_for(&self, given: usize) -> String {
        let (given, full, compact) = (count(given, "entry", "entries"), grouped(self.full), grouped(self.compact));
        format!("{given}: this game's tables have {full} in the full layout and {compact} in the compact one")
    }
}

impl Stored {
    /// The entries in the full layout, whichever the table has. One of neither length is given back as it is: the library refuses it by its number.
    pub fn full(&self, file: &GameFile, layout: Option<Layout>) -> Result<Vec<u16>, Failure> {
        match self.layout(file, layout)? {
            Layout::Full => Ok(self.entries.clone()),
            Layout::Compact => file.game.to_full(&self.entries).map_err(|error| self.refused(file, error)),
        }
    }

    /// The layout: the one given, else the one whose length it has. A print has the full one.
    pub fn layout(&self, file: &GameFile, given: Option<Layout>) -> Result<Layout, Failure> {
        let lengths = Lengths::of(&file.game).map_err(|error| self.refused(file, error))?;
        let (full, compact) = (self.entries.len() == lengths.full, self.entries.len() == lengths.compact);
        match given {
            Some(layout) => Ok(layout),
            None if self.form == Form::Print || !compact => Ok(Layout::Full),
            // both layouts have this length: the compact one also has the game's ranks
            None if full && file.game.to_full(&self.entries).is_err() => Ok(Layout::Full),
            None if full => {
                let words = "both layouts of this game's tables have this length, and the entries could be of either: \
                             say --layout full or --layout compact";
                Err(self.fault(words.to_string()).into())
            }
            None => Ok(Layout::Compact),
        }
    }

    /// What is wrong with the table, where the library has no number for it.
    pub fn fault(&self, words: String) -> Fault {
        Fault { file: self.name.clone(), place: None, number: None, words }
    }

    /// A refusal of the table in words: the two inputs that differ, the rank that is not the game's, or the lengths.
    pub fn refused(&self, file: &GameFile, error: Error) -> Failure {
        let told = match error.number {
            21 => differing(file, &self.entries),
            22 => foreign_rank(file, &self.entries),
            16 | 19 | 23 => Lengths::of(&file.game).ok().map(|lengths| lengths.words_for(self.entries.len())),
            _ => None,
        };
        let fault = Fault::of(&self.name, error);
        match told {
            Some(words) => Fault { words, ..fault }.into(),
            None => fault.into(),
        }
    }
}

/// The first row in which an input differs from the first one of its component.
fn differing(file: &GameFile, entries: &[u16]) -> Option<String> {
    let inputs = file.game.input.states;
    let rows = entries.get(inputs..)?.chunks(inputs).enumerate();
    let mut pairs = rows.flat_map(|(row, line)| (0..inputs).map(move |input| (row, line, input)));
    pairs.find_map(|(row, line, input)| {
        let first = lowest(&file.game, input);
        let (one, two) = (*line.get(first)?, *line.get(input)?);
        (one != two).then(|| difference(file, row, (first, one), (input, two)))
    })
}

fn difference(file: &GameFile, row: usize, (first, one): (usize, u16), (second, two): (usize, u16)) -> String {
    let GameFile { game, names, .. } = file;
    let (inputs, counters) = (game.input.states, sizes::controller_counters(game));
    let reply = |entry| match sizes::controller_entry(entry) {
        Some((output, counter)) => format!("new {}, counter {counter}", names.output_called(output)),
        None => "nothing".to_string(),
    };
    format!(
        "old {} and old {} are of one component, and in new {}, counter {}, the one is answered with {}, and the other with {}: \
         entries {} and {}, from 0",
        names.input_called(InState(first)),
        names.input_called(InState(second)),
        names.output_called(OutState(row / counters)),
        row % counters,
        reply(one),
        reply(two),
        inputs + row * inputs + first,
        inputs + row * inputs + second
    )
}

/// The first rank that is not the game's. Components rank from 0 by their smallest state.
fn foreign_rank(file: &GameFile, entries: &[u16]) -> Option<String> {
    let inputs = file.game.input.states;
    let smallest = (0..inputs).fold(Set::default(), |set, input| set | Set::of(lowest(&file.game, input)));
    let rank = |input: usize| members(smallest).filter(|state| *state < lowest(&file.game, input)).count();
    let mut ranks = entries.get(inputs..2 * inputs)?.iter().map(|rank| usize::from(*rank)).enumerate();
    let (input, given) = ranks.find(|(input, given)| *given != rank(*input))?;
    Some(format!(
        "entry {}, from 0, is {given}, and the rank of the component of old {} is {}: this is no table of this game in the compact layout",
        inputs + input,
        file.names.input_called(InState(input)),
        rank(input)
    ))
}

/// The smallest state of an input's component.
fn lowest(game: &Game, input: usize) -> usize {
    members(component(&game.input, input)).next().unwrap_or(input)
}

/// A table as the bytes of a file.
pub fn bytes(game: &Game, entries: &[u16], layout: Layout, form: Form) -> Vec<u8> {
    match form {
        Form::Print => answer::print(game, Winner::System, entries).into_bytes(),
        Form::Raw => entries.iter().flat_map(|entry| entry.to_le_bytes()).collect(),
        Form::Hex => rows(game, entries, layout, " ", |entry| format!("{entry:04x}")).into_bytes(),
        Form::Csv => rows(game, entries, layout, ",", |entry| entry.to_string()).into_bytes(),
    }
}

/// A line of starts, in the compact layout one of ranks, then one for each output and counter.
fn rows(game: &Game, entries: &[u16], layout: Layout, between: &str, entry: fn(&u16) -> String) -> String {
    let inputs = game.input.states;
    let rows = game.output.states * sizes::controller_counters(game);
    let front = if layout == Layout::Full { inputs } else { 2 * inputs };
    let (front, rest) = entries.split_at(front.min(entries.len()));
    let width = (rest.len() / rows).max(1);
    let lines = front.chunks(inputs).chain(rest.chunks(width));
    lines.map(|line| line.iter().map(entry).collect::<Vec<_>>().join(between) + "\n").collect()
}
