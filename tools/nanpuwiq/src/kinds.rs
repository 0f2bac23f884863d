//! What kind of file bytes look like, so that one that was handed to the wrong subcommand is told which is the right one.
use crate::failure::Failure;
use crate::files::Source;
use crate::forms::{self, BYTE_ORDER_MARK};
use crate::sketch::Guesses;

#[derive(Clone, Copy, Debug, PartialEq, Eq)]
pub enum Kind {
    Game,
    Kit,
    Names,
    Print,
    Drive,
    Requirements,
    Dot,
    Csv,
    Other,
}

impl Kind {
    /// What the file is, and who reads it.
    pub fn words(self) -> &'static str {
        match self {
            Kind::Game => "this is a game's file, which 'nanpuwiq explain' and 'nanpuwiq solve' read",
            Kind::Kit => "this is a kit's file, which 'nanpuwiq kit' reads; 'nanpuwiq kit --game' writes its game",
            Kind::Names => "this is a file of names, which stands beside a game's file or is given with --names",
            Kind::Print => "this is the print of an answer, which 'nanpuwiq check GAME TABLE' reads",
            Kind::Drive => {
                "this is a drive's file, one half of a pair: 'nanpuwiq catalogue --old DRIVE --new DRIVE' reads it"
            }
            Kind::Requirements => "these are requirements alone, which are given with --require",
            Kind::Dot => "this is a graph in graphviz's language, which 'nanpuwiq format' reads",
            Kind::Csv => "this is a table of moves, which 'nanpuwiq format --old TABLE --new TABLE' reads",
            Kind::Other => "this is no file that nanpuwiq knows",
        }
    }
}

/// The kind that the first words tell.
pub fn of(text: &[u8]) -> Kind {
    let text = after_comments(text);
    let starts = |words: &[&str]| words.iter().any(|word| begins_with_word(text, word));
    match text.first() {
        Some(b'(') => by_first_list(text),
        _ if starts(&["digraph", "strict", "graph"]) => Kind::Dot,
        _ if is_table(text) => Kind::Csv,
        _ => Kind::Other,
    }
}

/// By the first word in brackets; `(in 0 pump)` is a name and `(in 0 1 (0))` a state of a game.
fn by_first_list(text: &[u8]) -> Kind {
    let end = text.iter().position(|byte| *byte == b'\n').unwrap_or(text.len());
    let line = String::from_utf8_lossy(&text[1..end]);
    let head: String = line.trim_start().chars().take_while(|c| c.is_alphanumeric() || *c == '-').collect();
    match head.as_str() {
        "game" => Kind::Game,
        "old" | "new" | "old-commands" | "new-commands" => Kind::Kit,
        "wins" | "refused" => Kind::Print,
        "mode" | "commands" => Kind::Drive,
        "if" => Kind::Requirements,
        "in" | "out" | "input" | "output" if line.contains('(') || !has_name(&line) => Kind::Game,
        "in" | "out" => Kind::Names,
        _ => Kind::Other,
    }
}

/// Whether the third word of a line is a name.
fn has_name(line: &str) -> bool {
    let third = line.split([' ', '\t', ',', ')']).filter(|word| !word.is_empty()).nth(2);
    third.is_some_and(|word| word.starts_with(char::is_alphabetic))
}

/// Lines that have one comma, semicolon or tab each.
fn is_table(text: &[u8]) -> bool {
    let line: &[u8] = text.split(|byte| *byte == b'\n').next().unwrap_or_default();
    line.iter().any(|byte| matches!(byte, b',' | b';' | b'\t')) && !line.contains(&b'(')
}

/// What follows blanks, line ends and comments.
fn after_comments(text: &[u8]) -> &[u8] {
    let mut text = text.strip_prefix(BYTE_ORDER_MARK).unwrap_or(text);
    loop {
        text = text.trim_ascii_start();
        let comment = text.starts_with(b";") || text.starts_with(b"#") || text.starts_with(b"//");
        let end = match (comment, text.starts_with(b"/*")) {
            (true, _) => text.iter().position(|byte| *byte == b'\n'),
            (_, true) => text.windows(2).position(|pair| pair == b"*/").map(|end| end + 2),
            _ => return text,
        };
        text = end.map_or(&[], |end| &text[end..]);
    }
}

fn begins_with_word(text: &[u8], word: &str) -> bool {
    let follows = text.get(word.len());
    text.len() >= word.len()
        && text[..word.len()].eq_ignore_ascii_case(word.as_bytes())
        && !follows.is_some_and(u8::is_ascii_alphanumeric)
}

/// The file as UTF-8: text in UTF-16, as some editors save it, is turned into that.
pub fn plain(source: Source, guesses: &mut Guesses) -> Result<Source, Failure> {
    let pairs = |of: fn([u8; 2]) -> u16| -> Vec<u16> {
        source.text[2..].chunks_exact(2).map(|pair| of([pair[0], pair[1]])).collect()
    };
    let units = match source.text.get(..2) {
        Some(b"\xff\xfe") => pairs(u16::from_le_bytes),
        Some(b"\xfe\xff") => pairs(u16::from_be_bytes),
        _ => return Ok(source),
    };
    match String::from_utf16(&units) {
        Ok(text) => {
            guesses.push(format!("{}: read as UTF-16 text", source.name));
            Ok(Source { name: source.name, text: text.into_bytes() })
        }
        Err(_) => Err(forms::refused(&source, 0, "text that begins as UTF-16 and is none")),
    }
}
