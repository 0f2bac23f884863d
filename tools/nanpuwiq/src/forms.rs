//! Bracketed forms, the common shape of files of names and of kits: words and lists in brackets, with blanks, commas or line ends between them.
//! From `;`, `#` or `//` on the rest of a line is a comment. A byte-order mark at the front is passed over.
use crate::diagnosis::line_column;
use crate::failure::{Failure, Fault};
use crate::files::{Source, FORM_MOST};

/// Lists inside lists inside lists: no file needs more.
const DEPTH_MOST: usize = 8;

/// What editors on Windows put before a text.
pub const BYTE_ORDER_MARK: &[u8] = b"\xef\xbb\xbf";

/// A word or a list, and where it begins.
#[derive(Clone, Debug)]
pub struct Form {
    pub place: usize,
    pub kind: Kind,
}

#[derive(Clone, Debug)]
pub enum Kind {
    Word(String),
    List(Vec<Form>),
}

impl Form {
    pub fn word(&self) -> Option<&str> {
        match &self.kind {
            Kind::Word(word) => Some(word),
            Kind::List(_) => None,
        }
    }

    pub fn list(&self) -> Option<&[Form]> {
        match &self.kind {
            Kind::Word(_) => None,
            Kind::List(items) => Some(items),
        }
    }

    /// The number that a word is: decimal, without leading zeros.
    pub fn number(&self) -> Option<usize> {
        let word = self.word()?;
        let plain = word.bytes().all(|b| b.is_ascii_digit()) && (word == "0" || !word.starts_with('0'));
        word.parse().ok().filter(|_| plain)
    }
}

/// The file's refusal at a place: `FILE:LINE:COLUMN: words`.
pub fn refused(source: &Source, place: usize, words: &str) -> Failure {
    let place = Some(line_column(&source.text, place));
    Fault { file: source.name.clone(), place, number: None, words: words.to_string() }.into()
}

/// All forms of a file.
pub fn read(source: &Source) -> Result<Vec<Form>, Failure> {
    if source.text.len() > FORM_MOST {
        return Err(Failure::Refused(format!("{}: over {FORM_MOST} bytes", source.name)));
    }
    let mark = if source.text.starts_with(BYTE_ORDER_MARK) { BYTE_ORDER_MARK.len() } else { 0 };
    let mut reader = Reader { source, at: mark };
    let mut forms = Vec::new();
    while let Some(byte) = reader.next_item() {
        if byte == b')' {
            return Err(refused(source, reader.at, "a ')' without its '('"));
        }
        forms.push(reader.form(0)?);
    }
    Ok(forms)
}

struct Reader<'a> {
    source: &'a Source,
    at: usize,
}

impl Reader<'_> {
    fn byte(&self) -> Option<u8> {
        self.source.text.get(self.at).copied()
    }

    /// The first byte of the next item: passes over blanks, line ends and comments.
    fn next_item(&mut self) -> Option<u8> {
        loop {
            match self.byte()? {
                b' ' | b'\t' | b'\r' | b'\n' | b',' => self.at += 1,
                b';' | b'#' => self.pass_line(),
                b'/' if self.source.text.get(self.at + 1) == Some(&b'/') => self.pass_line(),
                byte => return Some(byte),
            }
        }
    }

    /// Passes over the rest of a line.
    fn pass_line(&mut self) {
        while self.byte().is_some_and(|byte| byte != b'\n') {
            self.at += 1;
        }
    }

    /// The word or the list at the present place.
    fn form(&mut self, depth: usize) -> Result<Form, Failure> {
        let place = self.at;
        match self.byte() {
            Some(b'(') if depth == DEPTH_MOST => Err(refused(self.source, place, "brackets too deep")),
            Some(b'(') => self.list(depth),
            _ => self.word(),
        }
    }

    fn list(&mut self, depth: usize) -> Result<Form, Failure> {
        let place = self.at;
        self.at += 1;
        let mut items = Vec::new();
        loop {
            match self.next_item() {
                None => return Err(refused(self.source, place, "a '(' without its ')'")),
                Some(b')') => {
                    self.at += 1;
                    return Ok(Form { place, kind: Kind::List(items) });
                }
                Some(_) => items.push(self.form(depth + 1)?),
            }
        }
    }

    fn word(&mut self) -> Result<Form, Failure> {
        let place = self.at;
        while self.byte().is_some_and(is_of_word) {
            self.at += 1;
        }
        match std::str::from_utf8(&self.source.text[place..self.at]) {
            Ok("") => Err(refused(self.source, place, &format!("a byte that no word has: {}", shown(self.byte())))),
            Ok(word) => Ok(Form { place, kind: Kind::Word(word.to_string()) }),
            Err(error) => {
                let bad = place + error.valid_up_to();
                let byte = shown(self.source.text.get(bad).copied());
                Err(refused(self.source, bad, &format!("a byte that no word has: {byte} (the file is not UTF-8)")))
            }
        }
    }
}

/// A byte of a word: letters of other languages have bytes past ASCII's.
fn is_of_word(byte: u8) -> bool {
    byte.is_ascii_alphanumeric() || byte == b'_' || byte == b'-' || !byte.is_ascii()
}

fn shown(byte: Option<u8>) -> String {
    match byte {
        Some(byte) if byte.is_ascii_graphic() => format!("'{}'", char::from(byte)),
        Some(byte) => format!("{byte}"),
        None => "the end of the file".to_string(),
    }
}
