//! Plain lists of words, as people type them and recorders write them: recordings, bars, entries of a table. Blanks, tabs, commas and line ends separate
//! words, and from `;`, `#` or `//` on the rest of a line is a comment. Line ends of Windows and a byte-order mark are passed over.
use crate::failure::Fault;
use crate::files::Source;

/// A word, with its line and its column, both from 1. A column counts letters, as an editor does.
#[derive(Clone, Copy)]
pub struct Word<'a> {
    pub text: &'a str,
    pub line: usize,
    pub column: usize,
}

impl Word<'_> {
    /// What is wrong with it.
    pub fn fault(&self, source: &Source, words: String) -> Fault {
        Fault { file: source.name.clone(), place: Some((self.line, self.column)), number: None, words }
    }
}

const BYTE_ORDER_MARK: &[u8] = b"\xef\xbb\xbf";

/// The words of a file of at most so many bytes.
pub fn words(source: &Source, most: usize) -> Result<Vec<Word<'_>>, Fault> {
    let whole = |words: String| Fault { file: source.name.clone(), place: None, number: None, words };
    if source.text.len() > most {
        return Err(whole(format!("a file of over {most} bytes")));
    }
    if source.text.starts_with(b"\xff\xfe") || source.text.starts_with(b"\xfe\xff") {
        return Err(whole("the file is UTF-16 text: save it as plain text or UTF-8".to_string()));
    }
    let text = source.text.strip_prefix(BYTE_ORDER_MARK).unwrap_or(&source.text);
    let mut words = Vec::new();
    for (bytes, line) in text.split(|byte| *byte == b'\n').zip(1..) {
        let text = std::str::from_utf8(bytes).map_err(|error| Fault {
            place: Some((line, String::from_utf8_lossy(&bytes[..error.valid_up_to()]).chars().count() + 1)),
            ..whole("a byte that no text has: the file is neither plain text nor UTF-8".to_string())
        })?;
        words.extend(of_line(text, line));
    }
    Ok(words)
}

/// The words of a line, without its comment.
fn of_line(text: &str, line: usize) -> impl Iterator<Item = Word<'_>> {
    let end = [";", "#", "//"].iter().filter_map(|mark| text.find(mark)).min().unwrap_or(text.len());
    let text = &text[..end];
    let parts = text.split([' ', '\t', '\r', ',']);
    parts.filter(|part| !part.is_empty()).map(move |part| {
        let before = &text[..part.as_ptr() as usize - text.as_ptr() as usize];
        Word { text: part, line, column: before.chars().count() + 1 }
    })
}

/// The words by line; lines without words are left out.
pub fn by_line<'a>(words: &'a [Word<'a>]) -> impl Iterator<Item = &'a [Word<'a>]> {
    words.chunk_by(|one, next| one.line == next.line)
}
