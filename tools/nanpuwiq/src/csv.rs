//! A graph as a table of moves: a line `from,to` for each; `,to` marks an initial state and `from,` a state without a move. A first line `from,to` is a heading.
//! Commas, semicolons or tabs separate, whichever the first line has; a field may stand in quotes; lines that are empty or begin with '#' are passed over.
use crate::failure::Failure;
use crate::files::Source;
use crate::forms;
use crate::sketch::{Guesses, NamedGraph, Sketch, Word};

/// The graph of a file.
pub fn read(source: &Source, what: &'static str, guesses: &mut Guesses) -> Result<NamedGraph, Failure> {
    if let Err(error) = std::str::from_utf8(&source.text) {
        return Err(forms::refused(source, error.valid_up_to(), "a byte that is no text in UTF-8"));
    }
    let mut sketch = Sketch::new(what);
    let mut separator = None;
    let mut at = if source.text.starts_with(forms::BYTE_ORDER_MARK) { forms::BYTE_ORDER_MARK.len() } else { 0 };
    for line in source.text[at..].split_inclusive(|byte| *byte == b'\n') {
        let place = at;
        at += line.len();
        let line = line.trim_ascii();
        if line.is_empty() || line.starts_with(b"#") {
            continue;
        }
        let first = separator.is_none();
        let by = *separator.get_or_insert_with(|| separator_of(line));
        let [from, to] = fields(source, place, by)?;
        if !(first && is_heading(&from, &to)) {
            row(source, &mut sketch, from, to)?;
        }
    }
    sketch.finish(source, guesses)
}

fn row(source: &Source, sketch: &mut Sketch, from: Word, to: Word) -> Result<(), Failure> {
    match (from.text.is_empty(), to.text.is_empty()) {
        (true, true) => return Err(forms::refused(source, from.place, "a line without a state")),
        (true, false) => {
            let state = sketch.state(&to);
            sketch.begin(state);
        }
        (false, true) => {
            sketch.state(&from);
        }
        (false, false) => {
            let (from, to) = (sketch.state(&from), sketch.state(&to));
            sketch.step(from, to);
        }
    }
    Ok(())
}

fn separator_of(line: &[u8]) -> u8 {
    line.iter().copied().find(|byte| matches!(byte, b',' | b';' | b'\t')).unwrap_or(b',')
}

fn is_heading(from: &Word, to: &Word) -> bool {
    from.text.eq_ignore_ascii_case("from") && to.text.eq_ignore_ascii_case("to")
}

/// The two fields of the line that begins at this place.
fn fields(source: &Source, place: usize, separator: u8) -> Result<[Word; 2], Failure> {
    let mut at = place;
    let mut fields = Vec::new();
    loop {
        let (word, end) = field(source, at, separator)?;
        fields.push(word);
        if source.text.get(end) != Some(&separator) {
            break;
        }
        at = end + 1;
    }
    let count = fields.len();
    fields.try_into().map_err(|_| {
        let told = format!("expected two fields, from and to, with {} between them, found {count}", shown(separator));
        forms::refused(source, place, &told)
    })
}

/// A field and where it ends.
fn field(source: &Source, start: usize, separator: u8) -> Result<(Word, usize), Failure> {
    let text = &source.text;
    let blank = |at: usize| matches!(text.get(at), Some(b' ' | b'\t')) && text[at] != separator;
    let ends = |at: usize| text.get(at).is_none_or(|byte| *byte == separator || matches!(byte, b'\n' | b'\r'));
    let mut at = start;
    while blank(at) {
        at += 1;
    }
    let place = at;
    let mut bytes = Vec::new();
    if text.get(at) == Some(&b'"') {
        at += 1;
        loop {
            match (text.get(at), text.get(at + 1)) {
                (None | Some(b'\n'), _) => return Err(forms::refused(source, place, "a quote without its end")),
                (Some(b'"'), Some(b'"')) => {
                    bytes.push(b'"');
                    at += 2;
                }
                (Some(b'"'), _) => {
                    at += 1;
                    break;
                }
                (Some(byte), _) => {
                    bytes.push(*byte);
                    at += 1;
                }
            }
        }
        while blank(at) {
            at += 1;
        }
        if !ends(at) {
            return Err(forms::refused(source, at, &format!("expected {} after the quote", shown(separator))));
        }
    } else {
        while !ends(at) {
            bytes.push(text[at]);
            at += 1;
        }
    }
    let word = String::from_utf8_lossy(&bytes).trim().to_string();
    Ok((Word { text: word, place }, at))
}

fn shown(separator: u8) -> &'static str {
    match separator {
        b';' => "a semicolon",
        b'\t' => "a tab",
        _ => "a comma",
    }
}
