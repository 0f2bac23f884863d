//! Numbers of an array in lines, with a comment before each row, and prose in lines, for both languages.

/// Numbers on a line at most.
const WIDTH: usize = 16;

/// The values in rows of `width`, each under its label; there is no comma after the last value.
pub fn labelled(values: &[String], width: usize, comment: (&str, &str), label: impl Fn(usize) -> String) -> String {
    let mut text = String::new();
    let rows: Vec<&[String]> = values.chunks(width.max(1)).collect();
    for (number, row) in rows.iter().enumerate() {
        text += &format!("        {} {} {}\n", comment.0, label(number), comment.1);
        text += &lines(row, number + 1 == rows.len());
    }
    text
}

/// The values in lines.
pub fn plain(values: &[String]) -> String {
    lines(values, true)
}

fn lines(values: &[String], last: bool) -> String {
    let mut text = String::new();
    let lines: Vec<&[String]> = values.chunks(WIDTH).collect();
    for (number, line) in lines.iter().enumerate() {
        let comma = if last && number + 1 == lines.len() { "" } else { "," };
        text += &format!("        {}{comma}\n", line.join(", "));
    }
    text
}

pub fn numbers<T: ToString>(values: &[T]) -> Vec<String> {
    values.iter().map(T::to_string).collect()
}

/// Letters of a line of prose at most.
const PROSE: usize = 116;

/// Prose in lines that are not too long: lines that follow each other are one paragraph; empty and indented lines stay as they are.
pub fn wrapped(text: &str) -> Vec<String> {
    let mut lines: Vec<String> = Vec::new();
    let mut open = false;
    for line in text.lines() {
        if line.is_empty() || line.starts_with(' ') {
            lines.push(line.to_string());
            open = false;
            continue;
        }
        for word in line.split(' ') {
            match lines.last_mut().filter(|last| open && last.chars().count() + 1 + word.chars().count() <= PROSE) {
                Some(last) => *last += &format!(" {word}"),
                None => lines.push(word.to_string()),
            }
            open = true;
        }
    }
    lines
}
