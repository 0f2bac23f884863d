//! What a person types: plain lines, or on a terminal lines that can be edited, with the lines before them.
use crate::failure::Failure;
use crate::standard::{self, Keys, Lines, LINE_MOST};

/// Where the picks come from.
pub enum Typed {
    Lines(Lines),
    Edited(Editor),
}

impl Typed {
    /// An editor on a terminal that can move its cursor, else plain lines.
    pub fn begin(prompt: &'static str) -> Typed {
        let dumb = std::env::var_os("TERM").is_none_or(|term| term == "dumb");
        let keys = if standard::output_is_terminal() && !dumb { Keys::of_terminal() } else { None };
        match keys {
            Some(keys) => Typed::Edited(Editor { keys, prompt, history: Vec::new() }),
            None => Typed::Lines(Lines::of_input()),
        }
    }

    /// The next line; none at the end of the input.
    pub fn next(&mut self) -> Result<Option<String>, Failure> {
        match self {
            Typed::Lines(lines) => lines.next(),
            Typed::Edited(editor) => editor.next(),
        }
    }
}

/// Letters of a line that are shown at once: more would not fit beside the prompt, and a line that is broken cannot be drawn again.
const SHOWN: usize = 72;

pub struct Editor {
    keys: Keys,
    prompt: &'static str,
    history: Vec<String>,
}

/// What a key asks for.
enum Key {
    Letter(char),
    Enter,
    End,
    Interrupt,
    Left,
    Right,
    Home,
    Last,
    Up,
    Down,
    Backspace,
    Delete,
    CutBefore,
    CutAfter,
    CutWord,
    Other,
}

/// A line under way: its letters, and how many stand before the cursor.
#[derive(Default)]
struct Line {
    letters: Vec<char>,
    cursor: usize,
}

impl Line {
    fn of(text: &str) -> Line {
        let letters: Vec<char> = text.chars().collect();
        Line { cursor: letters.len(), letters }
    }

    fn text(&self) -> String {
        self.letters.iter().collect()
    }

    /// Where the word before the cursor begins.
    fn word(&self) -> usize {
        let blank = |n: &usize| self.letters[*n - 1] == ' ';
        let end = (1..=self.cursor).rev().find(|n| !blank(n)).unwrap_or(0);
        (1..=end).rev().find(blank).unwrap_or(0)
    }

    /// Takes the letters from here to there out.
    fn cut(&mut self, from: usize, to: usize) {
        self.letters.drain(from..to.min(self.letters.len()));
        self.cursor = from;
    }

    /// The part around the cursor as it is shown, and how far the cursor is from its end.
    fn shown(&self) -> (String, usize) {
        let from = self.cursor.saturating_sub(SHOWN);
        let to = (from + SHOWN).min(self.letters.len());
        let columns = |letters: &[char]| letters.iter().map(|c| if u32::from(*c) < 0x1100 { 1 } else { 2 }).sum();
        (self.letters[from..to].iter().collect(), columns(&self.letters[self.cursor..to]))
    }
}

impl Editor {
    fn next(&mut self) -> Result<Option<String>, Failure> {
        let mut line = Line::default();
        // the lines before this one, and this one while another is looked at
        let mut at = self.history.len();
        let mut kept = String::new();
        loop {
            let end = line.letters.len();
            match self.key()? {
                Key::Letter(c) if line.text().len() + c.len_utf8() < LINE_MOST as usize => {
                    line.letters.insert(line.cursor, c);
                    line.cursor += 1;
                    if line.cursor == line.letters.len() && end < SHOWN {
                        standard::write(c.to_string().as_bytes())?;
                        continue;
                    }
                }
                Key::Enter => {
                    standard::write(b"\n")?;
                    let text = line.text().trim().to_string();
                    if !text.is_empty() && self.history.last() != Some(&text) {
                        self.history.push(text.clone());
                    }
                    return Ok(Some(text));
                }
                Key::End if line.letters.is_empty() => return Ok(None),
                Key::Interrupt => self.keys.interrupt(),
                Key::Left => line.cursor = line.cursor.saturating_sub(1),
                Key::Right => line.cursor = (line.cursor + 1).min(end),
                Key::Home => line.cursor = 0,
                Key::Last => line.cursor = end,
                Key::Backspace if line.cursor > 0 => line.cut(line.cursor - 1, line.cursor),
                Key::Delete | Key::End if line.cursor < end => line.cut(line.cursor, line.cursor + 1),
                Key::CutBefore => line.cut(0, line.cursor),
                Key::CutAfter => line.cut(line.cursor, end),
                Key::CutWord => line.cut(line.word(), line.cursor),
                Key::Up if at > 0 => {
                    if at == self.history.len() {
                        kept = line.text();
                    }
                    at -= 1;
                    line = Line::of(&self.history[at]);
                }
                Key::Down if at < self.history.len() => {
                    at += 1;
                    line = Line::of(self.history.get(at).unwrap_or(&kept));
                }
                _ => continue,
            }
            self.draw(&line)?;
        }
    }

    /// The line again, and the cursor in its place.
    fn draw(&self, line: &Line) -> Result<(), Failure> {
        let (text, back) = line.shown();
        let cursor = if back > 0 { format!("\x1b[{back}D") } else { String::new() };
        standard::write(format!("\r{}{text}\x1b[K{cursor}", self.prompt).as_bytes())
    }

    fn key(&mut self) -> Result<Key, Failure> {
        let Some(byte) = self.keys.next()? else { return Ok(Key::End) };
        Ok(match byte {
            b'\n' | b'\r' => Key::Enter,
            1 => Key::Home,
            2 => Key::Left,
            3 => Key::Interrupt,
            4 => Key::End,
            5 => Key::Last,
            6 => Key::Right,
            8 | 127 => Key::Backspace,
            11 => Key::CutAfter,
            14 => Key::Down,
            16 => Key::Up,
            21 => Key::CutBefore,
            23 => Key::CutWord,
            27 => self.escaped()?,
            byte if byte < 32 => Key::Other,
            byte => self.letter(byte)?,
        })
    }

    /// What follows an escape: `[A`, `OH`, `[3~`.
    fn escaped(&mut self) -> Result<Key, Failure> {
        if !matches!(self.keys.next()?, Some(b'[' | b'O')) {
            return Ok(Key::Other);
        }
        let mut number = 0_u32;
        loop {
            return Ok(match self.keys.next()? {
                Some(digit @ b'0'..=b'9') => {
                    number = number.wrapping_mul(10).wrapping_add(u32::from(digit - b'0'));
                    continue;
                }
                Some(b';') => {
                    number = 0;
                    continue;
                }
                Some(b'A') => Key::Up,
                Some(b'B') => Key::Down,
                Some(b'C') => Key::Right,
                Some(b'D') => Key::Left,
                Some(b'H') => Key::Home,
                Some(b'F') => Key::Last,
                Some(b'~') => match number {
                    1 | 7 => Key::Home,
                    3 => Key::Delete,
                    4 | 8 => Key::Last,
                    _ => Key::Other,
                },
                _ => Key::Other,
            });
        }
    }

    /// A letter, of one byte or more; bytes that are none are left out.
    fn letter(&mut self, first: u8) -> Result<Key, Failure> {
        let mut bytes = vec![first];
        let more = match first {
            0xc0..=0xdf => 1,
            0xe0..=0xef => 2,
            0xf0..=0xf7 => 3,
            _ => 0,
        };
        for _ in 0..more {
            bytes.extend(self.keys.next()?);
        }
        let letter = std::str::from_utf8(&bytes).ok().and_then(|text| text.chars().next()).filter(|c| !c.is_control());
        Ok(letter.map_or(Key::Other, Key::Letter))
    }
}
