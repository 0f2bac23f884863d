//! Names for the states of a game, from a file beside the game's: lines `(in S NAME)` and `(out S NAME)`.
use crate::failure::Failure;
use crate::files::Source;
use crate::forms::{self, Form};
use crate::meant::hint;
use nanpuwiq::{Game, InState, OutState};
use std::collections::BTreeMap;

/// Names that are listed at most, where a word means none of them.
const LISTED_MOST: usize = 8;

/// Letters of a name at most.
const NAME_MOST: usize = 32;

/// The names by state; a state without one is called by its number.
#[derive(Clone, Default)]
pub struct Names {
    inputs: BTreeMap<usize, String>,
    outputs: BTreeMap<usize, String>,
}

impl Names {
    /// The names in a file.
    pub fn read(source: &Source, game: &Game) -> Result<Names, Failure> {
        let mut names = Names::default();
        for form in forms::read(source)? {
            names.line(source, game, &form)?;
        }
        Ok(names)
    }

    /// Names for all modes of two drives.
    pub fn of_modes(inputs: &[String], outputs: &[String]) -> Names {
        let numbered = |names: &[String]| names.iter().cloned().enumerate().filter(|(_, name)| is_name(name)).collect();
        Names { inputs: numbered(inputs), outputs: numbered(outputs) }
    }

    /// One line of the file.
    fn line(&mut self, source: &Source, game: &Game, form: &Form) -> Result<(), Failure> {
        let wrong = |place, words: &str| Err(forms::refused(source, place, words));
        let Some([side, state, name]) = form.list() else {
            return wrong(form.place, "expected (in STATE NAME) or (out STATE NAME)");
        };
        let (names, states, what) = match side.word() {
            Some("in") => (&mut self.inputs, game.input.states, "input"),
            Some("out") => (&mut self.outputs, game.output.states, "output"),
            _ => return wrong(side.place, "expected 'in' or 'out'"),
        };
        let Some(number) = state.number().filter(|number| *number < states) else {
            return wrong(state.place, &format!("expected an {what} from 0 to {}", states - 1));
        };
        let Some(word) = name.word().filter(|word| is_name(word)) else {
            return wrong(name.place, NAME_RULE);
        };
        if names.values().any(|other| is_same(other, word)) {
            return wrong(name.place, &format!("two {what}s with the name {word}"));
        }
        if names.insert(number, word.to_string()).is_some() {
            return wrong(state.place, &format!("a second name for {what} {number}"));
        }
        Ok(())
    }

    /// The input's name, or its number.
    pub fn input(&self, state: InState) -> String {
        self.inputs.get(&state.0).cloned().unwrap_or_else(|| state.0.to_string())
    }

    pub fn output(&self, state: OutState) -> String {
        self.outputs.get(&state.0).cloned().unwrap_or_else(|| state.0.to_string())
    }

    /// The input that a person means by its number or its name.
    pub fn input_of(&self, word: &str, states: usize) -> Option<InState> {
        meant(&self.inputs, word, states).map(InState)
    }

    pub fn output_of(&self, word: &str, states: usize) -> Option<OutState> {
        meant(&self.outputs, word, states).map(OutState)
    }

    /// The input for people: "1 flush", or "1" where it has no name.
    pub fn input_called(&self, state: InState) -> String {
        called(&self.inputs, state.0)
    }

    pub fn output_called(&self, state: OutState) -> String {
        called(&self.outputs, state.0)
    }

    /// The input that a word means by its number or its name, or in words that there is none. Whether the game has such a number is not asked.
    pub fn find_input(&self, word: &str) -> Result<InState, String> {
        found(&self.inputs, word, "input", (&self.outputs, "output")).map(InState)
    }

    pub fn find_output(&self, word: &str) -> Result<OutState, String> {
        found(&self.outputs, word, "output", (&self.inputs, "input")).map(OutState)
    }

    /// The lines of a file with these names.
    pub fn text(&self) -> String {
        let lines = |side: &str, names: &BTreeMap<usize, String>| -> String {
            names.iter().map(|(state, name)| format!("({side} {state} {name})\n")).collect()
        };
        lines("in", &self.inputs) + &lines("out", &self.outputs)
    }
}

/// A state by its number or its name; capital and small letters are the same.
fn meant(names: &BTreeMap<usize, String>, word: &str, states: usize) -> Option<usize> {
    let named = names.iter().find(|(_, name)| is_same(name, word)).map(|(state, _)| *state);
    named.or_else(|| word.parse().ok()).filter(|state| *state < states)
}

/// Whether two names are the same: capital and small letters are not told apart.
pub fn is_same(one: &str, other: &str) -> bool {
    one.eq_ignore_ascii_case(other) || one.to_lowercase() == other.to_lowercase()
}

/// "1 flush", or "1".
fn called(names: &BTreeMap<usize, String>, state: usize) -> String {
    names.get(&state).map_or_else(|| state.to_string(), |name| format!("{state} {name}"))
}

/// A state by its number or its name, whatever the number. A name of the other side is told to be one: files are easily exchanged.
fn found(
    names: &BTreeMap<usize, String>,
    word: &str,
    side: &str,
    (others, other): (&BTreeMap<usize, String>, &str),
) -> Result<usize, String> {
    let none = format!("no {side} is called '{word}'");
    match meant(names, word, usize::MAX) {
        Some(state) => Ok(state),
        None if !word.is_empty() && word.bytes().all(|byte| byte.is_ascii_digit()) => Ok(usize::MAX),
        None if meant(others, word, usize::MAX).is_some() => Err(format!("{none}: it is an {other}")),
        None if names.is_empty() => Err(format!("{none}: {side}s have numbers alone here, and no names")),
        None => match hint(word, names.values().map(String::as_str)) {
            near if near.is_empty() && names.len() <= LISTED_MOST => {
                let known: Vec<String> = names.keys().map(|state| called(names, *state)).collect();
                Err(format!("{none}: expected {}", known.join(", ")))
            }
            near => Err(none + &near),
        },
    }
}

pub const NAME_RULE: &str =
    "a name is a letter of any language, then letters and digits with single '_' between them, 32 at most";

/// Names are read by people; words of code are made from them (export/identifiers.rs).
pub fn is_name(word: &str) -> bool {
    let letters = word.chars().all(|c| is_letter(c) || c == '_');
    let joined = !word.contains("__") && !word.ends_with('_');
    let first = word.starts_with(|c: char| c.is_alphabetic());
    letters && joined && first && word.chars().count() <= NAME_MOST
}

/// A letter or a digit. The marks that some languages write over, under or between letters belong to them.
fn is_letter(c: char) -> bool {
    c.is_alphanumeric() || MARKS.iter().any(|&(first, last)| (first..=last).contains(&c))
}

/// Marks that are no letters by themselves: accents, points of Hebrew and Arabic, signs of the Indic scripts, of Thai, Lao, Tibetan and Burmese.
const MARKS: [(char, char); 14] = [
    ('\u{300}', '\u{36f}'),
    ('\u{483}', '\u{487}'),
    ('\u{591}', '\u{5bd}'),
    ('\u{64b}', '\u{65f}'),
    ('\u{93c}', '\u{94d}'),
    ('\u{9bc}', '\u{9cd}'),
    ('\u{a3c}', '\u{a4d}'),
    ('\u{abc}', '\u{acd}'),
    ('\u{b3c}', '\u{b4d}'),
    ('\u{bbe}', '\u{bcd}'),
    ('\u{c3c}', '\u{ccd}'),
    ('\u{d3b}', '\u{dca}'),
    ('\u{e31}', '\u{ecd}'),
    ('\u{f18}', '\u{103a}'),
];
