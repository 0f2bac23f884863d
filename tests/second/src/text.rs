//! The file: a reader that stops at the first byte no well-shaped file has
//! there, and a writer.

use crate::game::{Game, Graph, Refusal, Requirement, Set, State};
use std::ops::RangeInclusive;

/// A longer text gets number 12.
pub const LONGEST: usize = 40_960;

/// The reading cannot go on; the place is where the reader stands.
struct Stop;

struct Reader<'a> {
    text: &'a [u8],
    /// Everything before this place begins some well-shaped file.
    place: usize,
}

/// The game of a well-shaped text, accepted or not; else number 12, then 11.
pub fn read(text: &[u8]) -> Result<Game, Refusal> {
    if text.len() > LONGEST {
        return Err(Refusal::Number(12));
    }
    let mut reader = Reader { text, place: 0 };
    match reader.game() {
        Ok(game) => Ok(game),
        Err(Stop) => Err(Refusal::Shape(reader.place)),
    }
}

impl Reader<'_> {
    fn game(&mut self) -> Result<Game, Stop> {
        self.word("(game ")?;
        let inputs = self.number(1..=128)?;
        self.word(" ")?;
        let outputs = self.number(1..=128)?;
        self.word(" ")?;
        let requirements = self.number(0..=8)?;
        self.word(")\n")?;
        let game = Game {
            inputs: self.graph("(in ", inputs)?,
            outputs: self.graph("(out ", outputs)?,
            requirements: (0..requirements).map(|_| self.requirement()).collect::<Result<_, _>>()?,
        };
        // A byte after the last line begins no well-shaped file.
        self.if_true(self.place == self.text.len())?;
        Ok(game)
    }

    fn graph(&mut self, opening: &str, count: usize) -> Result<Graph, Stop> {
        (0..count).map(|number| self.state(opening, number)).collect()
    }

    fn state(&mut self, opening: &str, number: usize) -> Result<State, Stop> {
        self.word(opening)?;
        self.number(number..=number)?;
        self.word(" ")?;
        let initial = self.number(0..=1)? == 1;
        self.word(" ")?;
        let moves = self.set()?;
        self.word(")\n")?;
        Ok(State { initial, moves })
    }

    fn requirement(&mut self) -> Result<Requirement, Stop> {
        self.word("(if ")?;
        let inputs = self.sets()?;
        self.word(" ")?;
        let outputs = self.sets()?;
        self.word(")\n")?;
        Ok(Requirement { inputs, outputs })
    }

    /// A list of 0 to 4 sets: after the fourth only the closing fits.
    fn sets(&mut self) -> Result<Vec<Set>, Stop> {
        self.word("(")?;
        let mut sets = Vec::new();
        while !self.sees(b')') {
            self.if_true(sets.len() < 4)?;
            self.blank_unless(sets.is_empty())?;
            sets.push(self.set()?);
        }
        self.word(")")?;
        Ok(sets)
    }

    /// Strictly rising numbers 0 to 127: after 127 only the closing fits.
    fn set(&mut self) -> Result<Set, Stop> {
        self.word("(")?;
        let mut set = Vec::new();
        let mut lowest = 0;
        while !self.sees(b')') {
            self.if_true(lowest <= 127)?;
            self.blank_unless(set.is_empty())?;
            let number = self.number(lowest..=127)?;
            set.push(number);
            lowest = number + 1;
        }
        self.word(")")?;
        Ok(set)
    }

    /// A number of the range. A digit is taken only while what has been read
    /// still begins a number of the range, so that the place stays right.
    fn number(&mut self, range: RangeInclusive<usize>) -> Result<usize, Stop> {
        let mut front = None;
        while let Some(digit) = self.digit() {
            let longer = match front {
                None => digit,
                Some(0) => break, // no leading zeros
                Some(value) => 10 * value + digit,
            };
            if !range.clone().any(|number| begins(longer, number)) {
                break;
            }
            front = Some(longer);
            self.place += 1;
        }
        front.filter(|value| range.contains(value)).ok_or(Stop)
    }

    fn digit(&self) -> Option<usize> {
        let byte = self.text.get(self.place)?;
        byte.is_ascii_digit().then(|| usize::from(byte - b'0'))
    }

    fn sees(&self, byte: u8) -> bool {
        self.text.get(self.place) == Some(&byte)
    }

    fn word(&mut self, word: &str) -> Result<(), Stop> {
        for &byte in word.as_bytes() {
            self.if_true(self.sees(byte))?;
            self.place += 1;
        }
        Ok(())
    }

    fn blank_unless(&mut self, first: bool) -> Result<(), Stop> {
        if first {
            return Ok(());
        }
        self.word(" ")
    }

    fn if_true(&self, fits: bool) -> Result<(), Stop> {
        if fits {
            return Ok(());
        }
        Err(Stop)
    }
}

/// Is this front all of the number, or the first of its digits?
fn begins(front: usize, number: usize) -> bool {
    number == front || (front > 0 && (number / 10 == front || number / 100 == front))
}

/// The text of a game. The game need not be accepted, but has to have a shape.
pub fn write(game: &Game) -> String {
    let mut lines = vec![format!("(game {} {} {})", game.inputs.len(), game.outputs.len(), game.requirements.len())];
    lines.extend(graph_lines("in", &game.inputs));
    lines.extend(graph_lines("out", &game.outputs));
    for requirement in &game.requirements {
        lines.push(format!("(if {} {})", sets_text(&requirement.inputs), sets_text(&requirement.outputs)));
    }
    lines.join("\n") + "\n"
}

fn graph_lines<'a>(word: &'a str, graph: &'a Graph) -> impl Iterator<Item = String> + 'a {
    let line = move |(number, state): (usize, &State)| {
        format!("({word} {number} {} {})", usize::from(state.initial), set_text(&state.moves))
    };
    graph.iter().enumerate().map(line)
}

fn sets_text(sets: &[Set]) -> String {
    format!("({})", sets.iter().map(set_text).collect::<Vec<_>>().join(" "))
}

fn set_text(set: &Set) -> String {
    format!("({})", set.iter().map(usize::to_string).collect::<Vec<_>>().join(" "))
}
