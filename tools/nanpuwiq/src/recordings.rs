//! Recordings of a run, as text: the states in their order, numbers or names, one or more a line.
use crate::failure::{Failure, Fault};
use crate::files;
use crate::listing::{self, Word};
use nanpuwiq::STATES;
use std::ffi::OsStr;

/// Bytes of a recording at most.
const RECORDING_MOST: usize = 1 << 26;

/// A recording: the file's name, a state's number a step, and for each its line and column.
pub struct Recording {
    pub name: String,
    pub states: Vec<u8>,
    places: Vec<(usize, usize)>,
}

impl Recording {
    /// The line and the column of a step; none past the end.
    pub fn place(&self, step: usize) -> Option<(usize, usize)> {
        self.places.get(step).copied()
    }

    pub fn state(&self, step: usize) -> Option<usize> {
        self.states.get(step).map(|state| usize::from(*state))
    }
}

/// The recording of a file; `meant` gives the number of a state that a word means.
pub fn read(file: &OsStr, meant: impl Fn(&str) -> Result<usize, String>) -> Result<Recording, Failure> {
    let source = files::read(file, RECORDING_MOST)?;
    let words = listing::words(&source, RECORDING_MOST)?;
    let state = |word: &Word| -> Result<u8, Fault> {
        let number = meant(word.text).map_err(|told| word.fault(&source, told))?;
        let byte = u8::try_from(number).ok().filter(|byte| usize::from(*byte) < STATES);
        let told = || format!("a state's number is 0 to {}, not {}", STATES - 1, word.text);
        byte.ok_or_else(|| word.fault(&source, told()))
    };
    let states = words.iter().map(state).collect::<Result<Vec<u8>, Fault>>()?;
    let places = words.iter().map(|word| (word.line, word.column)).collect();
    Ok(Recording { name: source.name, states, places })
}
