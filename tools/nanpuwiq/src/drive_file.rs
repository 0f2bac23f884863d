//! A drive's file, half of a pair: a graph whose modes have names.
//!
//!     (commands off slow)          where this line is left out, the lists below are the modes that a mode moves to
//!     (mode stop 1 (stop low))     a mode, 1 if it is initial, else 0, and where each command leads; - where it is barred
//!     (mode low 0 (- low))
//!
//! The lines of a kit's file will do too: of a whole kit that half is taken which is asked for. So will a graph in graphviz's language or as a table of moves.
use crate::csv;
use crate::dot;
use crate::failure::Failure;
use crate::files::{self, Source, FORM_MOST};
use crate::forms::{self, Form};
use crate::kinds::{self, Kind};
use crate::sketch::{Guesses, NamedGraph, Sketch, Word};
use std::ffi::OsStr;

/// Which drive of a pair.
#[derive(Clone, Copy, Debug, PartialEq, Eq)]
pub enum Side {
    Old,
    New,
}

impl Side {
    /// What its states are called in a game.
    pub fn state(self) -> &'static str {
        match self {
            Side::Old => "input",
            Side::New => "output",
        }
    }

    /// The words that lines about its modes and about its commands begin with.
    fn heads(self) -> ([&'static str; 2], [&'static str; 2]) {
        match self {
            Side::Old => (["mode", "old"], ["commands", "old-commands"]),
            Side::New => (["mode", "new"], ["commands", "new-commands"]),
        }
    }
}

/// The drive in a file.
pub fn read(file: &OsStr, side: Side, guesses: &mut Guesses) -> Result<NamedGraph, Failure> {
    let source = kinds::plain(files::read(file, FORM_MOST)?, guesses)?;
    read_source(&source, side, "mode", guesses)
}

/// The drive in a file that was read, whose states are called so.
pub fn read_source(
    source: &Source,
    side: Side,
    what: &'static str,
    guesses: &mut Guesses,
) -> Result<NamedGraph, Failure> {
    match kinds::of(&source.text) {
        Kind::Dot => dot::read(source)?.one(source, side, what, guesses),
        Kind::Csv => csv::read(source, what, guesses),
        _ => modes(source, side, what, guesses),
    }
}

/// The drive in lines of modes.
fn modes(source: &Source, side: Side, what: &'static str, guesses: &mut Guesses) -> Result<NamedGraph, Failure> {
    let forms = forms::read(source)?;
    let (mode_heads, command_heads) = side.heads();
    known_heads(source, &forms)?;
    let lines = |heads: [&str; 2]| -> Vec<&Form> {
        forms.iter().filter(|form| head(form).is_some_and(|word| heads.contains(&word))).collect()
    };
    let commands = match lines(command_heads)[..] {
        [] => None,
        [line] => line.list().map(|items| items.len() - 1),
        [_, second, ..] => return Err(forms::refused(source, second.place, "a second line with the commands")),
    };
    let mut sketch = Sketch::new(what);
    // modes are numbered in the order of their lines, wherever they are moved to before
    for line in lines(mode_heads) {
        mode(source, line, &mut sketch)?;
    }
    for line in lines(mode_heads) {
        moves(source, line, commands, &mut sketch)?;
    }
    if sketch.is_empty() {
        let told = format!("no line (mode NAME 0-OR-1 (MOVES)): {}", kinds::of(&source.text).words());
        return Err(forms::refused(source, 0, &told));
    }
    sketch.all_listed(source)?;
    sketch.finish(source, guesses)
}

/// The word that a line begins with.
fn head(form: &Form) -> Option<&str> {
    form.list()?.first()?.word()
}

const HEADS: [&str; 7] = ["mode", "commands", "old", "old-commands", "new", "new-commands", "if"];

fn known_heads(source: &Source, forms: &[Form]) -> Result<(), Failure> {
    match forms.iter().find(|form| !head(form).is_some_and(|word| HEADS.contains(&word))) {
        Some(form) => {
            let told = format!(
                "expected a line in brackets with mode or commands, as a drive's file has: {}",
                kinds::of(&source.text).words()
            );
            Err(forms::refused(source, form.place, &told))
        }
        None => Ok(()),
    }
}

/// The parts of `(mode stop 1 (stop low))`: its head, the mode, its mark and its list.
fn parts<'a>(source: &Source, line: &'a Form) -> Result<&'a [Form; 4], Failure> {
    let items = line.list().and_then(|items| items.try_into().ok());
    items.ok_or_else(|| forms::refused(source, line.place, "expected (mode NAME 0-OR-1 (MOVES))"))
}

/// The mode of a line.
fn mode(source: &Source, line: &Form, sketch: &mut Sketch) -> Result<(), Failure> {
    let [_, name, initial, _] = parts(source, line)?;
    let state = sketch.state(&word(source, name)?);
    if !sketch.list(state) {
        let told = format!("a second line for {}", name.word().unwrap_or_default());
        return Err(forms::refused(source, name.place, &told));
    }
    match initial.number() {
        Some(0) => Ok(()),
        Some(1) => {
            sketch.begin(state);
            Ok(())
        }
        _ => Err(forms::refused(source, initial.place, "expected 1 for an initial mode, else 0")),
    }
}

/// The modes that a line's mode moves to.
fn moves(source: &Source, line: &Form, commands: Option<usize>, sketch: &mut Sketch) -> Result<(), Failure> {
    let wrong = |place, told: &str| Err(forms::refused(source, place, told));
    let [head, name, _, next] = parts(source, line)?;
    let Some(items) = next.list() else {
        return wrong(next.place, "expected the modes that it moves to, in brackets");
    };
    match commands {
        Some(count) if items.len() != count => {
            let told = format!("{} next modes, and the drive has {count} commands", items.len());
            return wrong(next.place, &told);
        }
        None if head.word() != Some("mode") => {
            return wrong(line.place, &format!("no line ({}-commands ..)", head.word().unwrap_or_default()))
        }
        _ => {}
    }
    let from = sketch.state(&word(source, name)?);
    for item in items.iter().filter(|item| commands.is_none() || item.word() != Some("-")) {
        let to = sketch.state(&word(source, item)?);
        sketch.step(from, to);
    }
    Ok(())
}

/// A mode's name or number.
fn word(source: &Source, form: &Form) -> Result<Word, Failure> {
    match form.word() {
        Some(text) => Ok(Word { text: text.to_string(), place: form.place }),
        None => Err(forms::refused(source, form.place, "expected a mode's name or number")),
    }
}
