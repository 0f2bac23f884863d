//! `nanpuwiq format`: reads a game as people write it down and writes the one strict text of it.
mod lenient;

use crate::arguments::Arguments;
use crate::diagnosis::line_column;
use crate::dot;
use crate::drive_file::{self, Side};
use crate::failure::{Failure, Status};
use crate::files::{self, Source, FORM_MOST};
use crate::forms;
use crate::kinds::{self, Kind};
use crate::names::{is_name, is_same, Names};
use crate::sketch::{Guesses, NamedGraph};
use crate::standard;
use crate::subcommand::Subcommand;
use crate::template::{self, Template};
use crate::words::grouped;
use nanpuwiq::{words, Game, TEXT_MOST};
use std::ffi::OsStr;

pub const SUBCOMMAND: Subcommand = Subcommand {
    name: "format",
    form: "FILE",
    words: "write the strict text of a game that is written loosely, drawn or in tables",
    options: &[("--names", 1), ("--old", 1), ("--new", 1), ("--require", 1), ("--game-names", 0)],
    help: HELP,
    run,
};

const HELP: &str = "\
nanpuwiq format [--names NAMES] [--require FILE] [--game-names] FILE
nanpuwiq format --old GRAPH --new GRAPH [--require FILE] [--game-names]

Reads a game as people write it down and prints the one strict text of it, which the other subcommands read.
FILE is a game with comments, blanks and line ends where one likes, names in place of numbers, lines in any order, or counts and marks left out; or a
drawing in graphviz's language with the old and the new drive. GRAPH is one of the two graphs: a drawing, a table of moves (from,to), or a drive's file.
What it guesses it says on standard error. What can be read in two ways is refused, with line and column.

  --names NAMES     names for the states that have numbers in FILE, as for play
  --old GRAPH       the old drive, the inputs
  --new GRAPH       the new drive, the outputs
  --require FILE    the requirements, where FILE or the graphs have none: lines (if ((flush)) ((flush)))
  --game-names      the names of the states, as a file of names for that game
";

/// A game taken apart: both graphs, and the requirements with the file that they stand in.
struct Parts {
    name: String,
    input: NamedGraph,
    output: NamedGraph,
    asked: Source,
    template: Template,
    /// The requirements are those of any pair: a name that a graph has not stands for no state.
    any_pair: bool,
    guesses: Guesses,
}

fn run(arguments: Arguments) -> Result<Status, Failure> {
    let mut parts = match (arguments.value("--old"), arguments.value("--new")) {
        (None, None) => of_file(&arguments)?,
        (Some(old), Some(new)) => of_graphs(&arguments, old, new)?,
        (None, Some(_)) => return Err(arguments.wrong("--new without --old")),
        (Some(_), None) => return Err(arguments.wrong("--old without --new")),
    };
    if let Some(file) = arguments.value("--require") {
        let source = readable(file, &mut parts.guesses)?;
        if !parts.template.is_empty() {
            let told = format!("{} has requirements of its own: which are meant cannot be told", parts.name);
            return Err(forms::refused(&source, 0, &told));
        }
        parts.template = Template::read(&source)?;
        parts.any_pair = true;
        parts.asked = source;
    } else if parts.template.is_empty() && parts.asked.text.is_empty() {
        parts.guesses.push(format!("{}: no requirements: nothing is asked (--require FILE tells them)", parts.name));
    }
    let text = parts.text(arguments.has("--game-names"))?;
    for guess in &parts.guesses {
        standard::say(guess);
    }
    standard::write(&text)?;
    Ok(Status::Fine)
}

/// A file's text, in UTF-8.
fn readable(file: &OsStr, guesses: &mut Guesses) -> Result<Source, Failure> {
    kinds::plain(files::read(file, FORM_MOST)?, guesses)
}

/// The parts in one file.
fn of_file(arguments: &Arguments) -> Result<Parts, Failure> {
    let file = arguments.file()?;
    let mut guesses = Guesses::new();
    let source = readable(file, &mut guesses)?;
    let wrong = |kind: Kind| Err(forms::refused(&source, 0, &format!("no game: {}", kind.words())));
    match kinds::of(&source.text) {
        Kind::Dot => {
            let drawing = dot::read(&source)?;
            let (input, output) = drawing.both(&source, &mut guesses)?;
            let template = Template::read(&drawing.requirements)?;
            numbered(&source.name, &input, "inputs", &mut guesses);
            numbered(&source.name, &output, "outputs", &mut guesses);
            // a drawing need not say what is asked
            let text = if template.is_empty() { Vec::new() } else { drawing.requirements.text };
            let asked = Source { name: source.name.clone(), text };
            Ok(Parts { name: source.name, input, output, asked, template, any_pair: false, guesses })
        }
        kind @ (Kind::Kit | Kind::Print | Kind::Names | Kind::Drive | Kind::Csv) => wrong(kind),
        Kind::Game | Kind::Requirements | Kind::Other => {
            let names = files::names_source(file, arguments.value("--names"))?;
            let (input, output, template) = lenient::read(&source, names.as_ref(), &mut guesses)?;
            Ok(Parts { name: source.name.clone(), input, output, asked: source, template, any_pair: false, guesses })
        }
    }
}

/// The parts in a file for each graph.
fn of_graphs(arguments: &Arguments, old: &OsStr, new: &OsStr) -> Result<Parts, Failure> {
    if arguments.file_if_any()?.is_some() || arguments.has("--names") {
        return Err(arguments.wrong("--old and --new take the place of FILE and its names"));
    }
    let mut guesses = Guesses::new();
    let (old, new) = (readable(old, &mut guesses)?, readable(new, &mut guesses)?);
    let input = drive_file::read_source(&old, Side::Old, "input", &mut guesses)?;
    let output = drive_file::read_source(&new, Side::New, "output", &mut guesses)?;
    let name = format!("{} and {}", old.name, new.name);
    let asked = Source { name: name.clone(), text: Vec::new() };
    let template = Template::of(&asked, &[])?;
    numbered(&old.name, &input, "inputs", &mut guesses);
    numbered(&new.name, &output, "outputs", &mut guesses);
    Ok(Parts { name, input, output, asked, template, any_pair: false, guesses })
}

/// Tells which number each name has.
fn numbered(file: &str, graph: &NamedGraph, what: &str, guesses: &mut Guesses) {
    if graph.by_name {
        guesses.push(format!("{file}: {what} are numbered in the order in which they are met: {}", graph.listed()));
    }
}

impl Parts {
    /// Every word of the requirements is a state; where they are those of any pair, one that is none is said.
    fn known(&mut self) -> Result<(), Failure> {
        for (side, graph) in [(Side::Old, &self.input), (Side::New, &self.output)] {
            for word in self.template.words(side).filter(|word| graph.state(&word.text).is_none()) {
                let what = side.state();
                if !self.any_pair {
                    let told = format!("no {what} '{}': there are {}", word.text, graph.listed());
                    return Err(forms::refused(&self.asked, word.place, &told));
                }
                let (line, column) = line_column(&self.asked.text, word.place);
                let told = format!("no {what} is called {}: it stands for none here", word.text);
                self.guesses.push(format!("{}:{line}:{column}: {told}", self.asked.name));
            }
        }
        Ok(())
    }

    /// The game's text, or the text of its names.
    fn text(&mut self, names: bool) -> Result<Vec<u8>, Failure> {
        self.known()?;
        for word in &self.template.bare {
            let (line, column) = line_column(&self.asked.text, word.place);
            self.guesses.push(format!("{}:{line}:{column}: read as (({}))", self.asked.name, word.text));
        }
        let (old, new) = (self.template.sets(Side::Old, &self.input), self.template.sets(Side::New, &self.output));
        let refused = |error: nanpuwiq::Error| Failure::Refused(format!("{}: {error}", self.name));
        let game =
            Game::new(self.input.graph, self.output.graph, &template::requirements(&old, &new)).map_err(refused)?;
        let text = game.write().map_err(refused)?;
        if text.len() > TEXT_MOST {
            let (bytes, words) = (grouped(text.len()), words(12));
            return Err(Failure::Refused(format!(
                "{}: the strict text has {bytes} bytes: {words} (refused 12)",
                self.name
            )));
        }
        if !names {
            return Ok(text);
        }
        let (input, output) = (named(&self.input, &mut self.guesses), named(&self.output, &mut self.guesses));
        Ok(Names::of_modes(&input, &output).text().into_bytes())
    }
}

/// The names of the states as names may be. One that would stand twice, or that has no letter, is left out.
fn named(graph: &NamedGraph, guesses: &mut Guesses) -> Vec<String> {
    let mut names: Vec<String> = Vec::new();
    for (state, name) in graph.names.iter().enumerate() {
        let word = if is_name(name) { name.clone() } else { tidied(name) };
        let twice = names.iter().any(|other| is_same(other, &word));
        let number = name == &state.to_string();
        let word = if number || twice || !is_name(&word) { state.to_string() } else { word };
        if word != *name {
            guesses.push(format!("'{name}' is no name: {word} is written"));
        }
        names.push(word);
    }
    names
}

/// The word with '_' for all that no name has.
fn tidied(word: &str) -> String {
    let parts = word.split(|c: char| !c.is_alphanumeric()).filter(|part| !part.is_empty());
    parts.collect::<Vec<_>>().join("_").chars().take(32).collect::<String>().trim_end_matches('_').to_string()
}
