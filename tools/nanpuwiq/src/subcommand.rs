//! What a subcommand is: its name, its options, its help and what runs it. Each has a file of its own; a new one also gets a line in `ALL`.
use crate::arguments::Arguments;
use crate::failure::{Failure, Status};
use crate::{
    bars, catalogue, check, compare, completion, draw, explain, export, format, kit, map, moved, page, play, solve, why,
};

pub struct Subcommand {
    pub name: &'static str,
    /// What follows the name, for the list of subcommands.
    pub form: &'static str,
    /// What it does, for that list.
    pub words: &'static str,
    /// Its options, with how many values each takes.
    pub options: &'static [(&'static str, usize)],
    /// What --help prints. The man page says the same at length; a test holds it to the options here.
    pub help: &'static str,
    pub run: fn(Arguments) -> Result<Status, Failure>,
}

/// All subcommands, in the order in which they are told of.
pub const ALL: [&Subcommand; 16] = [
    &solve::SUBCOMMAND,
    &play::SUBCOMMAND,
    &page::SUBCOMMAND,
    &explain::SUBCOMMAND,
    &map::SUBCOMMAND,
    &why::SUBCOMMAND,
    &bars::SUBCOMMAND,
    &check::SUBCOMMAND,
    &compare::SUBCOMMAND,
    &moved::SUBCOMMAND,
    &draw::SUBCOMMAND,
    &export::SUBCOMMAND,
    &kit::SUBCOMMAND,
    &catalogue::SUBCOMMAND,
    &format::SUBCOMMAND,
    &completion::SUBCOMMAND,
];

/// The help of the whole command.
pub fn help() -> String {
    let mut text = String::from("nanpuwiq: can the old panel run the new drive?\n\n");
    let used = |subcommand: &Subcommand| format!("{} {}", subcommand.name, subcommand.form);
    let width = ALL.iter().map(|subcommand| used(subcommand).len()).max().unwrap_or(0);
    for subcommand in ALL {
        text += &format!("  nanpuwiq {:width$}  {}\n", used(subcommand), subcommand.words);
    }
    text + "\n'nanpuwiq help SUBCOMMAND' tells the options; --version the version. FILE is a game's file, or - for standard input.\n\
            Status: 0 an adapter exists, or what was asked for is written; 1 none exists; 2 refused or used wrongly; 3 input or output failed.\n"
}
