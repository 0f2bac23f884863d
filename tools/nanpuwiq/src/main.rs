//! The command `nanpuwiq`: can the old panel run the new drive? Every answer comes from the proved library, through the crate `nanpuwiq`;
//! what is here reads files, asks people and writes text, and is tested, not proved.
//!
//! Each subcommand has a file, with its options and its help (`subcommand`).
//!
//! There is no `fn main`: Rust's start opens /dev/null in the place of a standard stream that is closed, and then a write to a closed output would succeed.
#![no_main]

mod answer;
mod arguments;
mod bars;
mod catalogue;
mod check;
mod compare;
mod completion;
mod csv;
mod diagnosis;
mod dot;
mod draw;
mod drive_file;
mod explain;
mod export;
mod failure;
mod fields;
mod files;
mod format;
mod forms;
mod graphs;
mod ground;
mod json;
mod kinds;
mod kit;
mod kit_file;
mod listing;
mod map;
mod meant;
mod moved;
mod names;
mod page;
mod panel;
mod play;
mod print_faults;
mod recordings;
mod report;
mod requirements;
mod said;
mod shape;
mod sizes;
mod sketch;
mod solve;
mod standard;
mod subcommand;
mod tables;
mod template;
mod why;
mod words;

use arguments::Arguments;
use failure::{Failure, Status};
use std::ffi::{OsStr, OsString};
use std::os::raw::{c_char, c_int};

/// C's entry. The standard library has the arguments already: on Linux it takes them before this is called.
#[no_mangle]
pub extern "C" fn main(_count: c_int, _words: *const *const c_char) -> c_int {
    standard::keep_broken_pipes();
    let words: Vec<OsString> = std::env::args_os().skip(1).collect();
    let status = match standard::check_output().and_then(|()| command(&words)) {
        Ok(status) => status,
        Err(failure) => failure.tell(),
    };
    status.number()
}

/// Runs what the words ask for.
fn command(words: &[OsString]) -> Result<Status, Failure> {
    let Some((first, rest)) = words.split_first() else {
        return Err(Failure::usage("which subcommand?"));
    };
    if is_any(first, &["--help", "-h", "help"]) {
        return help(rest);
    }
    if is_any(first, &["--version", "-V"]) {
        return told(&format!("nanpuwiq {}\n", nanpuwiq::VERSION));
    }
    match subcommand::ALL.iter().find(|subcommand| first == subcommand.name) {
        Some(subcommand) if rest.iter().any(|word| is_any(word, &["--help", "-h"])) => told(subcommand.help),
        Some(subcommand) => (subcommand.run)(Arguments::of(subcommand, rest)?),
        None => Err(Failure::usage(&format!("no subcommand '{}'", first.to_string_lossy()))),
    }
}

/// The help of the whole command, or of the subcommand that is named.
fn help(words: &[OsString]) -> Result<Status, Failure> {
    match words {
        [] => told(&subcommand::help()),
        [name] => match subcommand::ALL.iter().find(|subcommand| name == subcommand.name) {
            Some(subcommand) => told(subcommand.help),
            None => Err(Failure::usage(&format!("no subcommand '{}'", name.to_string_lossy()))),
        },
        _ => Err(Failure::usage("help of which subcommand?")),
    }
}

fn is_any(word: &OsStr, names: &[&str]) -> bool {
    names.iter().any(|name| word == *name)
}

/// Prints what was asked about the command itself.
fn told(text: &str) -> Result<Status, Failure> {
    standard::write(text.as_bytes())?;
    Ok(Status::Fine)
}
