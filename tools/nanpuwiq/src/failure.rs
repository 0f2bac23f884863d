//! How a subcommand ends: its status, and what it says on standard error.
use crate::standard;
use nanpuwiq::{words, Error, Winner};
use std::{fmt, io};

/// The exit status.
#[derive(Clone, Copy, Debug, PartialEq, Eq)]
pub enum Status {
    /// An adapter exists, or what was asked about the command itself is told.
    Fine,
    /// No adapter exists.
    NoAdapter,
    /// What was given is refused, or the command was used wrongly.
    Refused,
    /// Input or output failed.
    Broken,
}

impl Status {
    pub fn number(self) -> i32 {
        match self {
            Status::Fine => 0,
            Status::NoAdapter => 1,
            Status::Refused => 2,
            Status::Broken => 3,
        }
    }

    /// The status that tells who wins.
    pub fn of(winner: Winner) -> Status {
        match winner {
            Winner::System => Status::Fine,
            Winner::Environment => Status::NoAdapter,
        }
    }
}

/// What is refused: the file and the place in it, both from 1, where there is one, and the number where the library has one for it.
#[derive(Clone, Debug, PartialEq, Eq)]
pub struct Fault {
    pub file: String,
    pub place: Option<(usize, usize)>,
    pub number: Option<u8>,
    pub words: String,
}

/// `FILE:LINE:COLUMN: words (refused N)`.
impl fmt::Display for Fault {
    fn fmt(&self, f: &mut fmt::Formatter<'_>) -> fmt::Result {
        f.write_str(&self.file)?;
        if let Some((line, column)) = self.place {
            write!(f, ":{line}:{column}")?;
        }
        write!(f, ": {}", self.words)?;
        self.number.map_or(Ok(()), |number| write!(f, " (refused {number})"))
    }
}

impl Fault {
    /// The library's refusal of what a file has, in the library's words.
    pub fn of(file: &str, error: Error) -> Fault {
        Fault {
            file: file.to_string(),
            place: None,
            number: Some(error.number),
            words: words(error.number).to_string(),
        }
    }
}

impl From<Fault> for Failure {
    fn from(fault: Fault) -> Failure {
        Failure::Fault(fault)
    }
}

/// Why a subcommand could not answer.
#[derive(Debug)]
pub enum Failure {
    /// Used wrongly: what is wrong, and the subcommand whose help tells more.
    Usage { words: String, command: Option<&'static str> },
    /// Refused: what and where, as `FILE:LINE:COLUMN: words`.
    Refused(String),
    /// The same by its parts.
    Fault(Fault),
    /// A file that cannot be read or written, or standard input that cannot be read.
    Input { name: String, error: io::Error },
    /// Standard output cannot be written.
    Output(io::Error),
}

impl Failure {
    pub fn usage(words: &str) -> Failure {
        Failure::Usage { words: words.to_string(), command: None }
    }

    pub fn usage_of(command: &'static str, words: &str) -> Failure {
        Failure::Usage { words: words.to_string(), command: Some(command) }
    }

    /// Why a file cannot be read, in the system's words; else what is said.
    pub fn cause(&self) -> String {
        match self {
            Failure::Input { error, .. } | Failure::Output(error) => cause(error),
            Failure::Usage { words, .. } | Failure::Refused(words) => words.clone(),
            Failure::Fault(fault) => fault.to_string(),
        }
    }

    /// The parts of it that an object has: a file that cannot be read has its name, wrong use and output have words alone.
    pub fn fault(&self) -> Fault {
        let plain = |file: &str, words: String| Fault { file: file.to_string(), place: None, number: None, words };
        match self {
            Failure::Usage { words, .. } | Failure::Refused(words) => plain("", words.clone()),
            Failure::Fault(fault) => fault.clone(),
            Failure::Input { name, error } => plain(name, cause(error)),
            Failure::Output(error) => plain("standard output", cause(error)),
        }
    }

    pub fn status(&self) -> Status {
        match self {
            Failure::Usage { .. } | Failure::Refused(_) | Failure::Fault(_) => Status::Refused,
            Failure::Input { .. } | Failure::Output(_) => Status::Broken,
        }
    }

    /// Says it on standard error, and gives the status.
    pub fn tell(&self) -> Status {
        match self {
            Failure::Usage { words, command } => {
                standard::say(words);
                let name = command.map_or(String::new(), |command| format!("{command} "));
                standard::say(&format!("'nanpuwiq {name}--help' tells how it is used"));
                Status::Refused
            }
            Failure::Refused(words) => {
                standard::say(words);
                Status::Refused
            }
            Failure::Fault(fault) => {
                standard::say(&fault.to_string());
                Status::Refused
            }
            Failure::Input { name, error } => {
                standard::say(&format!("{name}: {}", cause(error)));
                Status::Broken
            }
            // a reader that has seen enough closes the pipe, as `head` does: nobody is to be told
            Failure::Output(error) if error.kind() == io::ErrorKind::BrokenPipe => Status::Broken,
            Failure::Output(error) => {
                standard::say(&format!("standard output: {}", cause(error)));
                Status::Broken
            }
        }
    }
}

/// The error in the system's words, without its number.
fn cause(error: &io::Error) -> String {
    let words = error.to_string();
    match words.find(" (os error ") {
        Some(end) => words[..end].to_string(),
        None => words,
    }
}
