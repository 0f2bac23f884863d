//! `nanpuwiq catalogue`: who wins in many games, in files or of every old drive with every new one.
mod judge;
mod print;
mod totals;

use crate::arguments::{Arguments, MANY};
use crate::diagnosis::line_column;
use crate::drive_file::{self, Side};
use crate::failure::{Failure, Fault, Status};
use crate::files::{self, FORM_MOST};
use crate::kinds;
use crate::names::is_same;
use crate::report::{self, Report};
use crate::sizes::PROGRAM_ROOM;
use crate::sketch::{Guesses, NamedGraph};
use crate::standard;
use crate::subcommand::Subcommand;
use crate::template::{self, SideSets, Template};
use judge::Outcome;
use nanpuwiq::{Game, Graph, CONTROLLER_MOST};
use std::ffi::{OsStr, OsString};
use std::os::unix::ffi::OsStringExt;
use std::path::Path;
use totals::Totals;

pub const SUBCOMMAND: Subcommand = Subcommand {
    name: "catalogue",
    form: "[FILE ..]",
    words: "tell who wins in many games, or of every old drive with every new one",
    options: &[
        ("--old", MANY),
        ("--new", MANY),
        ("--require", 1),
        ("--long", 0),
        ("--csv", 0),
        ("--json", 0),
        ("--totals", 0),
    ],
    help: HELP,
    run,
};

const HELP: &str = "\
nanpuwiq catalogue [--csv|--json|--totals] [FILE ..]
nanpuwiq catalogue --old DRIVE .. --new DRIVE .. --require FILE [--long|--csv|--json|--totals]

Tells of each game's file who wins, how many positions are won and how long the winner's table is, and the totals. Without FILE the names of the
files come from standard input, a name a line. Or it tries every old drive with every new one and prints a matrix.
A DRIVE is half a kit, a graph whose modes have names, a graph in graphviz's language or a table of moves; nanpuwiq(5) has them.

  --old DRIVE ..    the old drives, whose panels are kept
  --new DRIVE ..    the new drives
  --require FILE    what is asked of every pair, by the names of the modes: (if ((flush)) ((flush)))
  --long            a line for each pair, not a matrix
  --csv, --json     a line or an object for each file or pair, for other programs
  --totals          the totals alone, the very bytes of the program catalogue

Status: 0 every file or pair was judged, 2 one was refused, or used wrongly, 3 input or output failed.
";

fn run(arguments: Arguments) -> Result<Status, Failure> {
    let form = arguments.one_of(&["--long", "--csv", "--json", "--totals"])?;
    let found = catalogue(&arguments).map(|catalogue| Report {
        text: match (form, &catalogue.games) {
            (Some("--json"), _) => String::new(),
            (Some("--csv"), _) => print::csv(&catalogue),
            (Some("--totals"), _) => catalogue.totals.figures(),
            (None, Games::Pairs { .. }) => print::matrix(&catalogue),
            _ => print::list(&catalogue),
        },
        fields: print::fields(&catalogue),
        status: catalogue.status(),
    });
    report::written(&arguments, found)
}

fn catalogue(arguments: &Arguments) -> Result<Catalogue, Failure> {
    match (arguments.values("--old"), arguments.values("--new")) {
        (None, None) => of_files(arguments),
        (Some(old), Some(new)) => of_drives(arguments, old, new),
        (None, Some(_)) => Err(arguments.wrong("--new without --old")),
        (Some(_), None) => Err(arguments.wrong("--old without --new")),
    }
}

/// Games, and what each comes to.
pub struct Catalogue {
    pub games: Games,
    pub outcomes: Vec<Outcome>,
    pub totals: Totals,
}

/// The names of files, or those of the drives of pairs: pair old × count of new + new.
pub enum Games {
    Files(Vec<String>),
    Pairs { old: Vec<String>, new: Vec<String>, notes: Vec<String> },
}

impl Catalogue {
    fn new(games: Games, outcomes: Vec<Outcome>) -> Catalogue {
        let totals = Totals::of(&outcomes);
        Catalogue { games, outcomes, totals }
    }

    fn status(&self) -> Status {
        if self.totals.refused > 0 {
            Status::Refused
        } else {
            Status::Fine
        }
    }
}

/// The catalogue of games in files.
fn of_files(arguments: &Arguments) -> Result<Catalogue, Failure> {
    if arguments.has("--require") || arguments.has("--long") {
        return Err(arguments.wrong("--require and --long go with --old and --new"));
    }
    let listed = arguments.files().is_empty() || arguments.files() == [OsStr::new("-")];
    let files = if listed { listed_files()? } else { arguments.files().to_vec() };
    let outcomes = judge::all(files.len(), "files", |rooms, file| judge::file(rooms, &files[file], PROGRAM_ROOM));
    let names = files.iter().map(|file| printable(&file.to_string_lossy())).collect();
    Ok(Catalogue::new(Games::Files(names), outcomes))
}

/// The names of files on standard input, a name a line. Where every line ends in a carriage return too, that is left out.
fn listed_files() -> Result<Vec<OsString>, Failure> {
    if standard::input_is_terminal() {
        standard::say(
            "reading names of game files from this terminal, a name a line; Ctrl-D ends the list ('nanpuwiq catalogue FILE ..' takes them as words)",
        );
    }
    let text =
        standard::read_input(u64::MAX).map_err(|error| Failure::Input { name: "standard input".to_string(), error })?;
    let mut names: Vec<Vec<u8>> = text.split(|byte| *byte == b'\n').map(<[u8]>::to_vec).collect();
    // what follows the last line's end is a name where it is not empty
    names.pop_if(|last| last.is_empty());
    if !names.is_empty() && names.iter().all(|name| name.ends_with(b"\r")) {
        standard::say(
            "standard input: lines end in a carriage return and a newline (CRLF): the carriage returns are left out; \
             the program catalogue takes them for a part of the names and counts each file as one that cannot be opened (26)",
        );
        for name in &mut names {
            name.pop();
        }
    }
    Ok(names.into_iter().map(OsString::from_vec).collect())
}

/// A name for a line of text.
fn printable(name: &str) -> String {
    name.chars().map(|c| if c.is_control() { '?' } else { c }).collect()
}

/// A drive that was read, with its sets of each requirement; or why it was not.
struct Drive {
    graph: Graph,
    sets: SideSets,
}

/// The catalogue of every old drive with every new one.
fn of_drives(arguments: &Arguments, old: &[OsString], new: &[OsString]) -> Result<Catalogue, Failure> {
    if let Some(file) = arguments.files().first() {
        return Err(arguments.wrong(&format!("'{}' is neither an old drive nor a new one", file.to_string_lossy())));
    }
    let mut guesses = Guesses::new();
    let (old_names, new_names) = (called(old), called(new));
    let (old_graphs, new_graphs) = (read_all(old, Side::Old, &mut guesses), read_all(new, Side::New, &mut guesses));
    let mut notes = Vec::new();
    let template = match arguments.value("--require") {
        Some(file) => required(file, [&old_graphs, &new_graphs], [&old_names, &new_names], &mut notes)?,
        None => return Err(arguments.wrong("what is asked of each pair? --require FILE tells")),
    };
    for guess in &guesses {
        standard::say(guess);
    }
    let drives = |graphs: Vec<Result<NamedGraph, Fault>>, side: Side| -> Vec<Result<Drive, Fault>> {
        let drive = |graph: NamedGraph| Drive { sets: template.sets(side, &graph), graph: graph.graph };
        graphs.into_iter().map(|graph| graph.map(drive)).collect()
    };
    let (old_drives, new_drives) = (drives(old_graphs, Side::Old), drives(new_graphs, Side::New));
    let outcomes = judge::all(old_drives.len() * new_drives.len(), "pairs", |rooms, pair| {
        match (&old_drives[pair / new_drives.len()], &new_drives[pair % new_drives.len()]) {
            (Err(refusal), _) | (_, Err(refusal)) => Outcome::Refused(refusal.clone()),
            (Ok(old), Ok(new)) => {
                let requirements = template::requirements(&old.sets, &new.sets);
                Game::new(old.graph, new.graph, &requirements)
                    .and_then(|game| rooms.judge(&game, CONTROLLER_MOST))
                    .unwrap_or_else(judge::refused)
            }
        }
    });
    Ok(Catalogue::new(Games::Pairs { old: old_names, new: new_names, notes }, outcomes))
}

/// The drives of a side. One that cannot be read has every pair with it refused.
fn read_all(files: &[OsString], side: Side, guesses: &mut Guesses) -> Vec<Result<NamedGraph, Fault>> {
    let read = |file: &OsString| {
        drive_file::read(file, side, guesses).map_err(|failure| {
            let unreadable = matches!(failure, Failure::Input { .. }).then_some(26);
            let fault = failure.fault();
            Fault { number: fault.number.or(unreadable), ..fault }
        })
    };
    files.iter().map(read).collect()
}

/// What the drives are called: their files' names without folder and ending, where that tells them apart.
fn called(files: &[OsString]) -> Vec<String> {
    let short = |file: &OsString| {
        let stem = Path::new(file).file_stem().unwrap_or(file);
        printable(&stem.to_string_lossy())
    };
    let names: Vec<String> = files.iter().map(short).collect();
    let twice = names.iter().enumerate().any(|(k, name)| names[..k].contains(name));
    if twice {
        files.iter().map(|file| printable(&file.to_string_lossy())).collect()
    } else {
        names
    }
}

/// The requirements of a file. Where a drive has no mode of a name, that is noted; where none at all has one, that is said, for the name may be mistyped.
fn required(
    file: &OsStr,
    graphs: [&[Result<NamedGraph, Fault>]; 2],
    names: [&[String]; 2],
    notes: &mut Vec<String>,
) -> Result<Template, Failure> {
    let source = kinds::plain(files::read(file, FORM_MOST)?, &mut Guesses::new())?;
    let template = Template::read(&source)?;
    let has = |graph: &Result<NamedGraph, Fault>, word: &str| graph.as_ref().map_or(true, |g| g.state(word).is_some());
    let mut unknown: Vec<&str> = Vec::new();
    for (side, graphs_of, names) in [(Side::Old, graphs[0], names[0]), (Side::New, graphs[1], names[1])] {
        let mut asked: Vec<&str> = Vec::new();
        for word in template.words(side) {
            let text = word.text.as_str();
            if asked.iter().any(|other| is_same(other, text)) {
                continue;
            }
            asked.push(text);
            if !graphs.iter().any(|side| side.iter().any(|graph| has(graph, text))) {
                if !unknown.iter().any(|other| is_same(other, text)) {
                    let (line, column) = line_column(&source.text, word.place);
                    standard::say(&format!("{}:{line}:{column}: no drive has a mode called {text}", source.name));
                    unknown.push(text);
                }
                continue;
            }
            let then = match side {
                Side::Old => "what waits for that mode alone is never due",
                Side::New => "what asks for that mode alone is never met",
            };
            let without = graphs_of.iter().zip(names).filter(|(graph, _)| !has(graph, text));
            notes.extend(without.map(|(_, name)| format!("{name} has no mode called {text}: {then}")));
        }
    }
    Ok(template)
}
