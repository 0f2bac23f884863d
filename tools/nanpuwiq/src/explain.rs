//! `nanpuwiq explain`: a refusal in words, with its line and column; of a game that is not refused, what it asks and who wins.
use crate::arguments::Arguments;
use crate::diagnosis::{self, Finding};
use crate::failure::{Failure, Fault, Status};
use crate::fields::{self, Fields};
use crate::files::{self, GameFile, Source};
use crate::graphs;
use crate::json::Json;
use crate::report::{self, Report};
use crate::requirements;
use crate::sizes;
use crate::solve;
use crate::standard;
use crate::subcommand::Subcommand;
use crate::words::{count, grouped, LISTED_MOST};
use nanpuwiq::{Error, Game, InState, OutState, Requirement, Set, Verdict, Winner};
use std::fmt::Write;

pub const SUBCOMMAND: Subcommand = Subcommand {
    name: "explain",
    form: "FILE",
    words: "say in words what is wrong with a game's file, or what the game asks and who wins",
    options: &[("--names", 1), ("--json", 0)],
    help: HELP,
    run,
};

const HELP: &str = "\
nanpuwiq explain [--names NAMES] [--json] FILE

Says why a game's file is refused, with line and column, or else what the game asks and who wins.

  --names NAMES   names for the states, as for play
  --json          one JSON object, as nanpuwiq(5) tells
";

fn run(arguments: Arguments) -> Result<Status, Failure> {
    let (told, found) = match found(&arguments) {
        Ok(Explained::Game(report)) => (None, Ok(report)),
        Ok(Explained::Refused(told, fault)) => (Some(told), Err(fault.into())),
        Err(failure) => (None, Err(failure)),
    };
    match told {
        // a refusal is the answer here, and stands on standard output
        Some(told) if !arguments.has("--json") => {
            standard::write(told.as_bytes())?;
            Ok(Status::Refused)
        }
        _ => report::written(&arguments, found),
    }
}

/// What is said of a file: of its game, or why it is refused, with the line that is at fault.
enum Explained {
    Game(Report),
    Refused(String, Fault),
}

fn found(arguments: &Arguments) -> Result<Explained, Failure> {
    let file = arguments.file()?;
    let Source { name, text } = files::read_text(file)?;
    let game = match Game::read(&text) {
        Ok(game) => game,
        Err(error) => {
            let finding = diagnosis::of_text(&text, error);
            return Ok(Explained::Refused(pointed(&finding, &name, &text), finding.fault(&name, &text)));
        }
    };
    let names = files::read_names(file, arguments.value("--names"), &game)?;
    let file = GameFile { name, game, names };
    let refused = |error: Error| Fault::of(&file.name, error);
    let Verdict { winner, table } = file.game.solve().map_err(refused)?;
    let map = file.game.won_map().map_err(refused)?;
    let programs = solve::solved(&text).err();
    let report = Report {
        text: summary(&file, winner, table.len(), &map, programs),
        fields: of_game(&file, winner, table.len(), &map, programs),
        status: Status::of(winner),
    };
    Ok(Explained::Game(report))
}

/// The finding, and under it the line that it is about with a mark at the column.
fn pointed(finding: &Finding, name: &str, text: &[u8]) -> String {
    let mut told = format!("{}\n", finding.line(name, text));
    if let Some(place) = finding.place {
        let (_, column) = diagnosis::line_column(text, place);
        let start = place + 1 - column;
        let line: Vec<u8> = text[start..].iter().copied().take_while(|byte| *byte != b'\n').take(120).collect();
        // a column past what is shown has no mark
        if column <= line.len() + 1 {
            let _ = writeln!(told, "    {}\n    {}^", visible(&line), " ".repeat(column - 1));
        }
    }
    told
}

/// One sign for each byte.
fn visible(line: &[u8]) -> String {
    line.iter().map(|byte| if byte.is_ascii_graphic() || *byte == b' ' { char::from(*byte) } else { '?' }).collect()
}

/// What the game asks, how much of it is won and who wins. `programs` is what the programs refuse it with, whose rooms are shorter.
fn summary(file: &GameFile, winner: Winner, entries: usize, map: &[Set], programs: Option<Error>) -> String {
    let GameFile { name, game, names } = file;
    let (inputs, outputs) = (game.input.states, game.output.states);
    let mut told = format!(
        "{name}: a game of {} (old drive), {} (new drive) and {}.\n",
        count(inputs, "input", "inputs"),
        count(outputs, "output", "outputs"),
        count(game.k, "requirement", "requirements")
    );
    for (number, q) in game.requirements.iter().take(game.k).enumerate() {
        let _ = writeln!(told, "Requirement {number}: {}.", requirements::words(q, names));
    }
    let first_inputs: Vec<String> = graphs::members(game.input.initial).map(|s| names.input(InState(s))).collect();
    let first_outputs: Vec<String> = graphs::members(game.output.initial).map(|s| names.output(OutState(s))).collect();
    let _ = writeln!(told, "The panel begins in {}; the new drive in {}.", any_of(first_inputs), any_of(first_outputs));
    let won: usize = map.iter().map(|row| row.count()).sum();
    let _ = writeln!(told, "{}", won_positions(won, inputs * outputs));
    told.push_str(match winner {
        Winner::System => "An adapter exists: the old panel can run the new drive.\n",
        Winner::Environment => "No adapter exists: the panel can be used so that every controller fails.\n",
    });
    let whose = if winner == Winner::System { "controller" } else { "panel" };
    let (entries, room) = (count(entries, "entry", "entries"), grouped(sizes::PROGRAM_ROOM));
    let _ = write!(told, "The {whose}'s table has {entries}; the programs lend {room} for each table");
    let _ = match programs {
        Some(error) => {
            let (whose, entries) = diagnosis::short_table(game, error.number);
            writeln!(
                told,
                ", too few for the {whose}'s {}, and refuse this game (refused {}).",
                grouped(entries),
                error.number
            )
        }
        None => writeln!(told, "."),
    };
    told
}

/// "pump or flush"
fn any_of(states: Vec<String>) -> String {
    match states.len().checked_sub(LISTED_MOST) {
        Some(more @ 1..) => format!("{} or one of {more} more", states[..LISTED_MOST].join(" or ")),
        _ => states.join(" or "),
    }
}

/// "5 of 12 positions are won."
fn won_positions(won: usize, all: usize) -> String {
    match (won, all) {
        (0, 1) => "The one position is lost.".to_string(),
        (1, 1) => "The one position is won.".to_string(),
        (1, _) => format!("1 of {} positions is won.", grouped(all)),
        _ => format!("{} of {} positions are won.", grouped(won), grouped(all)),
    }
}

fn of_game(file: &GameFile, winner: Winner, entries: usize, map: &[Set], programs: Option<Error>) -> Fields {
    let GameFile { game, names, .. } = file;
    let requirement = |q: &Requirement| {
        let sets = |sets: Vec<Set>| Json::list(sets.into_iter().map(|set| Json::list(set.states())));
        Json::object([
            ("if", sets(requirements::assumptions(q).iter().map(|set| set.0).collect())),
            ("then", sets(requirements::guarantees(q).iter().map(|set| set.0).collect())),
            ("words", requirements::words(q, names).into()),
        ])
    };
    let mut fields = fields::of_game(file);
    fields.extend([
        ("initial_inputs", Json::list(game.input.initial.states())),
        ("initial_outputs", Json::list(game.output.initial.states())),
        ("requirements", Json::list(game.requirements.iter().take(game.k).map(requirement))),
        ("winner", fields::winner(winner)),
        ("positions", fields::positions(game, map)),
        ("entries", entries.into()),
        ("refused_by_programs", programs.map(|error| error.number).into()),
    ]);
    fields
}
