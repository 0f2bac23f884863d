//! `nanpuwiq why`: what made a position won or lost.
use crate::arguments::Arguments;
use crate::failure::{Failure, Fault, Status};
use crate::fields;
use crate::files::{self, GameFile};
use crate::ground::{number, verdict, Around, Place};
use crate::json::Json;
use crate::report::{self, Report};
use crate::requirements;
use crate::subcommand::Subcommand;
use crate::words::{counted, shown};
use nanpuwiq::{Error, Ground, InState, OutState, Winner};
use std::ffi::OsStr;
use std::fmt::Write;

pub const SUBCOMMAND: Subcommand = Subcommand {
    name: "why",
    form: "FILE INPUT OUTPUT",
    words: "say what makes a position won or lost",
    options: &[("--names", 1), ("--all", 0), ("--json", 0)],
    help: HELP,
    run,
};

const HELP: &str = "\
nanpuwiq why [--names NAMES] [--json] FILE INPUT OUTPUT
nanpuwiq why --all [--names NAMES] [--json] FILE

Says what makes the position of INPUT and OUTPUT, numbers or names, won or lost: the first that fits
of eight grounds, in words and by its number.
  1  won: the old drive has no move            5  lost: a next input has no answer that is won
  2  won: every next input has an answer       6  lost: the panel can leave for an input that is lost
  3  won: the new drive has a home to stay in  7  lost: a requirement can be due, and is not met here
  4  lost: the new drive has no move           8  lost: the new drive is pushed on to what is lost
Status: 0 won, 1 lost, with --all as for map; 2 refused or used wrongly, 3 input or output failed.

  --all           a line for every position
  --names NAMES   names for the states, as for play
  --json          one JSON object, as nanpuwiq(5) tells
";

fn run(arguments: Arguments) -> Result<Status, Failure> {
    let found = if arguments.has("--all") { all(&arguments) } else { one(&arguments) };
    report::written(&arguments, found)
}

/// A position and its ground.
struct Found<'a> {
    place: Place<'a>,
    ground: Ground,
}

/// The ground of the position that is asked for.
fn one(arguments: &Arguments) -> Result<Report, Failure> {
    let [file, input, output] = arguments.words("FILE INPUT OUTPUT, or --all FILE")?;
    let file = files::read_game(file, arguments.value("--names"))?;
    let (input, output) = position(&file, input, output)?;
    let ground = file.game.explain(input, output).map_err(|error| outside(&file, input, output, error))?;
    let around = Around::of(&file.game, &file.names);
    let found = Found { place: Place { around: &around, input, output }, ground };
    let mut text = format!("Position: {}: {} (ground {}).\n", found.place.called(), verdict(ground), number(ground));
    let _ = writeln!(text, "Why: {}.", found.place.because(ground));
    if let Ground::Unserved(requirement, _) = ground {
        let q = &file.game.requirements[requirement];
        let _ = writeln!(text, "Requirement {requirement}: {}.", requirements::words(q, &file.names));
    }
    let status = if ground.is_won() { Status::Fine } else { Status::NoAdapter };
    Ok(Report { text, fields: of_grounds(&file, None, &[found]), status })
}

/// The grounds of all positions, a line each.
fn all(arguments: &Arguments) -> Result<Report, Failure> {
    let file = files::read_game(arguments.file()?, arguments.value("--names"))?;
    let GameFile { name, game, names } = &file;
    let refused = |error: Error| Fault::of(name, error);
    let winner = game.solve().map_err(refused)?.winner;
    let grounds = game.explain_all().map_err(refused)?.into_iter().enumerate();
    let around = Around::of(game, names);
    let positions = grounds.map(|(number, ground)| {
        let (input, output) = (InState(number / game.output.states), OutState(number % game.output.states));
        Found { place: Place { around: &around, input, output }, ground }
    });
    let found: Vec<Found> = positions.collect();
    let text = found.iter().map(line).collect();
    Ok(Report { text, fields: of_grounds(&file, Some(winner), &found), status: Status::of(winner) })
}

/// "old 0 pump, new 1 economy: lost (ground 7): while .."
fn line(found: &Found) -> String {
    let Found { place, ground } = found;
    format!("{}: {} (ground {}): {}.\n", place.called(), verdict(*ground), number(*ground), place.because(*ground))
}

/// The position that two words mean.
fn position(file: &GameFile, input: &OsStr, output: &OsStr) -> Result<(InState, OutState), Failure> {
    let refused = |words| Fault { file: file.name.clone(), place: None, number: None, words };
    let input = file.names.find_input(&input.to_string_lossy()).map_err(refused)?;
    let output = file.names.find_output(&output.to_string_lossy()).map_err(refused)?;
    Ok((input, output))
}

/// The refusal of a position: which of its states the game has not.
fn outside(file: &GameFile, input: InState, output: OutState, error: Error) -> Failure {
    let (inputs, outputs) = (file.game.input.states, file.game.output.states);
    let words = match error.number {
        25 if input.0 >= inputs => format!("there is no input {}: {}", shown(input.0), counted(inputs, "input")),
        25 => format!("there is no output {}: {}", shown(output.0), counted(outputs, "output")),
        _ => return Fault::of(&file.name, error).into(),
    };
    Fault { words, ..Fault::of(&file.name, error) }.into()
}

fn of_grounds(file: &GameFile, winner: Option<Winner>, found: &[Found]) -> Vec<(&'static str, Json)> {
    let mut fields = fields::of_game(file);
    fields.push(("winner", winner.map(fields::winner).into()));
    fields.push(("grounds", Json::list(found.iter().map(object))));
    fields
}

/// The state, requirement and set that a ground names are null where it names none.
fn object(found: &Found) -> Json {
    let Found { place, ground } = found;
    let (input, output, requirement, set) = match *ground {
        Ground::AtHome(home) => (None, Some(home.0), None, None),
        Ground::Unanswered(next) | Ground::ByWayOut(next) => (Some(next.0), None, None, None),
        Ground::Unserved(requirement, set) => (None, None, Some(requirement), Some(set)),
        Ground::InputStuck | Ground::ByReplies | Ground::OutputStuck | Ground::PushedOn => (None, None, None, None),
    };
    Json::object([
        ("input", place.input.0.into()),
        ("output", place.output.0.into()),
        ("won", ground.is_won().into()),
        ("ground", number(*ground).into()),
        ("named_input", input.into()),
        ("named_output", output.into()),
        ("named_requirement", requirement.into()),
        ("named_set", set.into()),
        ("words", place.because(*ground).into()),
    ])
}
