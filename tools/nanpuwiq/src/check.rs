//! `nanpuwiq check`: whether a controller's table from anywhere wins, and in words what shows that it does not.
use crate::arguments::Arguments;
use crate::failure::{Failure, Fault, Status};
use crate::fields::{self, Fields};
use crate::files::{self, GameFile};
use crate::json::Json;
use crate::names::Names;
use crate::report::{self, Report};
use crate::requirements;
use crate::sizes;
use crate::subcommand::Subcommand;
use crate::tables::{self, Stored};
use crate::words::{count, grouped};
use nanpuwiq::{Checked, Error, Game, Position, CHECKED_PLACES};
use std::fmt::Write;

pub const SUBCOMMAND: Subcommand = Subcommand {
    name: "check",
    form: "FILE TABLE",
    words: "say whether a controller's table from anywhere wins",
    options: &[("--names", 1), ("--form", 1), ("--layout", 1), ("--json", 0)],
    help: HELP,
    run,
};

const HELP: &str = "\
nanpuwiq check [--names NAMES] [--form FORM] [--layout LAYOUT] [--json] FILE TABLE

Says whether the controller's table in TABLE wins the game in FILE; else it shows in words why not: a
start, a row or a round. The table need not be one of ours. It is a print, as solve prints one, with
lines in any order, what has no line being none; or its entries in order, raw (16 bits each, the low
byte first), in hex or in CSV, in the full layout or the compact one. The look of the file tells.
Status: 0 the table wins, 1 it does not, 2 refused or used wrongly, 3 input or output failed.

  --form FORM       the form of TABLE: print, raw, hex or csv
  --layout LAYOUT   the layout of TABLE, where its length does not tell: full or compact
  --names NAMES     names for the states, as for play
  --json            one JSON object, as nanpuwiq(5) tells
";

fn run(arguments: Arguments) -> Result<Status, Failure> {
    let found = found(&arguments);
    report::written(&arguments, found)
}

fn found(arguments: &Arguments) -> Result<Report, Failure> {
    let (file, table) = arguments.two_files()?;
    let (form, layout) = (tables::form(arguments, "--form")?, tables::layout(arguments)?);
    let file = files::read_game(file, arguments.value("--names"))?;
    let stored = tables::read(&file.game, table, form)?;
    let entries = stored.full(&file, layout)?;
    let (checked, walk) = file.game.check(&entries).map_err(|error| match error.number {
        20 => too_large(&file, error),
        _ => stored.refused(&file, error),
    })?;
    let text = told(&file.game, &file.names, checked, &walk);
    let fields = of_check(&file, &stored, checked, &walk, &text);
    let status = if checked == Checked::Wins { Status::Fine } else { Status::NoAdapter };
    Ok(Report { text, fields, status })
}

/// The refusal of a game that the checker does not take.
fn too_large(file: &GameFile, error: Error) -> Failure {
    let (inputs, outputs, counters) =
        (file.game.input.states, file.game.output.states, sizes::controller_counters(&file.game));
    let places = grouped(inputs * outputs * counters);
    let words = format!(
        "{inputs} inputs × {outputs} outputs × {counters} values of the counter are {places}: tables of up to {} are checked",
        grouped(CHECKED_PLACES)
    );
    Fault { words, ..Fault::of(&file.name, error) }.into()
}

fn of_check(file: &GameFile, stored: &Stored, checked: Checked, walk: &[Position], text: &str) -> Fields {
    let (finding, input, begins, requirement) = match checked {
        Checked::Wins => ("wins", None, None, None),
        Checked::BadStart(input) => ("bad start", Some(input.0), None, None),
        Checked::BadRow { next, .. } => ("bad row", Some(next.0), None, None),
        Checked::BadRound { begins, requirement, .. } => ("bad round", None, Some(begins), Some(requirement)),
    };
    let mut fields = fields::of_game(file);
    fields.extend([
        ("table_file", stored.name.as_str().into()),
        ("wins", (checked == Checked::Wins).into()),
        ("finding", finding.into()),
        ("input", input.into()),
        ("walk", Json::list(walk.iter().map(|at| fields::position(*at)))),
        ("begins", begins.into()),
        ("requirement", requirement.into()),
        ("words", text.trim_end().into()),
    ]);
    fields
}

/// What the checker found, for people.
fn told(game: &Game, names: &Names, checked: Checked, walk: &[Position]) -> String {
    match checked {
        Checked::Wins => "The table wins: it answers every input that it can meet, and every round meets all requirements.\n".to_string(),
        Checked::BadStart(input) => format!(
            "The table does not win: the panel may begin in {}, and its start names no initial output of the new drive or no counter.\n",
            names.input_called(input)
        ),
        Checked::BadRow { next, .. } => {
            let (at, mut text) = (walk[walk.len() - 1], String::from("The table does not win: it leads to a row that is no reply.\n"));
            lines(&mut text, names, walk);
            let reply = match game.output.moves[at.output.0].count() {
                0 => "the new drive has no move any more",
                _ => "the row names no move of the new drive or no counter",
            };
            let _ = writeln!(text, "Now the panel may go to {}, and {reply}.", names.input_called(next));
            text
        }
        Checked::BadRound { begins, requirement, .. } => {
            let (way, round) = (&walk[..begins], &walk[begins..]);
            let turns = count(round.len() - 1, "turn", "turns");
            let mut text = format!("The table does not win: a round of {turns} breaks requirement {requirement}.\n");
            if !way.is_empty() {
                text.push_str("The way to it:\n");
                lines(&mut text, names, way);
            }
            text.push_str("The round:\n");
            lines(&mut text, names, round);
            let q = &game.requirements[requirement];
            let judged = requirements::judge(q, round, names);
            let _ = writeln!(text, "Requirement {requirement}: {}.", requirements::words(q, names));
            let _ = writeln!(text, "Requirement {requirement} is BROKEN: {}.", judged.words);
            text
        }
    }
}

fn lines(text: &mut String, names: &Names, walk: &[Position]) {
    for at in walk {
        let _ = writeln!(
            text,
            "    old {}, new {}, counter {}",
            names.input_called(at.input),
            names.output_called(at.output),
            at.counter
        );
    }
}
