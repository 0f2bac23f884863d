//! `nanpuwiq bars`: whether an adapter exists that never makes a barred pair, and from which positions one wins.
use crate::arguments::Arguments;
use crate::failure::{Failure, Fault, Status};
use crate::fields::{self, Fields};
use crate::files::{self, GameFile, Source, FORM_MOST};
use crate::json::Json;
use crate::listing::{self, Word};
use crate::map;
use crate::report::{self, Report};
use crate::subcommand::Subcommand;
use crate::words::{count, counted, shown};
use nanpuwiq::{Bars, Error, InState, OutState, Set, Winner};
use std::fmt::Write;

pub const SUBCOMMAND: Subcommand = Subcommand {
    name: "bars",
    form: "FILE BARS",
    words: "say whether an adapter exists that keeps to interlocks",
    options: &[("--names", 1), ("--map", 0), ("--json", 0)],
    help: HELP,
    run,
};

const HELP: &str = "\
nanpuwiq bars [--names NAMES] [--map] [--json] FILE BARS

Says whether an adapter exists for the game in FILE that never makes a pair barred in BARS: an input
and an output, numbers or names, a pair a line. The rest of a line after ; # or // is a comment.
With a barred pair the game has one requirement.
Status: 0 one exists with the bars, 1 none, 2 refused or used wrongly, 3 input or output failed.

  --map           also print for each input the outputs that are won with it, and those that are barred
  --names NAMES   names for the states, as for play
  --json          one JSON object, as nanpuwiq(5) tells
";

fn run(arguments: Arguments) -> Result<Status, Failure> {
    let found = found(&arguments);
    report::written(&arguments, found)
}

/// A barred pair, and the words that name it.
struct Pair<'a> {
    input: InState,
    output: OutState,
    words: [Word<'a>; 2],
}

/// What is known of a game with bars. A table that keeps to the bars would stand here too; the library makes none.
struct Barred {
    winner: Winner,
    without: Winner,
    map: Vec<Set>,
}

fn found(arguments: &Arguments) -> Result<Report, Failure> {
    let [game, list] = arguments.words("FILE BARS")?;
    let file = files::read_game(game, arguments.value("--names"))?;
    let source = files::read(list, FORM_MOST)?;
    let words = listing::words(&source, FORM_MOST)?;
    let pairs = pairs(&file, &source, &words)?;
    let barred = solved(&file, &pairs).map_err(|error| refused(&file, &source, &pairs, error))?;
    let mut text = told(&file, &pairs, &barred);
    if arguments.has("--map") {
        text += &rows(&file, &pairs, &barred.map);
    }
    Ok(Report { text, fields: of_bars(&file, &pairs, &barred), status: Status::of(barred.winner) })
}

/// The pairs of the list, a line each.
fn pairs<'a>(file: &GameFile, source: &Source, words: &'a [Word<'a>]) -> Result<Vec<Pair<'a>>, Fault> {
    let pair = |line: &[Word<'a>]| match *line {
        [one, two] => {
            let input = file.names.find_input(one.text).map_err(|told| one.fault(source, told))?;
            let output = file.names.find_output(two.text).map_err(|told| two.fault(source, told))?;
            Ok(Pair { input, output, words: [one, two] })
        }
        [.., last] => {
            let told =
                format!("{} on the line: expected a pair, an input and an output", count(line.len(), "word", "words"));
            Err(last.fault(source, told))
        }
        [] => unreachable!("a line of words has one"),
    };
    listing::by_line(words).map(pair).collect()
}

fn solved(file: &GameFile, pairs: &[Pair]) -> Result<Barred, Error> {
    let game = &file.game;
    let pairs: Vec<(InState, OutState)> = pairs.iter().map(|pair| (pair.input, pair.output)).collect();
    let bars = Bars::new(game.input.states, &pairs)?;
    let winner = if game.barred_verdict(&bars)? { Winner::System } else { Winner::Environment };
    Ok(Barred { winner, without: game.solve()?.winner, map: game.barred_map(&bars)? })
}

/// A refusal in words, with the line that it is about.
fn refused(file: &GameFile, source: &Source, pairs: &[Pair], error: Error) -> Failure {
    let (inputs, outputs) = (file.game.input.states, file.game.output.states);
    let outside = |pair: &&Pair| pair.input.0 >= inputs || pair.output.0 >= outputs;
    let fault = match (error.number, pairs.iter().find(outside), pairs.first()) {
        (29, Some(pair), _) if pair.input.0 >= inputs => {
            let told = format!("there is no input {}: {}", shown(pair.input.0), counted(inputs, "input"));
            pair.words[0].fault(source, told)
        }
        (29, Some(pair), _) => {
            let told = format!("there is no output {}: {}", shown(pair.output.0), counted(outputs, "output"));
            pair.words[1].fault(source, told)
        }
        (28, _, Some(pair)) => {
            let told = format!(
                "a barred pair, and {} has {}: bars are answered for games of one",
                file.name,
                count(file.game.k, "requirement", "requirements")
            );
            pair.words[0].fault(source, told)
        }
        _ => Fault::of(&file.name, error),
    };
    Fault { number: Some(error.number), ..fault }.into()
}

/// The verdict in words.
fn told(file: &GameFile, pairs: &[Pair], barred: &Barred) -> String {
    let mut text = format!("{} with {}: ", file.name, count(pairs.len(), "barred pair", "barred pairs"));
    text.push_str(match barred.winner {
        Winner::System => "an adapter exists that never makes a barred pair.\n",
        Winner::Environment => {
            "no adapter exists: the panel can be used so that every controller makes a barred pair or fails.\n"
        }
    });
    if barred.without != barred.winner {
        text.push_str("Without the bars an adapter exists.\n");
    }
    text
}

/// The lines of the map, each with what is barred.
fn rows(file: &GameFile, pairs: &[Pair], won: &[Set]) -> String {
    let mut text = String::new();
    for (input, line) in map::lines(&file.game, &file.names, won).into_iter().enumerate() {
        let barred = (0..file.game.output.states)
            .filter(|output| pairs.iter().any(|pair| pair.input.0 == input && pair.output.0 == *output))
            .map(|output| file.names.output(OutState(output)));
        let barred: Vec<String> = barred.collect();
        let _ = match barred.is_empty() {
            true => writeln!(text, "{line}"),
            false => writeln!(text, "{line}; barred with {}", barred.join(" ")),
        };
    }
    text
}

fn of_bars(file: &GameFile, pairs: &[Pair], barred: &Barred) -> Fields {
    let bar = |pair: &Pair| Json::object([("input", pair.input.0.into()), ("output", pair.output.0.into())]);
    let mut fields = fields::of_game(file);
    fields.extend([
        ("bars", Json::list(pairs.iter().map(bar))),
        ("winner", fields::winner(barred.winner)),
        ("winner_without_bars", fields::winner(barred.without)),
        ("positions", fields::positions(&file.game, &barred.map)),
        ("won", fields::won(&file.game, &barred.map)),
    ]);
    fields
}
