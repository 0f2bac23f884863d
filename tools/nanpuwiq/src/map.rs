//! `nanpuwiq map`: which positions are won.
use crate::arguments::Arguments;
use crate::failure::{Failure, Fault, Status};
use crate::fields;
use crate::files::{self, GameFile};
use crate::graphs::members;
use crate::names::Names;
use crate::report::{self, Report};
use crate::subcommand::Subcommand;
use nanpuwiq::{Error, Game, InState, OutState, Set};

pub const SUBCOMMAND: Subcommand = Subcommand {
    name: "map",
    form: "FILE",
    words: "print which positions are won",
    options: &[("--names", 1), ("--joined", 0), ("--json", 0)],
    help: HELP,
    run,
};

const HELP: &str = "\
nanpuwiq map [--names NAMES] [--joined] [--json] FILE

Prints for each old mode (input) the new modes (outputs) with which it is won: from there a controller meets every requirement.

  --names NAMES     names for the states, as for play
  --joined          the map of the lecture room's solver, worked out on the joined positions: graphs of at most 32 states; it is
                    proved to be the same map
  --json            one JSON object, as nanpuwiq(5) tells
";

fn run(arguments: Arguments) -> Result<Status, Failure> {
    let found = found(&arguments);
    report::written(&arguments, found)
}

fn found(arguments: &Arguments) -> Result<Report, Failure> {
    let file = files::read_game(arguments.file()?, arguments.value("--names"))?;
    let GameFile { name, game, names } = &file;
    let refused = |error: Error| Fault::of(name, error);
    let map = if arguments.has("--joined") { game.joined_map() } else { game.won_map() }.map_err(refused)?;
    let winner = game.solve().map_err(refused)?.winner;
    let text = lines(game, names, &map).iter().map(|line| format!("{line}\n")).collect();
    let mut fields = fields::of_game(&file);
    fields.extend([
        ("winner", fields::winner(winner)),
        ("positions", fields::positions(game, &map)),
        ("won", fields::won(game, &map)),
    ]);
    Ok(Report { text, fields, status: Status::of(winner) })
}

/// A line for each input. An output may be called any word: an input that is won with none has a line of another form.
pub fn lines(game: &Game, names: &Names, map: &[Set]) -> Vec<String> {
    let line = |(input, row): (usize, &Set)| {
        let old = names.input(InState(input));
        let won: Vec<String> = members(*row).map(|output| names.output(OutState(output))).collect();
        match won.is_empty() {
            true => format!("old {old}: lost with every new mode"),
            false => format!("old {old}: won with new {}", won.join(" ")),
        }
    };
    map.iter().take(game.input.states).enumerate().map(line).collect()
}
