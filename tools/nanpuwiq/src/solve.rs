//! `nanpuwiq solve`: the very bytes of the program `solve`, with a status and with words beside a refusal.
use crate::answer;
use crate::arguments::Arguments;
use crate::diagnosis;
use crate::failure::{Failure, Status};
use crate::fields;
use crate::files::{self, GameFile, Source};
use crate::names::Names;
use crate::report::{self, Report};
use crate::sizes::PROGRAM_ROOM;
use crate::standard;
use crate::subcommand::Subcommand;
use nanpuwiq::{Error, Game, Winner, SCRATCH_MOST};
use std::ffi::OsStr;

/// A game that was read, its winner and the winner's table.
type Solved = (Game, Winner, Vec<u16>);

pub const SUBCOMMAND: Subcommand = Subcommand {
    name: "solve",
    form: "[FILE]",
    words: "print the winner and its table, the very bytes of the program solve",
    options: &[("--json", 0)],
    help: HELP,
    run,
};

const HELP: &str = "\
nanpuwiq solve [--json] [FILE]

Reads a game and prints who wins and the winner's table, or the refusal: the very bytes of the program solve. Beside a refusal the words for it
are on standard error. Without FILE it reads standard input. The tables have 32,768 entries at most, as those of the program.

  --json            one JSON object, as nanpuwiq(5) tells
";

fn run(arguments: Arguments) -> Result<Status, Failure> {
    let found = found(&arguments);
    report::written(&arguments, found)
}

fn found(arguments: &Arguments) -> Result<Report, Failure> {
    let file = arguments.file_if_any()?.unwrap_or(OsStr::new("-"));
    let Source { name, text } = files::read_text(file)?;
    match solved(&text) {
        Ok((game, winner, table)) => {
            let mut fields = fields::of_game(&GameFile { name, game, names: Names::default() });
            let side = if winner == Winner::System { "controller" } else { "panel" };
            let lines = answer::lines(&game, winner, &table);
            fields.extend([("winner", fields::winner(winner)), ("table", fields::table(side, table.len(), lines))]);
            Ok(Report { text: answer::print(&game, winner, &table), fields, status: Status::of(winner) })
        }
        Err(error) => {
            if !arguments.has("--json") {
                standard::write(answer::refused(error).as_bytes())?;
            }
            Err(diagnosis::of_text(&text, error).fault(&name, &text).into())
        }
    }
}

/// The answer to a text with the rooms that the program lends.
pub fn solved(text: &[u8]) -> Result<Solved, Error> {
    let game = Game::read(text)?;
    let mut controller = vec![0; PROGRAM_ROOM];
    let mut panel = vec![0; PROGRAM_ROOM];
    let (winner, entries) = game.solve_into(&mut [0; SCRATCH_MOST], &mut controller, &mut panel)?;
    let mut table = match winner {
        Winner::System => controller,
        Winner::Environment => panel,
    };
    table.truncate(entries);
    Ok((game, winner, table))
}
