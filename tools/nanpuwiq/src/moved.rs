//! `nanpuwiq move`: a stored table of a controller, moved to the other layout or written in another form.
use crate::arguments::Arguments;
use crate::failure::{Failure, Fault, Status};
use crate::files::{self, GameFile};
use crate::standard;
use crate::subcommand::Subcommand;
use crate::tables::{self, Form, Layout, Lengths, Stored};
use nanpuwiq::Error;

pub const SUBCOMMAND: Subcommand = Subcommand {
    name: "move",
    form: "FILE TABLE",
    words: "move a stored table to the compact layout, or back",
    options: &[("--compact", 0), ("--full", 0), ("--form", 1), ("--to", 1), ("--layout", 1), ("--names", 1)],
    help: HELP,
    run,
};

const HELP: &str = "\
nanpuwiq move [--compact|--full] [--form FORM] [--to FORM] [--layout LAYOUT] [--names NAMES]
              FILE TABLE

Moves the controller's table in TABLE, anyone's, for the game in FILE: to the compact layout, with a
row for each component of the old drive's modes, or back to the full one, with a row for each mode.
Over and back is the same table. Without --compact and --full only the form changes.
Status: 0 the table is moved, 2 refused or used wrongly, 3 input or output failed.

  --compact         TABLE has the full layout, and the compact one is printed
  --full            TABLE has the compact layout, and the full one is printed
  --form FORM       the form of TABLE: print, raw, hex or csv; without it, by its look
  --to FORM         the form that is printed; without it that of TABLE, csv for a print made compact
  --layout LAYOUT   the layout of TABLE where only the form changes, and its length does not tell
  --names NAMES     names for the states, as for play
";

fn run(arguments: Arguments) -> Result<Status, Failure> {
    let to = arguments.one_of(&["--compact", "--full"])?;
    let (from, form) = (tables::form(&arguments, "--form")?, tables::form(&arguments, "--to")?);
    if to.is_none() && form.is_none() {
        return Err(arguments.wrong("--compact, --full or --to: what is to be done with the table?"));
    }
    let (file, table) = arguments.two_files()?;
    let file = files::read_game(file, arguments.value("--names"))?;
    let stored = tables::read(&file.game, table, from)?;
    let (entries, layout) = moved(&file, &stored, to, tables::layout(&arguments)?)?;
    let form = match (form, layout) {
        (Some(Form::Print), Layout::Compact) => {
            return Err(arguments.wrong("a print has the full layout: --to raw, hex or csv"));
        }
        (Some(form), _) => form,
        (None, Layout::Compact) if stored.form == Form::Print => Form::Csv,
        (None, _) => stored.form,
    };
    if form == Form::Raw && standard::output_is_terminal() {
        return Err(arguments.wrong("raw entries are no text for a terminal: send them to a file, or --to hex or csv"));
    }
    standard::write(&tables::bytes(&file.game, &entries, layout, form))?;
    Ok(Status::Fine)
}

/// The entries in the layout that is asked for.
fn moved(
    file: &GameFile,
    stored: &Stored,
    to: Option<&str>,
    given: Option<Layout>,
) -> Result<(Vec<u16>, Layout), Failure> {
    let game = &file.game;
    let refused = |error: Error| refused(file, stored, to, error);
    match to {
        Some("--compact") => Ok((game.to_compact(&stored.entries).map_err(refused)?, Layout::Compact)),
        Some(_) => Ok((game.to_full(&stored.entries).map_err(refused)?, Layout::Full)),
        None => {
            let layout = stored.layout(file, given)?;
            let lengths = Lengths::of(game).map_err(refused)?;
            match stored.entries.len() == lengths.of_layout(layout) {
                true => Ok((stored.entries.clone(), layout)),
                false => Err(stored.fault(lengths.words_for(stored.entries.len())).into()),
            }
        }
    }
}

/// A refusal in words; of a length also what would do.
fn refused(file: &GameFile, stored: &Stored, to: Option<&str>, error: Error) -> Failure {
    match (error.number, other_length(file, stored, to)) {
        (23, Some(words)) => Fault { words, ..Fault::of(&stored.name, error) }.into(),
        _ => stored.refused(file, error),
    }
}

fn other_length(file: &GameFile, stored: &Stored, to: Option<&str>) -> Option<String> {
    let lengths = Lengths::of(&file.game).ok()?;
    let given = stored.entries.len();
    let advice = match to {
        Some("--compact") if given == lengths.compact => {
            "; it is in the compact layout already, and --full moves it back"
        }
        Some("--full") if given == lengths.full => "; it is in the full layout already, and --compact moves it",
        _ => "",
    };
    Some(format!("{}{advice}", lengths.words_for(given)))
}
