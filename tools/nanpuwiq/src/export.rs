//! `nanpuwiq export`: the winner's table of a game as source code.
pub mod block;
pub mod c;
pub mod identifiers;
pub mod kit_table;
pub mod player;
pub mod plcopen;
pub mod rows;
pub mod st;

use crate::arguments::Arguments;
use crate::failure::{Failure, Status};
use crate::files::{self, GameFile};
use crate::standard;
use crate::subcommand::Subcommand;
use block::Block;
use nanpuwiq::{Verdict, Winner};
use player::Player;
use std::path::{Path, PathBuf};

/// A text to be written to the file with this suffix.
pub struct Text {
    pub suffix: &'static str,
    pub text: String,
}

impl Text {
    pub fn new(suffix: &'static str, text: String) -> Text {
        Text { suffix, text }
    }
}

pub const SUBCOMMAND: Subcommand = Subcommand {
    name: "export",
    form: "--c|--st|--plcopen FILE",
    words: "write the controller as C, as Structured Text or as PLCopen XML",
    options: &[
        ("--c", 0),
        ("--st", 0),
        ("--plcopen", 0),
        ("--panel", 0),
        ("--compact", 0),
        ("--test", 0),
        ("-o", 1),
        ("--name", 1),
        ("--names", 1),
    ],
    help: HELP,
    run,
};

const HELP: &str = "\
nanpuwiq export --c|--st|--plcopen [--panel] [--compact] [-o NAME [--test]] [--name NAME] [--names NAMES] FILE

Writes the controller of a game as source code that needs no library. A turn is one move of the old drive and the answer to it: the code makes one where
the mode has changed, or is reported; a mode that is only held makes none.
Status: 0 it is written, 1 that side has no winning table, 2 refused or used wrongly, 3 input or output failed.

  --c               C: constant arrays, NAME_begin, NAME_scan and NAME_step
  --st              a function block of IEC 61131-3 Structured Text
  --plcopen         the same block as PLCopen XML (TC6), to be imported
  --panel           the panel's table, where no adapter exists: for a rig that plays the panel
  --compact         rows by component of the input, not by input: the same answers from a smaller table
  -o NAME           into NAME.h and NAME.c, NAME.st, or NAME.xml; without it to standard output
  --test            with --c -o: also NAME_test.c, a program that walks every row
  --name NAME       the name of functions or block; without it that of -o, or 'controller', or 'panel'
  --names NAMES     names for the states, as for play
";

/// The forms of source code.
pub const FORMS: [&str; 3] = ["--c", "--st", "--plcopen"];

fn run(arguments: Arguments) -> Result<Status, Failure> {
    let Some(form) = arguments.one_of(&FORMS)? else {
        return Err(arguments.wrong("--c, --st or --plcopen?"));
    };
    let (panel, compact) = (arguments.has("--panel"), arguments.has("--compact"));
    if panel && compact {
        return Err(arguments.wrong("--compact is a layout of the controller's table; the panel's has one layout"));
    }
    check_test(&arguments, Some(form))?;
    let name = identifiers::code_name(&arguments, if panel { "panel" } else { "controller" })?;
    let GameFile { name: file, game, names } = files::read_game(arguments.file()?, arguments.value("--names"))?;
    let solved = if compact { game.solve_compact() } else { game.solve() };
    let Verdict { winner, table } = solved.map_err(|error| Failure::Refused(format!("{file}: {error}")))?;
    let player = match (winner, panel) {
        (Winner::System, false) => Player::controller(&name, &file, &game, &names, &table, compact),
        (Winner::Environment, true) => Player::panel(&name, &file, &game, &names, &table),
        (Winner::Environment, false) => {
            standard::say(&format!(
                "{file}: no adapter exists, so there is no controller to export; 'nanpuwiq play' shows why, and --panel exports the panel's table"
            ));
            return Ok(Status::NoAdapter);
        }
        (Winner::System, true) => {
            standard::say(&format!("{file}: an adapter exists, so the panel has no table to export"));
            return Ok(Status::NoAdapter);
        }
    };
    let texts = match form {
        "--c" => c::player(&player),
        form => vec![of_block(form, &st::player(&player))],
    };
    write(&arguments, texts)?;
    Ok(Status::Fine)
}

/// A test is a file of its own.
pub fn check_test(arguments: &Arguments, form: Option<&str>) -> Result<(), Failure> {
    match arguments.has("--test") && (form != Some("--c") || !arguments.has("-o")) {
        true => Err(arguments.wrong("--test writes NAME_test.c, so it goes with --c and -o NAME")),
        false => Ok(()),
    }
}

/// A block as plain text or as XML.
pub fn of_block(form: &str, block: &Block) -> Text {
    match form {
        "--st" => Text::new(".st", block::text(block)),
        _ => Text::new(".xml", plcopen::text(block)),
    }
}

/// Writes the texts to the files of -o, or to standard output: C as one text then, header and source.
pub fn write(arguments: &Arguments, texts: Vec<Text>) -> Result<(), Failure> {
    let texts = texts.into_iter().filter(|text| text.suffix != "_test.c" || arguments.has("--test"));
    let Some(name) = arguments.value("-o") else {
        let joined: Vec<String> = texts.map(|text| without_own_header(text.text)).collect();
        return standard::write(joined.join("\n").as_bytes());
    };
    for Text { suffix, text } in texts {
        let mut file = name.to_os_string();
        file.push(suffix);
        write_file(PathBuf::from(file), &text)?;
    }
    Ok(())
}

/// The source without the line that includes its header.
fn without_own_header(text: String) -> String {
    let lines = text.split_inclusive('\n');
    lines.filter(|line| !line.starts_with("#include \"")).collect()
}

fn write_file(path: PathBuf, text: &str) -> Result<(), Failure> {
    let name = path.to_string_lossy().into_owned();
    std::fs::write(path, text).map_err(|error| Failure::Input { name, error })
}

/// The file's name without its folder, for a comment.
pub fn source_name(file: &str) -> String {
    let name = Path::new(file).file_name().map_or_else(|| file.to_string(), |name| name.to_string_lossy().into_owned());
    identifiers::told(&name)
}
