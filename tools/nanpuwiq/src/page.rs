//! `nanpuwiq page`: one HTML file that plays the game in a browser, with no server and no network.
//!
//! The command works everything out: the answers are the library's, the words are those of `play` (`said`), the drawings are made here. The page's script
//! looks up, moves and judges rounds.
mod data;
mod drawing;
mod layout;
mod map;
mod pack;
mod sheet;

use crate::arguments::Arguments;
use crate::failure::{Failure, Status};
use crate::files::{self, GameFile};
use crate::play::screen;
use crate::play::table::Match;
use crate::said::Form;
use crate::standard;
use crate::subcommand::Subcommand;
use nanpuwiq::{Error, Ground};
use pack::escaped;
use std::path::Path;

pub const SUBCOMMAND: Subcommand = Subcommand {
    name: "page",
    form: "FILE",
    words: "print a page on which the game is played in a browser",
    options: &[("--names", 1)],
    help: HELP,
    run,
};

const HELP: &str = "\
nanpuwiq page [--names NAMES] FILE

Prints one HTML file that plays the game in a browser, as play does in a terminal: 'nanpuwiq page FILE >game.html'. It needs no server and no
network. You take the side that loses; both drives are drawn, every position can be asked about, and the address holds the walk.

  --names NAMES   names for the states, as for play
";

const PAGE: Form = Form { name: "page", text: include_str!("page/page.html") };
const STYLE: &str = include_str!("page/style.css");
const SCRIPT: &str = include_str!("page/script.js");

fn run(arguments: Arguments) -> Result<Status, Failure> {
    let GameFile { name, game, names } = files::read_game(arguments.file()?, arguments.value("--names"))?;
    let refused = |error: Error| Failure::Refused(format!("{name}: {error}"));
    let game = Match::of(game, names).map_err(refused)?;
    let grounds = game.game.explain_all().map_err(refused)?;
    standard::write(text(&title(&name), &game, &grounds).as_bytes())?;
    Ok(Status::Fine)
}

/// "flush" for a file `examples/flush.game`.
fn title(name: &str) -> String {
    let path = Path::new(name);
    let stem = if path.extension().is_some_and(|end| end == "game") { path.file_stem() } else { path.file_name() };
    stem.map_or_else(|| name.to_string(), |stem| stem.to_string_lossy().into_owned())
}

fn text(title: &str, game: &Match, grounds: &[Ground]) -> String {
    let [verdict, turns, requirements @ .., aim] = &screen::opening_lines(game)[..] else { return String::new() };
    PAGE.with(&[
        ("policy", &policy()),
        ("style", STYLE),
        ("script", SCRIPT),
        ("title", &escaped(title)),
        ("verdict", &escaped(verdict)),
        ("turns", &escaped(turns)),
        ("requirements", &sheet::requirements(game, requirements)),
        ("aim", &escaped(aim)),
        ("old", &drawing::figure(&drawing::Side::old(game))),
        ("new", &drawing::figure(&drawing::Side::new(game))),
        ("map", &map::grid(game)),
        ("table", &sheet::table(game)),
        ("data", &pack::embedded(&data::of(title, game, grounds))),
    ])
}

/// Nothing may be loaded, and of scripts and styles only the page's own may be used.
fn policy() -> String {
    let (script, style) = (pack::digest(SCRIPT), pack::digest(STYLE));
    format!("default-src 'none'; script-src 'sha256-{script}'; style-src 'sha256-{style}'; base-uri 'none'; form-action 'none'")
}
