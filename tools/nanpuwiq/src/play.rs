//! `nanpuwiq play`: a person takes the side that loses and plays against the winner's table. Plain lines: it works in any terminal, and with lines piped in.
pub mod aim;
mod editor;
pub mod hint;
pub mod screen;
pub mod table;
pub mod why;

use crate::arguments::Arguments;
use crate::failure::{Failure, Status};
use crate::files::{self, GameFile};
use crate::said;
use crate::standard;
use crate::subcommand::Subcommand;
use editor::Typed;
use nanpuwiq::{Error, Position};
use screen::Screen;
use table::Match;

pub const SUBCOMMAND: Subcommand = Subcommand {
    name: "play",
    form: "FILE",
    words: "play against the winner's table",
    options: &[("--names", 1)],
    help: HELP,
    run,
};

const HELP: &str = "\
nanpuwiq play [--names NAMES] FILE

You take the side that loses: the new drive where no adapter exists, else the panel. Type the number or the name of your pick, or
  undo    take the last pick back
  hint    what each pick leaves open
  why     what makes the position won or lost
  help    what can be typed
  quit    end; the end of the input ends it too
Each turn tells what the table aims at. When a configuration comes back, the round that is closed is shown with the requirements that it meets
and breaks, and who has lost. On a terminal the line can be edited with the usual keys, and the arrows up and down bring earlier lines back.

  --names NAMES   names for the states; without it FILE.names is taken where FILE is FILE.game and it is there
";

fn run(arguments: Arguments) -> Result<Status, Failure> {
    let file = arguments.file()?;
    if file == "-" {
        return Err(arguments.wrong("play takes a file: standard input is for your picks"));
    }
    let GameFile { name, game, names } = files::read_game(file, arguments.value("--names"))?;
    let refused = |error: Error| Failure::Refused(format!("{name}: {error}"));
    let game = Match::of(game, names).map_err(refused)?;
    let winner = game.winner;
    let screen = Screen { colour: screen::colour_wanted() };
    let mut play = Play { game, walk: Vec::new(), screen };
    play.told(&play.screen.opening(&play.game))?;
    play.rounds(&mut Typed::begin(play.screen.prompt())).map_err(|failure| match failure {
        Stop::Failed(failure) => failure,
        Stop::Refused(error) => refused(error),
    })?;
    Ok(Status::of(winner))
}

/// A play under way: the match, and the configurations so far.
struct Play {
    game: Match,
    walk: Vec<Position>,
    screen: Screen,
}

/// Why a play could not go on.
enum Stop {
    Failed(Failure),
    Refused(Error),
}

impl From<Failure> for Stop {
    fn from(failure: Failure) -> Stop {
        Stop::Failed(failure)
    }
}

impl From<Error> for Stop {
    fn from(error: Error) -> Stop {
        Stop::Refused(error)
    }
}

impl Play {
    /// Asks and answers until the person quits or the input ends.
    fn rounds(&mut self, lines: &mut Typed) -> Result<(), Stop> {
        let mut shown = false;
        loop {
            if !shown {
                self.told(&self.screen.position(&self.game, self.at())?)?;
            }
            self.told(self.screen.prompt())?;
            let Some(line) = lines.next()? else {
                self.told("\nThe input has ended.\n")?;
                return Ok(());
            };
            if !standard::input_is_terminal() {
                self.told(&format!("{line}\n"))?;
            }
            // whole words, for a state may be called by any letter; one that is called by such a word has its number
            shown = match line.to_ascii_lowercase().as_str() {
                "quit" => return Ok(()),
                "undo" => self.undo()?,
                "hint" => self.told(&hint::words(&self.game, self.at())?)?,
                "why" => self.told(&why::words(&self.game, self.at())?)?,
                "" | "help" | "?" => self.told(self.screen.help())?,
                word => self.pick(word)?,
            };
        }
    }

    fn at(&self) -> Option<Position> {
        self.walk.last().copied()
    }

    /// Writes the text; true, for the position need not be shown again after words.
    fn told(&self, text: &str) -> Result<bool, Failure> {
        standard::write(text.as_bytes())?;
        Ok(true)
    }

    /// Takes the last pick back, and the table's answer to it.
    fn undo(&mut self) -> Result<bool, Failure> {
        match self.walk.pop() {
            Some(_) => Ok(false),
            None => self.told(&(said::NOTHING_TO_UNDO.with(&[]) + "\n")),
        }
    }

    /// Makes the person's pick, and tells of the round that it closes.
    fn pick(&mut self, word: &str) -> Result<bool, Stop> {
        let Some(state) = self.game.meant(word) else {
            return Ok(self.told(&self.screen.not_understood(word))?);
        };
        if !self.game.allowed(self.at())?.contains(&state) {
            return Ok(self.told(&self.screen.not_allowed(&self.game, state))?);
        }
        let next = self.game.pick(self.at(), state)?;
        // the round that ends here, from the last time that this configuration was seen
        let seen = self.walk.iter().rposition(|at| *at == next);
        self.walk.push(next);
        if let Some(from) = seen {
            self.told(&self.screen.round(&self.game, &self.walk[from..]))?;
        }
        Ok(false)
    }
}
