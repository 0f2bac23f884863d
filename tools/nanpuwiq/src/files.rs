//! Files that are named on the command line.
use crate::diagnosis;
use crate::failure::Failure;
use crate::names::Names;
use crate::standard;
use nanpuwiq::{Game, TEXT_MOST};
use std::ffi::OsStr;
use std::fs::File;
use std::io::{self, Read};
use std::path::{Path, PathBuf};

/// Bytes of a file of names or of a kit at most.
pub const FORM_MOST: usize = 1 << 20;

/// A file's name, for people, and its bytes.
pub struct Source {
    pub name: String,
    pub text: Vec<u8>,
}

/// A game's file that was read, with the names of its states.
pub struct GameFile {
    pub name: String,
    pub game: Game,
    pub names: Names,
}

/// The first bytes of a file, one more than `most` at most; `-` is standard input.
pub fn read(file: &OsStr, most: usize) -> Result<Source, Failure> {
    let most = most as u64 + 1;
    let (name, bytes) = if file == "-" {
        if standard::input_is_terminal() {
            standard::say(
                "reading from this terminal: type or paste the text, then a line with Ctrl-D alone; or give a FILE",
            );
        }
        ("standard input".to_string(), standard::read_input(most))
    } else {
        (file.to_string_lossy().into_owned(), read_file(Path::new(file), most))
    };
    match bytes {
        Ok(text) => Ok(Source { name, text }),
        Err(error) => Err(Failure::Input { name, error }),
    }
}

fn read_file(path: &Path, most: u64) -> io::Result<Vec<u8>> {
    let mut bytes = Vec::new();
    File::open(path)?.take(most).read_to_end(&mut bytes)?;
    Ok(bytes)
}

/// A game's bytes. One byte over the limit is read, so that a text that is too long is refused for that.
pub fn read_text(file: &OsStr) -> Result<Source, Failure> {
    read(file, TEXT_MOST)
}

/// The game of a file, with names.
pub fn read_game(file: &OsStr, names: Option<&OsStr>) -> Result<GameFile, Failure> {
    let Source { name, text } = read_text(file)?;
    let game = Game::read(&text).map_err(|error| diagnosis::of_text(&text, error).fault(&name, &text))?;
    let names = read_names(file, names, &game)?;
    Ok(GameFile { name, game, names })
}

/// The names for a game: those of the file given, else of the one beside the game's file, if there is one.
pub fn read_names(file: &OsStr, names: Option<&OsStr>, game: &Game) -> Result<Names, Failure> {
    match names_source(file, names)? {
        Some(source) => Names::read(&source, game),
        None => Ok(Names::default()),
    }
}

/// The file of names that goes with a game's file.
pub fn names_source(file: &OsStr, names: Option<&OsStr>) -> Result<Option<Source>, Failure> {
    match names {
        Some(given) => Ok(Some(read(given, FORM_MOST)?)),
        None => names_beside(file),
    }
}

/// `flush.names` beside `flush.game`, where there is such a file.
fn names_beside(file: &OsStr) -> Result<Option<Source>, Failure> {
    let path = PathBuf::from(file);
    if path.extension() != Some(OsStr::new("game")) {
        return Ok(None);
    }
    match read(path.with_extension("names").as_os_str(), FORM_MOST) {
        Ok(source) => Ok(Some(source)),
        Err(Failure::Input { error, .. }) if error.kind() == io::ErrorKind::NotFound => Ok(None),
        Err(failure) => Err(failure),
    }
}
