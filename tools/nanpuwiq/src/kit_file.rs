//! A kit's file: two drives as tables of commands, with names or numbers for modes and commands, and the requirements on their modes.
//!
//!     (old-commands off slow)
//!     (old stop 1 (stop low))      a mode, 1 if it is initial, else 0, and where each command leads; - where it is barred
//!     (old low 0 (- low))
//!     (new-commands hold run)
//!     (new stop 1 (stop low))
//!     (new low 0 (low -))
//!     (if ((low)) ((low)))         as in a game's file, with modes for states
use crate::failure::Failure;
use crate::files::{Source, FORM_MOST};
use crate::forms::{self, Form};
use crate::kinds::{self, Kind};
use crate::names::{is_name, is_same, Names, NAME_RULE};
use nanpuwiq::{words, Drive, Kit, Requirement, BARRED, COMMANDS, REQUIREMENTS, SETS, STATES};
use std::ffi::OsStr;

/// A drive of a kit's file: the names of its modes and commands, each of them by number where it has no name.
pub struct DriveFile {
    pub modes: Vec<String>,
    pub commands: Vec<String>,
    drive: Drive,
}

/// A kit's file that was read.
pub struct KitFile {
    pub name: String,
    pub kit: Kit,
    pub old: DriveFile,
    pub new: DriveFile,
}

impl DriveFile {
    /// Where each command leads, by mode.
    pub fn next(&self) -> Vec<u8> {
        let rows = self.drive.next.chunks(COMMANDS).take(self.modes.len());
        rows.flat_map(|row| row.iter().take(self.commands.len()).copied()).collect()
    }
}

impl KitFile {
    /// Values of the counter.
    pub fn counters(&self) -> usize {
        self.kit.requirements.iter().map(|q| q.guaranteed).sum::<usize>().max(1)
    }

    /// The names of the modes, for the kit's game.
    pub fn names(&self) -> Names {
        Names::of_modes(&self.old.modes, &self.new.modes)
    }
}

/// The kit of a file.
pub fn read(file: &OsStr) -> Result<KitFile, Failure> {
    let source = crate::files::read(file, FORM_MOST)?;
    let forms = forms::read(&source)?;
    let reader = Reader { source: &source, forms: &forms };
    reader.heads()?;
    let old = reader.drive("old", "old-commands")?;
    let new = reader.drive("new", "new-commands")?;
    let requirements = reader.requirements(&old, &new)?;
    let kit = Kit::new(old.drive, new.drive, &requirements)
        .map_err(|error| Failure::Refused(format!("{}: {error}", source.name)))?;
    Ok(KitFile { name: source.name, kit, old, new })
}

struct Reader<'a> {
    source: &'a Source,
    forms: &'a [Form],
}

/// A mode's line: its name, whether it is initial, and where its commands lead.
struct ModeLine<'a> {
    name: &'a Form,
    initial: bool,
    next: &'a Form,
}

/// The words that a line may begin with.
const HEADS: [&str; 5] = ["old-commands", "old", "new-commands", "new", "if"];

/// The word that a line begins with.
fn head(form: &Form) -> Option<&str> {
    form.list()?.first()?.word()
}

impl<'a> Reader<'a> {
    fn wrong<T>(&self, place: usize, told: &str) -> Result<T, Failure> {
        Err(forms::refused(self.source, place, told))
    }

    /// Every line begins with one of the words.
    fn heads(&self) -> Result<(), Failure> {
        match self.forms.iter().find(|form| !head(form).is_some_and(|word| HEADS.contains(&word))) {
            Some(form) => {
                let expected = "expected a line in brackets with old-commands, old, new-commands, new or if";
                match kinds::of(&self.source.text) {
                    Kind::Kit | Kind::Requirements | Kind::Other => self.wrong(form.place, expected),
                    kind => self.wrong(form.place, &format!("{expected}: {}", kind.words())),
                }
            }
            None => Ok(()),
        }
    }

    /// The lines that begin with this word, without it.
    fn lines(&self, word: &str) -> Vec<(usize, &'a [Form])> {
        let of = self.forms.iter().filter(|form| head(form) == Some(word));
        of.filter_map(|form| form.list().and_then(<[Form]>::split_first).map(|(_, rest)| (form.place, rest))).collect()
    }

    fn drive(&self, word: &str, commands_word: &str) -> Result<DriveFile, Failure> {
        let commands = self.commands(commands_word)?;
        let lines = self.mode_lines(word)?;
        let names: Vec<&Form> = lines.iter().map(|line| line.name).collect();
        let modes = self.named(&names, &format!("{word}: a mode"))?;
        let initial: Vec<usize> = (0..lines.len()).filter(|mode| lines[*mode].initial).collect();
        let next =
            lines.iter().map(|line| self.row(line.next, &modes, commands.len())).collect::<Result<Vec<_>, _>>()?;
        let next: Vec<&[u8]> = next.iter().map(Vec::as_slice).collect();
        let refused = |error| Failure::Refused(format!("{}: {word}: {error}", self.source.name));
        let drive = Drive::new(&initial, &next).map_err(refused)?;
        Ok(DriveFile { modes, commands, drive })
    }

    /// The names of a drive's commands, from its one line of them.
    fn commands(&self, word: &str) -> Result<Vec<String>, Failure> {
        match self.lines(word)[..] {
            [(_, names)] if (1..=COMMANDS).contains(&names.len()) => {
                self.named(&names.iter().collect::<Vec<_>>(), &format!("{word}: a command"))
            }
            [(place, _)] => self.wrong(place, &format!("{} (refused 17)", words(17))),
            [] => self.wrong(0, &format!("no line ({word} ..)")),
            [_, (place, _), ..] => self.wrong(place, &format!("a second line ({word} ..)")),
        }
    }

    /// The lines of a drive's modes.
    fn mode_lines(&self, word: &str) -> Result<Vec<ModeLine<'a>>, Failure> {
        let lines = self.lines(word);
        if !(1..=STATES).contains(&lines.len()) {
            return self.wrong(0, &format!("{} lines ({word} ..): {} (refused 1)", lines.len(), words(1)));
        }
        lines.iter().map(|(place, line)| self.mode_line(*place, line, word)).collect()
    }

    fn mode_line(&self, place: usize, line: &'a [Form], word: &str) -> Result<ModeLine<'a>, Failure> {
        let [name, initial, next] = line else {
            return self.wrong(place, &format!("expected ({word} MODE 0-OR-1 (NEXT ..))"));
        };
        match initial.number() {
            Some(first @ (0 | 1)) => Ok(ModeLine { name, initial: first == 1, next }),
            _ => self.wrong(initial.place, "expected 1 for an initial mode, else 0"),
        }
    }

    /// Names in the order of their numbers; a number may stand for itself.
    fn named(&self, forms: &[&Form], what: &str) -> Result<Vec<String>, Failure> {
        let mut names: Vec<String> = Vec::new();
        for (number, form) in forms.iter().enumerate() {
            match form.word() {
                Some(word) if is_name(word) => {
                    if names.iter().any(|name| is_same(name, word)) {
                        return self.wrong(form.place, &format!("{what} twice: {word}"));
                    }
                    names.push(word.to_string());
                }
                Some(_) if form.number() == Some(number) => names.push(number.to_string()),
                _ => {
                    return self
                        .wrong(form.place, &format!("{what} is its number here, {number}, or a name: {NAME_RULE}"))
                }
            }
        }
        Ok(names)
    }

    /// Where each command leads.
    fn row(&self, form: &Form, modes: &[String], commands: usize) -> Result<Vec<u8>, Failure> {
        let Some(row) = form.list() else {
            return self.wrong(form.place, "expected a list in brackets of where each command leads");
        };
        if row.len() != commands {
            return self.wrong(form.place, &format!("{} next modes, and the drive has {commands} commands", row.len()));
        }
        row.iter()
            .map(|form| match form.word() {
                Some("-") => Ok(BARRED),
                // there are 128 modes at most
                _ => self.mode(form, modes).map(|mode| mode as u8),
            })
            .collect()
    }

    /// A mode by its number or its name.
    fn mode(&self, form: &Form, modes: &[String]) -> Result<usize, Failure> {
        let found = match form.number() {
            Some(number) => Some(number).filter(|number| *number < modes.len()),
            None => modes.iter().position(|name| form.word().is_some_and(|word| is_same(name, word))),
        };
        match found {
            Some(mode) => Ok(mode),
            None => self.wrong(
                form.place,
                &format!("no mode of this drive: expected one of {}, or - in a row", modes.join(", ")),
            ),
        }
    }

    fn requirements(&self, old: &DriveFile, new: &DriveFile) -> Result<Vec<Requirement>, Failure> {
        let lines = self.lines("if");
        if let Some((place, _)) = lines.get(REQUIREMENTS) {
            return self.wrong(*place, &format!("{} (refused 5)", words(5)));
        }
        lines.iter().map(|(place, line)| self.requirement(*place, line, old, new)).collect()
    }

    fn requirement(
        &self,
        place: usize,
        line: &[Form],
        old: &DriveFile,
        new: &DriveFile,
    ) -> Result<Requirement, Failure> {
        let [when, then] = line else {
            return self.wrong(place, "expected (if (SETS) (SETS))");
        };
        let (assumptions, guarantees) = (self.sets(when, &old.modes)?, self.sets(then, &new.modes)?);
        let assumptions: Vec<&[usize]> = assumptions.iter().map(Vec::as_slice).collect();
        let guarantees: Vec<&[usize]> = guarantees.iter().map(Vec::as_slice).collect();
        Requirement::new(&assumptions, &guarantees)
            .map_err(|error| forms::refused(self.source, place, &error.to_string()))
    }

    /// A list of sets of modes.
    fn sets(&self, form: &Form, modes: &[String]) -> Result<Vec<Vec<usize>>, Failure> {
        let Some(sets) = form.list() else {
            return self.wrong(form.place, "expected a list of sets in brackets");
        };
        if let Some(fifth) = sets.get(SETS) {
            return self.wrong(fifth.place, &format!("{} (refused 6)", words(6)));
        }
        sets.iter()
            .map(|set| match set.list() {
                Some(members) => members.iter().map(|form| self.mode(form, modes)).collect(),
                None => self.wrong(set.place, "expected a set in brackets"),
            })
            .collect()
    }
}
