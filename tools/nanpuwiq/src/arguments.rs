//! The words after a subcommand: options, their values, and files.
use crate::failure::Failure;
use crate::subcommand::Subcommand;
use std::ffi::{OsStr, OsString};

/// How many values an option takes that takes one or more: those up to the next option. It may be given again, for more of them.
pub const MANY: usize = usize::MAX;

/// What was given to a subcommand.
pub struct Arguments {
    pub command: &'static str,
    options: Vec<(&'static str, Vec<OsString>)>,
    files: Vec<OsString>,
}

impl Arguments {
    /// The words by the subcommand's options. After `--` every word is a file.
    pub fn of(subcommand: &Subcommand, words: &[OsString]) -> Result<Arguments, Failure> {
        let (command, known) = (subcommand.name, subcommand.options);
        let mut arguments = Arguments { command, options: Vec::new(), files: Vec::new() };
        let mut words = words.iter().peekable();
        while let Some(word) = words.next() {
            if word == "--" {
                arguments.files.extend(words.cloned());
                break;
            }
            if !is_option(word) {
                arguments.files.push(word.clone());
                continue;
            }
            let Some(&(name, count)) = known.iter().find(|(name, _)| word == name) else {
                return Err(arguments.wrong(&format!("no option '{}'", word.to_string_lossy())));
            };
            let mut values = Vec::new();
            while values.len() < count {
                match words.next_if(|word| count != MANY || !is_option(word)) {
                    Some(value) => values.push(value.clone()),
                    None => break,
                }
            }
            arguments.add(name, count, values)?;
        }
        Ok(arguments)
    }

    fn add(&mut self, name: &'static str, count: usize, values: Vec<OsString>) -> Result<(), Failure> {
        let enough = if count == MANY { !values.is_empty() } else { values.len() == count };
        if !enough {
            return Err(self.wrong(&format!("{name} without its value")));
        }
        match self.options.iter_mut().find(|(given, _)| *given == name) {
            Some((_, given)) if count == MANY => given.extend(values),
            Some(_) => return Err(self.wrong(&format!("{name} twice"))),
            None => self.options.push((name, values)),
        }
        Ok(())
    }

    pub fn has(&self, name: &str) -> bool {
        self.options.iter().any(|(given, _)| *given == name)
    }

    /// The values of an option.
    pub fn values(&self, name: &str) -> Option<&[OsString]> {
        self.options.iter().find(|(given, _)| *given == name).map(|(_, values)| values.as_slice())
    }

    /// The value of an option that takes one.
    pub fn value(&self, name: &str) -> Option<&OsStr> {
        self.values(name).and_then(|values| values.first()).map(OsString::as_os_str)
    }

    /// The one of these options that was given; more than one is wrong use.
    pub fn one_of(&self, names: &[&'static str]) -> Result<Option<&'static str>, Failure> {
        let given: Vec<&'static str> = names.iter().copied().filter(|name| self.has(name)).collect();
        match given[..] {
            [] => Ok(None),
            [name] => Ok(Some(name)),
            _ => Err(self.wrong(&format!("one of {} at a time", names.join(", ")))),
        }
    }

    /// The one file that the subcommand takes.
    pub fn file(&self) -> Result<&OsStr, Failure> {
        self.file_if_any()?.ok_or_else(|| self.wrong("which file?"))
    }

    /// The two files of a subcommand that takes two.
    pub fn two_files(&self) -> Result<(&OsStr, &OsStr), Failure> {
        match &self.files[..] {
            [first, second] => Ok((first, second)),
            [] | [_] => Err(self.wrong("which files?")),
            _ => Err(self.wrong("more than two files")),
        }
    }

    /// The files and words of a subcommand that takes so many: `what` tells them.
    pub fn words<const COUNT: usize>(&self, what: &str) -> Result<[&OsStr; COUNT], Failure> {
        let words: Vec<&OsStr> = self.files.iter().map(OsString::as_os_str).collect();
        words.try_into().map_err(|_| self.wrong(&format!("expected {what}")))
    }

    /// The file, where it may be left out.
    pub fn file_if_any(&self) -> Result<Option<&OsStr>, Failure> {
        match &self.files[..] {
            [] => Ok(None),
            [file] => Ok(Some(file)),
            _ => Err(self.wrong("more than one file")),
        }
    }

    /// All files, for a subcommand that takes any number of them.
    pub fn files(&self) -> &[OsString] {
        &self.files
    }

    /// Wrong use of this subcommand.
    pub fn wrong(&self, words: &str) -> Failure {
        Failure::usage_of(self.command, words)
    }
}

/// Whether a word is written as an option; `-` is a file.
fn is_option(word: &OsStr) -> bool {
    word != "-" && word.to_string_lossy().starts_with('-')
}
