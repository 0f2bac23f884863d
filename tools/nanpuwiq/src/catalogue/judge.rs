//! What each game of a catalogue comes to, worked out on all cores.
use crate::diagnosis;
use crate::failure::Fault;
use crate::files;
use crate::standard;
use crate::words::grouped;
use nanpuwiq::{Error, Game, Winner, CONTROLLER_MOST, ENVIRONMENT_MOST, SCRATCH_MOST, SET_WORDS, STATES};
use std::ffi::OsStr;
use std::os::unix::ffi::OsStrExt;
use std::sync::atomic::{AtomicUsize, Ordering};
use std::sync::mpsc::{self, RecvTimeoutError};
use std::thread;
use std::time::{Duration, Instant};

/// Letters of a file's name that the program `catalogue` opens.
const NAME_MOST: usize = 255;
/// Games that a core takes at a time.
const CHUNK: usize = 16;
/// Progress is shown where the work takes longer than this.
const SHOWN_AFTER: Duration = Duration::from_millis(400);

/// What a game comes to.
#[derive(Clone, Debug)]
pub enum Outcome {
    /// The side that wins, the won positions of all, and the entries of the winner's table.
    Judged {
        winner: Winner,
        won: usize,
        positions: usize,
        entries: usize,
    },
    Refused(Fault),
}

/// What the library is lent, once for each core.
pub struct Rooms {
    scratch: Vec<u64>,
    controller: Vec<u16>,
    panel: Vec<u16>,
    map: Vec<u64>,
}

impl Rooms {
    fn new() -> Rooms {
        Rooms {
            scratch: vec![0; SCRATCH_MOST],
            controller: vec![0; CONTROLLER_MOST],
            panel: vec![0; ENVIRONMENT_MOST],
            map: vec![0; SET_WORDS * STATES],
        }
    }

    /// Judges a game, with at most so many entries for each table.
    pub fn judge(&mut self, game: &Game, entries: usize) -> Result<Outcome, Error> {
        let (controller, panel) = (entries.min(CONTROLLER_MOST), entries.min(ENVIRONMENT_MOST));
        let (winner, entries) =
            game.solve_into(&mut self.scratch, &mut self.controller[..controller], &mut self.panel[..panel])?;
        game.won_map_into(&mut self.scratch, &mut self.map)?;
        let rows = &self.map[..SET_WORDS * game.input.states.min(STATES)];
        let won = rows.iter().map(|word| word.count_ones() as usize).sum();
        Ok(Outcome::Judged { winner, won, positions: game.input.states * game.output.states, entries })
    }
}

/// Judges the game in a file as the program `catalogue` does, with its rooms and its numbers.
pub fn file(rooms: &mut Rooms, name: &OsStr, entries: usize) -> Outcome {
    let shown = super::printable(&name.to_string_lossy());
    let unreadable =
        |words: String| Outcome::Refused(Fault { file: shown.clone(), place: None, number: Some(26), words });
    if name.as_bytes().len() > NAME_MOST {
        return unreadable(format!("its name has over {NAME_MOST} bytes"));
    }
    // a file may be called so; standard input has the list
    let text = match files::read_text(if name == "-" { OsStr::new("./-") } else { name }) {
        Ok(source) => source.text,
        Err(failure) => return unreadable(format!("it cannot be read: {}", failure.cause())),
    };
    match Game::read(&text).and_then(|game| rooms.judge(&game, entries)) {
        Ok(outcome) => outcome,
        Err(error) => Outcome::Refused(diagnosis::of_text(&text, error).fault(&shown, &text)),
    }
}

/// The refusal of a pair, which is in no file.
pub fn refused(error: Error) -> Outcome {
    Outcome::Refused(Fault::of("", error))
}

/// The outcomes of so many games, each asked for by its number, on all cores; `what` names them where progress is shown.
pub fn all(count: usize, what: &str, outcome: impl Fn(&mut Rooms, usize) -> Outcome + Sync) -> Vec<Outcome> {
    let cores = thread::available_parallelism().map_or(1, |cores| cores.get()).min(count.div_ceil(CHUNK)).max(1);
    let (next, done) = (AtomicUsize::new(0), AtomicUsize::new(0));
    let (sender, receiver) = mpsc::channel();
    let work = || {
        let (mut rooms, mut found) = (Rooms::new(), Vec::new());
        loop {
            let first = next.fetch_add(CHUNK, Ordering::Relaxed);
            if first >= count {
                return found;
            }
            let last = count.min(first + CHUNK);
            found.extend((first..last).map(|game| (game, outcome(&mut rooms, game))));
            done.fetch_add(last - first, Ordering::Relaxed);
        }
    };
    let mut outcomes: Vec<(usize, Outcome)> = thread::scope(|scope| {
        for _ in 0..cores {
            let sender = sender.clone();
            scope.spawn(move || sender.send(work()));
        }
        drop(sender);
        let mut progress = Progress { begun: Instant::now(), shown: false };
        let mut outcomes = Vec::new();
        loop {
            match receiver.recv_timeout(Duration::from_millis(100)) {
                Ok(found) => outcomes.extend(found),
                Err(RecvTimeoutError::Timeout) => progress.show(done.load(Ordering::Relaxed), count, what),
                Err(RecvTimeoutError::Disconnected) => break,
            }
        }
        progress.end();
        outcomes
    });
    outcomes.sort_by_key(|(game, _)| *game);
    outcomes.into_iter().map(|(_, outcome)| outcome).collect()
}

/// "1,200 of 10,000 pairs", on standard error where that is a terminal.
struct Progress {
    begun: Instant,
    shown: bool,
}

impl Progress {
    fn show(&mut self, done: usize, count: usize, what: &str) {
        if standard::errors_is_terminal() && self.begun.elapsed() > SHOWN_AFTER {
            standard::say_over(&format!("{} of {} {what}", grouped(done), grouped(count)));
            self.shown = true;
        }
    }

    fn end(&self) {
        if self.shown {
            standard::say_over("");
        }
    }
}
