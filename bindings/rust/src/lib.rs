//! Can the old panel run the new drive? Safe Rust over the entries of Nanpuwiq, which are proved.
//!
//! The promises are those of `crates/nanpuwiq`: every call answers every input, and on a refusal every buffer holds what it held before.
//! What the proof does not cover is this file, which declares the records and the entries a second time, and the compiler.
//!
//! A record made by `new` has all that was given: what is at fault, or does not fit into the record, is refused with the number that a game or a kit
//! gets for it. The fields of a record can be set to anything; the calls look at them.

use std::fmt;

mod entries;
mod print;

pub use print::{PrintError, PrintFault};

/// The version of this crate, which is the header's NANPUWIQ_VERSION.
pub const VERSION: &str = env!("CARGO_PKG_VERSION");
/// States of a graph at most.
pub const STATES: usize = 128;
/// Words of a set.
pub const SET_WORDS: usize = 2;

/// Words of scratch that the calls with bars ask for.
pub const BARRED_SCRATCH: usize = 4096;
/// Places for requirements.
pub const REQUIREMENTS: usize = 8;
/// Places for sets on each side of a requirement.
pub const SETS: usize = 4;
/// Words of scratch that the largest game asks for.
pub const SCRATCH_MOST: usize = SET_WORDS * 3 * STATES;
/// Words of scratch that the map on the joined positions asks for.
pub const JOINED_SCRATCH: usize = 4_096;
/// States of a graph at most, for that map.
pub const JOINED_STATES: usize = 32;
/// The entry of a table that is none.
pub const NONE: u16 = 65_535;
/// Entries of the longest controller's table.
pub const CONTROLLER_MOST: usize = STATES + STATES * REQUIREMENTS * SETS * STATES;
/// Entries of the longest controller's table in the compact layout.
pub const COMPACT_MOST: usize = STATES + CONTROLLER_MOST;
/// Entries of the longest environment's table.
pub const ENVIRONMENT_MOST: usize = 1 + STATES * REQUIREMENTS * SETS * STATES;

/// Entries of the room that the checker's walk is lent.
pub const WALK_ROOM: usize = 24_576;
/// Places of a table that is checked at most: inputs × outputs × values of the counter.
pub const CHECKED_PLACES: usize = 4_096;

/// Commands of a drive at most.
pub const COMMANDS: usize = 16;
/// The next mode where a command is barred.
pub const BARRED: u8 = 255;
/// Bytes of the longest text that is read.
pub const TEXT_MOST: usize = 40_960;
/// Entries of the longest kit's table.
pub const KIT_MOST: usize = STATES + STATES * REQUIREMENTS * SETS * STATES * COMMANDS;

/// The number of an input state.
#[repr(C)]
#[derive(Clone, Copy, Debug, PartialEq, Eq)]
pub struct InState(pub usize);

/// The number of an output state.
#[repr(C)]
#[derive(Clone, Copy, Debug, PartialEq, Eq)]
pub struct OutState(pub usize);

/// A set of states: state s below 64 belongs where bit s of `low` is set, another where bit s - 64 of `high` is.
#[repr(C)]
#[derive(Clone, Copy, Debug, PartialEq, Eq, Default)]
pub struct Set {
    pub low: u64,
    pub high: u64,
}

/// A set of input states.
#[repr(C)]
#[derive(Clone, Copy, Debug, PartialEq, Eq, Default)]
pub struct InSet(pub Set);

/// A set of output states.
#[repr(C)]
#[derive(Clone, Copy, Debug, PartialEq, Eq, Default)]
pub struct OutSet(pub Set);

impl Set {
    /// The set whose members are the bits of a number, bit s for state s.
    pub const fn from_bits(bits: u128) -> Set {
        Set { low: bits as u64, high: (bits >> 64) as u64 }
    }

    /// Its number, bit s for state s.
    pub const fn bits(self) -> u128 {
        (self.high as u128) << 64 | self.low as u128
    }

    /// The set of one state; the empty one for a state past 127.
    pub fn of(s: usize) -> Set {
        Set::from_bits(if s < STATES { 1 << s } else { 0 })
    }

    /// Whether state s belongs to it.
    pub fn has(self, s: usize) -> bool {
        s < STATES && self.bits() >> s & 1 == 1
    }

    /// Its states, rising.
    pub fn states(self) -> impl Iterator<Item = usize> {
        (0..STATES).filter(move |&s| self.has(s))
    }

    /// How many states it has.
    pub fn count(self) -> usize {
        self.bits().count_ones() as usize
    }
}

impl std::ops::BitOr for Set {
    type Output = Set;

    fn bitor(self, other: Set) -> Set {
        Set { low: self.low | other.low, high: self.high | other.high }
    }
}

impl std::ops::BitOrAssign for Set {
    fn bitor_assign(&mut self, other: Set) {
        *self = *self | other;
    }
}

impl std::ops::BitAnd for Set {
    type Output = Set;

    fn bitand(self, other: Set) -> Set {
        Set { low: self.low & other.low, high: self.high & other.high }
    }
}

/// Row s of `moves` is the set of the states that state s moves to.
#[repr(C)]
#[derive(Clone, Copy, Debug, PartialEq, Eq)]
pub struct Graph {
    pub states: usize,
    pub initial: Set,
    pub moves: [Set; STATES],
}

/// If every assumption recurs, every guarantee does. Of the places, `assumed` and `guaranteed` are in use.
#[repr(C)]
#[derive(Clone, Copy, Debug, PartialEq, Eq, Default)]
pub struct Requirement {
    pub assumptions: [InSet; SETS],
    pub assumed: usize,
    pub guarantees: [OutSet; SETS],
    pub guaranteed: usize,
}

/// Two graphs and the requirements on them, of which k are in use.
#[repr(C)]
#[derive(Clone, Copy, Debug, PartialEq, Eq, Default)]
pub struct Game {
    pub input: Graph,
    pub output: Graph,
    pub k: usize,
    pub requirements: [Requirement; REQUIREMENTS],
}

/// Place 16 × mode + command of `next` is the mode that the command leads to, or `BARRED`; places past the counts are barred.
#[repr(C)]
#[derive(Clone, Copy, Debug, PartialEq, Eq)]
pub struct Drive {
    pub modes: usize,
    pub initial: Set,
    pub commands: usize,
    pub next: [u8; STATES * COMMANDS],
}

/// A new drive for a panel that gives the old one's commands, and the requirements on their modes, of which k are in use.
///
/// The kit's game has the old drive's modes as inputs and the new drive's as outputs; a move is there where some command makes it.
#[repr(C)]
#[derive(Clone, Copy, Debug, PartialEq, Eq, Default)]
pub struct Kit {
    pub old: Drive,
    pub new: Drive,
    pub k: usize,
    pub requirements: [Requirement; REQUIREMENTS],
}

/// Input, output and counter after the controller's answer; against an environment's table, after the output is picked.
#[repr(C)]
#[derive(Clone, Copy, Debug, PartialEq, Eq)]
pub struct Position {
    pub input: InState,
    pub output: OutState,
    pub counter: usize,
}

/// The panel's move by an environment's table: the next input and the next counter.
#[derive(Clone, Copy, Debug, PartialEq, Eq)]
pub struct PanelMove {
    pub input: InState,
    pub counter: usize,
}

/// A refusal: its number, 1 to 25, 28 or 29, and for 11 how far the bytes could be a game's text (else 0).
#[derive(Clone, Copy, Debug, PartialEq, Eq)]
pub struct Error {
    pub number: u8,
    pub place: usize,
}

/// The words for the number of a refusal, from include/nanpuwiq_words.h.
pub fn words(number: u8) -> &'static str {
    include!(concat!(env!("OUT_DIR"), "/words.rs"))
}

/// The number and its words: `refused 3: no initial state`, and for 11 the place too: `refused 11 20: bytes that are no game's text`.
impl fmt::Display for Error {
    fn fmt(&self, f: &mut fmt::Formatter<'_>) -> fmt::Result {
        let Error { number, place } = *self;
        match number {
            11 => write!(f, "refused 11 {place}: {}", words(number)),
            _ => write!(f, "refused {number}: {}", words(number)),
        }
    }
}

impl std::error::Error for Error {}

/// What made a position won or lost: the first ground that fits, in this order, with the lowest numbers.
///
/// A component is a largest set of states that reach one another, or a lone state; its number is its smallest state, and it is stayable where a move lies
/// inside it.
#[derive(Clone, Copy, Debug, PartialEq, Eq)]
pub enum Ground {
    /// Won: the input has no move.
    InputStuck,
    /// Won: every next input has a reply that makes a won position; the input's component is not stayable.
    ByReplies,
    /// Won: the output reaches this component, where the controller stays while the input stays in its own.
    AtHome(OutState),
    /// Lost: the output has no move.
    OutputStuck,
    /// Lost: no output move makes a won position with this next input; the input's component is not stayable.
    Unanswered(InState),
    /// Lost: a move out of the input's component enters this state, which is lost with this output.
    ByWayOut(InState),
    /// Lost: this requirement, from 0, is due in the input's component, and the output's component, a stayable one, misses this output set, from 0
    /// within the requirement.
    Unserved(usize, usize),
    /// Lost: the output's component is not stayable.
    PushedOn,
}

impl Ground {
    /// The ground that an entry of `Game::explain_all_into` stands for: its number, from 1 in this order, + 16 × what it names.
    pub fn of_entry(entry: u16) -> Ground {
        let name = usize::from(entry / 16);
        match entry % 16 {
            1 => Ground::InputStuck,
            2 => Ground::ByReplies,
            3 => Ground::AtHome(OutState(name)),
            4 => Ground::OutputStuck,
            5 => Ground::Unanswered(InState(name)),
            6 => Ground::ByWayOut(InState(name)),
            7 => Ground::Unserved(name / SETS, name % SETS),
            _ => Ground::PushedOn,
        }
    }

    /// Whether the position is won.
    pub fn is_won(self) -> bool {
        matches!(self, Ground::InputStuck | Ground::ByReplies | Ground::AtHome(_))
    }
}

impl fmt::Display for Ground {
    fn fmt(&self, f: &mut fmt::Formatter<'_>) -> fmt::Result {
        match self {
            Ground::InputStuck => write!(f, "won: the input has no move"),
            Ground::ByReplies => write!(f, "won: every next input has a winning reply"),
            Ground::AtHome(home) => write!(f, "won: the outputs of component {} serve all that is due", home.0),
            Ground::OutputStuck => write!(f, "lost: the output has no move"),
            Ground::Unanswered(next) => write!(f, "lost: next input {} has no winning reply", next.0),
            Ground::ByWayOut(entered) => write!(f, "lost: the inputs can leave to input {}, which is lost with this output", entered.0),
            Ground::Unserved(requirement, set) => {
                write!(f, "lost: requirement {requirement} is due, and the outputs here never visit its output set {set}")
            }
            Ground::PushedOn => write!(f, "lost: the output cannot stay where it is, and wherever it goes is lost"),
        }
    }
}

/// What the checker says of a controller's table. A walk stands at the front of the room, each configuration as its place in the order of rows
/// (`Game::position`); it begins in a first configuration, and each next one is made from the one before by a turn of the table.
#[derive(Clone, Copy, Debug, PartialEq, Eq)]
pub enum Checked {
    /// The table wins.
    Wins,
    /// The start of this initial input names no initial output, or no value of the counter.
    BadStart(InState),
    /// After a walk of so many configurations the row for this next input, a move, names no move of the output, or no value of the counter.
    BadRow { walk: usize, next: InState },
    /// A walk of so many configurations closes a round, which begins at number `begins`, from 0, and breaks this requirement, from 0: the last
    /// configuration is the one at `begins` again.
    BadRound { walk: usize, begins: usize, requirement: usize },
}

impl Checked {
    /// How many configurations the walk has.
    pub fn walk(self) -> usize {
        match self {
            Checked::Wins | Checked::BadStart(_) => 0,
            Checked::BadRow { walk, .. } | Checked::BadRound { walk, .. } => walk,
        }
    }
}

/// The side that wins.
#[derive(Clone, Copy, Debug, PartialEq, Eq)]
pub enum Winner {
    System,
    Environment,
}

/// The side that wins, and its table.
#[derive(Clone, Debug, PartialEq, Eq)]
pub struct Verdict {
    pub winner: Winner,
    pub table: Vec<u16>,
}

impl Verdict {
    /// The winner's buffer, as far as it is filled.
    fn filled(winner: Winner, entries: usize, system: Vec<u16>, environment: Vec<u16>) -> Verdict {
        let mut table = match winner {
            Winner::System => system,
            Winner::Environment => environment,
        };
        table.truncate(entries);
        Verdict { winner, table }
    }
}

/// A stored controller's table in the compact layout, and what a row's place is worked out from.
#[derive(Clone, Copy, Debug, PartialEq, Eq)]
pub struct CompactTable<'a> {
    pub entries: &'a [u16],
    pub inputs: usize,
    pub counters: usize,
    pub components: usize,
}

impl CompactTable<'_> {
    /// The start of an input: `NONE` where the table has none.
    pub fn start(&self, input: InState) -> u16 {
        self.entries[..self.inputs.min(self.entries.len())].get(input.0).copied().unwrap_or(NONE)
    }

    /// The entry of a row: the one that the full layout has for this output, counter and new input. `NONE` where the table has no such row.
    pub fn row(&self, output: OutState, counter: usize, input: InState) -> u16 {
        entries::compact_row(self.entries, self.inputs, self.counters, self.components, output, counter, input)
    }
}

/// The inputs of a run, recorded by the panel: a state number, 0 to 127, a byte.
#[derive(Clone, Copy, Debug, PartialEq, Eq)]
pub struct InRecording<'a>(pub &'a [u8]);

/// The outputs of a run, recorded by the drive: a state number, 0 to 127, a byte.
#[derive(Clone, Copy, Debug, PartialEq, Eq)]
pub struct OutRecording<'a>(pub &'a [u8]);

/// What two recordings of one run show, and the first step that shows it. Steps count from 0, the start.
#[derive(Clone, Copy, Debug, PartialEq, Eq)]
pub enum Comparison {
    /// The outputs are those that the table gives for the inputs, and both recordings end together.
    Agree,
    /// The output recorded is not the table's.
    Differ { step: usize },
    /// One recording has ended and the other has not.
    Ended { step: usize },
    /// The player's number for the input recorded there: 14, 15. It goes before a difference or an ending at its step.
    Fault { step: usize, number: u8 },
}

/// The refusal with this number.
fn refused(number: u8) -> Error {
    Error { number, place: 0 }
}

/// Ok for 0, else the refusal.
fn refusal(code: u8) -> Result<(), Error> {
    match code {
        0 => Ok(()),
        number => Err(refused(number)),
    }
}

/// The panel's move, or the refusal.
fn panel_move(r: entries::PanelMoved) -> Result<PanelMove, Error> {
    refusal(r.code)?;
    Ok(PanelMove { input: r.input, counter: r.counter })
}

/// Ok where it holds, else the refusal.
fn ensure(holds: bool, number: u8) -> Result<(), Error> {
    refusal(if holds { 0 } else { number })
}

impl Default for Graph {
    fn default() -> Graph {
        Graph { states: 0, initial: Set::default(), moves: [Set::default(); STATES] }
    }
}

impl Graph {
    /// A graph with a row for each state; a row lists the states that it moves to: 1, 2, 3.
    pub fn new(initial: &[usize], moves: &[&[usize]]) -> Result<Graph, Error> {
        let states = moves.len();
        ensure((1..=STATES).contains(&states), 1)?;
        let mut g = Graph { states, initial: set_below(states, initial).ok_or(refused(2))?, ..Graph::default() };
        for (row, to) in g.moves.iter_mut().zip(moves) {
            *row = set_below(states, to).ok_or(refused(2))?;
        }
        ensure(g.initial != Set::default(), 3)?;
        Ok(g)
    }
}

impl Default for Drive {
    fn default() -> Drive {
        Drive { modes: 0, initial: Set::default(), commands: 0, next: [BARRED; STATES * COMMANDS] }
    }
}

impl Drive {
    /// A drive with a row for each mode; a row lists the modes that its commands lead to, or `BARRED`, and what it does not list is barred.
    /// The longest row has all commands: 1, 17, 18, 2, 3.
    pub fn new(initial: &[usize], next: &[&[u8]]) -> Result<Drive, Error> {
        let modes = next.len();
        ensure((1..=STATES).contains(&modes), 1)?;
        let commands = next.iter().map(|row| row.len()).max().unwrap_or(0);
        ensure((1..=COMMANDS).contains(&commands), 17)?;
        ensure(next.iter().copied().flatten().all(|&to| to == BARRED || usize::from(to) < modes), 18)?;
        let mut d = Drive { modes, initial: set_below(modes, initial).ok_or(refused(2))?, commands, ..Drive::default() };
        ensure(d.initial != Set::default(), 3)?;
        for (places, row) in d.next.chunks_mut(COMMANDS).zip(next) {
            places[..row.len()].copy_from_slice(row);
        }
        Ok(d)
    }
}

impl Requirement {
    /// If these assumptions recur, these guarantees do: 6, and 7 for a state past 127. A state past the count of a graph is seen by `Game::new` and `Kit::new`.
    pub fn new(assumptions: &[&[usize]], guarantees: &[&[usize]]) -> Result<Requirement, Error> {
        ensure(assumptions.len() <= SETS && guarantees.len() <= SETS, 6)?;
        let mut q = Requirement { assumed: assumptions.len(), guaranteed: guarantees.len(), ..Requirement::default() };
        for (place, states) in q.assumptions.iter_mut().zip(assumptions) {
            *place = InSet(set(states).ok_or(refused(7))?);
        }
        for (place, states) in q.guarantees.iter_mut().zip(guarantees) {
            *place = OutSet(set(states).ok_or(refused(7))?);
        }
        Ok(q)
    }
}

/// A set of states; none where a state is past 127.
pub fn set(states: &[usize]) -> Option<Set> {
    set_below(STATES, states)
}

/// The same with a count of at most 128; none where a state is not below it.
fn set_below(count: usize, states: &[usize]) -> Option<Set> {
    states.iter().all(|&s| s < count).then(|| Set::from_bits(states.iter().fold(0, |x, &s| x | 1 << s)))
}

/// The sets that words hold, two words a set.
fn sets_in(words: &[u64]) -> Vec<Set> {
    words.chunks_exact(SET_WORDS).map(|x| Set { low: x[0], high: x[1] }).collect()
}

/// Barred pairs, for `Game::barred_map` and `Game::barred_verdict`: one set of outputs for each input, two words a set.
#[derive(Clone, Debug, Default, PartialEq, Eq)]
pub struct Bars(Vec<u64>);

impl Bars {
    /// Nothing is barred with these inputs: 1 a count that no game has.
    pub fn none(inputs: usize) -> Result<Bars, Error> {
        ensure((1..=STATES).contains(&inputs), 1)?;
        Ok(Bars(vec![0; SET_WORDS * inputs]))
    }

    /// These pairs are barred: 1 a count that no game has, 29 a pair that no game has.
    pub fn new(inputs: usize, pairs: &[(InState, OutState)]) -> Result<Bars, Error> {
        let mut bars = Bars::none(inputs)?;
        for &(InState(i), OutState(o)) in pairs {
            ensure(i < inputs && o < STATES, 29)?;
            bars.0[SET_WORDS * i + o / 64] |= 1 << (o % 64);
        }
        Ok(bars)
    }

    /// Words of the caller's, as the library takes them.
    pub fn from_words(words: Vec<u64>) -> Bars {
        Bars(words)
    }
}

/// Counts that no accepted game has give some number too.
fn scratch_words(inputs: usize, outputs: usize) -> usize {
    inputs.saturating_mul(2).saturating_add(outputs).saturating_mul(SET_WORDS)
}

impl Game {
    /// A game, which is accepted: 1 to 7.
    pub fn new(input: Graph, output: Graph, requirements: &[Requirement]) -> Result<Game, Error> {
        let mut g = Game { input, output, k: requirements.len(), ..Game::default() };
        // those past the eighth have no place: k tells of them
        for (place, q) in g.requirements.iter_mut().zip(requirements) {
            *place = *q;
        }
        g.accept()?;
        Ok(g)
    }

    /// Whether the game is accepted: 1 to 7.
    pub fn accept(&self) -> Result<(), Error> {
        refusal(entries::accept(*self))
    }

    /// Words of scratch that the game asks for, where it is accepted: 2 × (2 × inputs + outputs). On a verdict or a map that many words of scratch are zero,
    /// from the first on, and the rest is as it was.
    pub fn scratch_words(&self) -> usize {
        scratch_words(self.input.states, self.output.states)
    }

    /// The won map in a buffer of the caller's, two words for each input, low states first: 1 to 7, 8.
    pub fn won_map_into(&self, scratch: &mut [u64], map: &mut [u64]) -> Result<(), Error> {
        refusal(entries::won_map(*self, scratch, map))
    }

    /// The won map: set i is that of the outputs that are won with input i.
    pub fn won_map(&self) -> Result<Vec<Set>, Error> {
        let mut map = vec![0; SET_WORDS * self.input.states.min(STATES)];
        self.won_map_into(&mut [0; SCRATCH_MOST], &mut map)?;
        Ok(sets_in(&map))
    }

    /// The won map with bars in a buffer of the caller's: 1 to 7, 29, 28, 8. On a map the first `BARRED_SCRATCH` words of scratch are zero and the rest is as it was.
    pub fn barred_map_into(&self, bars: &Bars, scratch: &mut [u64], map: &mut [u64]) -> Result<(), Error> {
        refusal(entries::barred_map(*self, &bars.0, scratch, map))
    }

    /// The outputs that are won with each input, and not barred with it, where the system may never make a barred pair.
    pub fn barred_map(&self, bars: &Bars) -> Result<Vec<Set>, Error> {
        let mut map = vec![0; SET_WORDS * self.input.states.min(STATES)];
        self.barred_map_into(bars, &mut vec![0; BARRED_SCRATCH], &mut map)?;
        Ok(sets_in(&map))
    }

    /// Whether the system wins with bars, in scratch of the caller's: 1 to 7, 29, 28, 8.
    pub fn barred_verdict_in(&self, bars: &Bars, scratch: &mut [u64]) -> Result<bool, Error> {
        let r = entries::barred_verdict(*self, &bars.0, scratch);
        refusal(r.code)?;
        Ok(r.system)
    }

    /// Whether the system wins where it may never make a barred pair. No table is made.
    pub fn barred_verdict(&self, bars: &Bars) -> Result<bool, Error> {
        self.barred_verdict_in(bars, &mut vec![0; BARRED_SCRATCH])
    }

    /// The won map of the lecture room's solver in a buffer of the caller's, in a game of at most 32 states a graph: 1 to 7, 24, 8. On a map the first
    /// `JOINED_SCRATCH` words of scratch are zero and the rest is as it was.
    pub fn joined_map_into(&self, scratch: &mut [u64], map: &mut [u64]) -> Result<(), Error> {
        refusal(entries::joined_map(*self, scratch, map))
    }

    /// The won map, worked out on the joined positions: what `won_map` gives, in a game of at most 32 states a graph.
    pub fn joined_map(&self) -> Result<Vec<Set>, Error> {
        let mut map = vec![0; SET_WORDS * self.input.states.min(STATES)];
        self.joined_map_into(&mut vec![0; JOINED_SCRATCH], &mut map)?;
        Ok(sets_in(&map))
    }

    /// What made a position won or lost: 1 to 7, 25 a position outside the game, 8.
    pub fn explain_into(&self, scratch: &mut [u64], input: InState, output: OutState) -> Result<Ground, Error> {
        let r = entries::explain(*self, scratch, input, output);
        refusal(r.code)?;
        Ok(match r.ground {
            1 => Ground::InputStuck,
            2 => Ground::ByReplies,
            3 => Ground::AtHome(r.output),
            4 => Ground::OutputStuck,
            5 => Ground::Unanswered(r.input),
            6 => Ground::ByWayOut(r.input),
            7 => Ground::Unserved(r.requirement, r.set),
            _ => Ground::PushedOn,
        })
    }

    /// What made a position won or lost.
    pub fn explain(&self, input: InState, output: OutState) -> Result<Ground, Error> {
        self.explain_into(&mut [0; SCRATCH_MOST], input, output)
    }

    /// What made each position won or lost, an entry each, input by input, the outputs running fastest: 1 to 7, 8 a scratch or a room too short. The game is
    /// solved once. `Ground::of_entry` reads an entry; those past the positions are as they were.
    pub fn explain_all_into(&self, scratch: &mut [u64], grounds: &mut [u16]) -> Result<(), Error> {
        refusal(entries::explain_all(*self, scratch, grounds))
    }

    /// What made each position won or lost, input by input, the outputs running fastest.
    pub fn explain_all(&self) -> Result<Vec<Ground>, Error> {
        let mut grounds = vec![0; self.input.states.min(STATES) * self.output.states.min(STATES)];
        self.explain_all_into(&mut [0; SCRATCH_MOST], &mut grounds)?;
        Ok(grounds.into_iter().map(Ground::of_entry).collect())
    }

    /// Whether a controller's table, from anywhere, wins; else what shows that it does not: 1 to 7, 19 a table of another length, 20 more than
    /// `CHECKED_PLACES` places, 8 a room under `WALK_ROOM` entries. The walk fills the front of the room; the rest is as it was.
    pub fn check_into(&self, table: &[u16], room: &mut [u16]) -> Result<Checked, Error> {
        let r = entries::check(*self, table, room);
        refusal(r.code)?;
        Ok(match r.finding {
            0 => Checked::Wins,
            1 => Checked::BadStart(r.input),
            2 => Checked::BadRow { walk: r.walk, next: r.input },
            _ => Checked::BadRound { walk: r.walk, begins: r.begins, requirement: r.requirement },
        })
    }

    /// The same, with the walk's positions.
    pub fn check(&self, table: &[u16]) -> Result<(Checked, Vec<Position>), Error> {
        let mut room = vec![0; WALK_ROOM];
        let checked = self.check_into(table, &mut room)?;
        let walk = room.iter().take(checked.walk()).map(|place| self.position(*place)).collect();
        Ok((checked, walk))
    }

    /// The configuration with this place in the order of rows: (output × counters + counter) × inputs + input.
    pub fn position(&self, place: u16) -> Position {
        let (place, inputs, counters) = (usize::from(place), self.input.states.max(1), self.controller_counters());
        Position {
            input: InState(place % inputs),
            output: OutState(place / inputs / counters),
            counter: place / inputs % counters,
        }
    }

    /// Values of the controller's counter: one for each output set, one at least.
    fn controller_counters(&self) -> usize {
        self.requirements.iter().fold(0, |n: usize, q| n.saturating_add(q.guaranteed)).max(1)
    }

    /// The side that wins, and how many entries of its buffer are filled with its table: 1 to 7, 8, 9, 10.
    pub fn solve_into(&self, scratch: &mut [u64], controller: &mut [u16], environment: &mut [u16]) -> Result<(Winner, usize), Error> {
        let r = entries::solve(*self, scratch, controller, environment);
        refusal(r.code)?;
        Ok((if r.system { Winner::System } else { Winner::Environment }, r.entries))
    }

    /// The side that wins, and its table.
    pub fn solve(&self) -> Result<Verdict, Error> {
        let mut controller = vec![0; CONTROLLER_MOST];
        let mut environment = vec![0; ENVIRONMENT_MOST];
        let (winner, entries) = self.solve_into(&mut [0; SCRATCH_MOST], &mut controller, &mut environment)?;
        Ok(Verdict::filled(winner, entries, controller, environment))
    }

    /// As `solve_into`, with the controller's table in the compact layout: 1 to 7, 8, 9 by that layout, 10.
    ///
    /// The compact layout has a start for each input, the rank of each input's component, then rows by output, counter and rank. Components of the
    /// input graph rank from 0 by smallest state. For every output, counter and input its row is that of `solve_into`.
    pub fn solve_compact_into(
        &self,
        scratch: &mut [u64],
        controller: &mut [u16],
        environment: &mut [u16],
    ) -> Result<(Winner, usize), Error> {
        let r = entries::solve_compact(*self, scratch, controller, environment);
        refusal(r.code)?;
        Ok((if r.system { Winner::System } else { Winner::Environment }, r.entries))
    }

    /// The side that wins, and its table, a controller's in the compact layout.
    pub fn solve_compact(&self) -> Result<Verdict, Error> {
        let mut controller = vec![0; COMPACT_MOST];
        let mut environment = vec![0; ENVIRONMENT_MOST];
        let (winner, entries) = self.solve_compact_into(&mut [0; SCRATCH_MOST], &mut controller, &mut environment)?;
        Ok(Verdict::filled(winner, entries, controller, environment))
    }

    /// How many components the input graph has: 1 to 7.
    pub fn components(&self) -> Result<usize, Error> {
        let r = entries::components(*self);
        refusal(r.code)?;
        Ok(r.count)
    }

    /// Moves a stored table of a controller, anyone's, to the compact layout, and says how many entries of the room are filled: 1 to 7, 23 a length
    /// that is not the full layout's, 21 two inputs of one component that differ in a row, 9 a room too short.
    pub fn to_compact_into(&self, table: &[u16], room: &mut [u16]) -> Result<usize, Error> {
        let r = entries::to_compact(*self, table, room);
        refusal(r.code)?;
        Ok(r.entries)
    }

    /// The table in the compact layout.
    pub fn to_compact(&self, table: &[u16]) -> Result<Vec<u16>, Error> {
        let mut room = vec![0; COMPACT_MOST];
        let entries = self.to_compact_into(table, &mut room)?;
        room.truncate(entries);
        Ok(room)
    }

    /// Moves a stored table of the compact layout to the full one, and says how many entries of the room are filled: 1 to 7, 23 a length that is not
    /// the compact layout's, 22 ranks that are not the game's, 9 a room too short.
    pub fn to_full_into(&self, table: &[u16], room: &mut [u16]) -> Result<usize, Error> {
        let r = entries::to_full(*self, table, room);
        refusal(r.code)?;
        Ok(r.entries)
    }

    /// The table in the full layout.
    pub fn to_full(&self, table: &[u16]) -> Result<Vec<u16>, Error> {
        let mut room = vec![0; CONTROLLER_MOST];
        let entries = self.to_full_into(table, &mut room)?;
        room.truncate(entries);
        Ok(room)
    }

    /// A stored table of the compact layout as it is, to read rows from: 1 to 7.
    pub fn compact_table<'a>(&self, entries: &'a [u16]) -> Result<CompactTable<'a>, Error> {
        let components = self.components()?;
        Ok(CompactTable { entries, inputs: self.input.states, counters: self.controller_counters(), components })
    }

    /// The game that a text describes: 12, 11 with its place, 1 to 7.
    pub fn read(text: &[u8]) -> Result<Game, Error> {
        let r = entries::read(text);
        match r.code {
            0 => Ok(r.game),
            number => Err(Error { number, place: r.place }),
        }
    }

    /// The game's text in a buffer of the caller's, and how many bytes it has: 1 to 7, 13.
    pub fn write_into(&self, buffer: &mut [u8]) -> Result<usize, Error> {
        let r = entries::write(*self, buffer);
        refusal(r.code)?;
        Ok(r.bytes)
    }

    /// The game's text. One of over `TEXT_MOST` bytes is not read back.
    pub fn write(&self) -> Result<Vec<u8>, Error> {
        let mut text = vec![0; 262_144];
        let bytes = self.write_into(&mut text)?;
        text.truncate(bytes);
        Ok(text)
    }

    /// The first position of a controller's table: 1 to 7, 16, 14, 15.
    pub fn begin(&self, table: &[u16], first: InState) -> Result<Position, Error> {
        let r = entries::begin(*self, table, first);
        refusal(r.code)?;
        Ok(r.at)
    }

    /// Moves the position on by the next input, by the entry that takes and gives it by value; a refusal leaves it as it was: 1 to 7, 16, 14, 15.
    pub fn step(&self, table: &[u16], at: &mut Position, next: InState) -> Result<(), Error> {
        let r = entries::step(*self, table, *at, next);
        *at = r.at;
        refusal(r.code)
    }

    /// The same by the entry that moves a lent position on in place.
    pub fn advance(&self, table: &[u16], at: &mut Position, next: InState) -> Result<(), Error> {
        refusal(entries::advance(*self, table, at, next))
    }

    /// The panel's first input and counter, by the start of an environment's table: 1 to 7, 16, 15.
    pub fn panel_first(&self, table: &[u16]) -> Result<PanelMove, Error> {
        panel_move(entries::panel_first(*self, table))
    }

    /// The first position against an environment's table: its start's input and counter with the output picked: 1 to 7, 16, 14, 15.
    pub fn panel_begin(&self, table: &[u16], first: OutState) -> Result<Position, Error> {
        let r = entries::panel_begin(*self, table, first);
        refusal(r.code)?;
        Ok(r.at)
    }

    /// The panel's next input and counter at a position, by the row of an environment's table: 1 to 7, 16, 15.
    pub fn panel_next(&self, table: &[u16], at: Position) -> Result<PanelMove, Error> {
        panel_move(entries::panel_next(*self, table, at))
    }

    /// The position after that move and the output picked: 1 to 7, 16, 14, 15.
    pub fn panel_step(&self, table: &[u16], at: Position, next: OutState) -> Result<Position, Error> {
        let r = entries::panel_step(*self, table, at, next);
        refusal(r.code)?;
        Ok(r.at)
    }

    /// Whether the outputs recorded by the drive are those that a controller's table gives for the inputs recorded by the panel.
    /// The first input has the table's start, every later one its row: 1 to 7, 16.
    ///
    /// ```
    /// use nanpuwiq::*;
    /// fn agree(game: &Game, table: &[u16], panel: InRecording, drive: OutRecording) -> Result<bool, Error> {
    ///     Ok(game.compare(table, panel, drive)? == Comparison::Agree)
    /// }
    /// ```
    ///
    /// The two cannot be exchanged:
    ///
    /// ```compile_fail,E0308
    /// use nanpuwiq::*;
    /// fn agree(game: &Game, table: &[u16], panel: InRecording, drive: OutRecording) -> Result<bool, Error> {
    ///     Ok(game.compare(table, drive, panel)? == Comparison::Agree)
    /// }
    /// ```
    pub fn compare(&self, table: &[u16], inputs: InRecording, outputs: OutRecording) -> Result<Comparison, Error> {
        let r = entries::compare(*self, table, inputs, outputs);
        match r.code {
            0 if r.agree => Ok(Comparison::Agree),
            0 if r.ended => Ok(Comparison::Ended { step: r.step }),
            0 => Ok(Comparison::Differ { step: r.step }),
            14 | 15 => Ok(Comparison::Fault { step: r.step, number: r.code }),
            number => Err(refused(number)),
        }
    }
}

impl Kit {
    /// A kit, which is accepted: 1, 17, 18, 2 to 7.
    pub fn new(old: Drive, new: Drive, requirements: &[Requirement]) -> Result<Kit, Error> {
        let mut kit = Kit { old, new, k: requirements.len(), ..Kit::default() };
        // those past the eighth have no place: k tells of them
        for (place, q) in kit.requirements.iter_mut().zip(requirements) {
            *place = *q;
        }
        kit.accept()?;
        Ok(kit)
    }

    /// Whether the kit is accepted: 1, 17, 18, 2 to 7.
    pub fn accept(&self) -> Result<(), Error> {
        refusal(entries::accept_kit(*self))
    }

    /// Words of scratch that the kit asks for, where it is accepted: those of its game.
    pub fn scratch_words(&self) -> usize {
        scratch_words(self.old.modes, self.new.modes)
    }

    /// The side that wins the kit's game, and how many entries are filled: of `room` with the kit's table where the system wins, of the environment's
    /// buffer with its table where that does. The other buffers become what `Game::solve_into` makes of them: 1, 17, 18, 2 to 7, 8, 9, 10.
    ///
    /// The kit's table has the controller's start for each old mode, then rows by new mode, counter, old mode and old command, the last fastest:
    /// the lowest new command that makes the controller's move + 16 × next counter, or `NONE` where the old command is barred or the controller's
    /// row is none.
    pub fn solve_into(
        &self,
        scratch: &mut [u64],
        controller: &mut [u16],
        environment: &mut [u16],
        room: &mut [u16],
    ) -> Result<(Winner, usize), Error> {
        let r = entries::solve_kit(*self, scratch, controller, environment, room);
        refusal(r.code)?;
        Ok((if r.system { Winner::System } else { Winner::Environment }, r.entries))
    }

    /// The side that wins, and its table: the kit's, or the environment's.
    ///
    /// With the kit's table every sequence of commands that the old drive allows from an initial mode is answered by commands that the new drive allows;
    /// where it never ends, the modes that recur meet every requirement.
    pub fn solve(&self) -> Result<Verdict, Error> {
        let mut controller = vec![0; CONTROLLER_MOST];
        let mut environment = vec![0; ENVIRONMENT_MOST];
        let mut room = vec![0; KIT_MOST];
        let (winner, entries) = self.solve_into(&mut [0; SCRATCH_MOST], &mut controller, &mut environment, &mut room)?;
        Ok(Verdict::filled(winner, entries, room, environment))
    }
}
