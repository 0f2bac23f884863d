//! The comparison: generated texts go to the solve program and to the second
//! solver; prints have to agree byte for byte, and every printed table has to
//! win by walks.

use crate::generate::{self, Draw, Family, FAMILIES, SMALL};
use crate::solve::{Solved, Way};
use crate::{text, walks, Game};
use std::collections::BTreeMap;
use std::io::Write;
use std::path::{Path, PathBuf};
use std::process::{Command, Stdio};
use std::sync::atomic::{AtomicUsize, Ordering};

const THREADS: usize = 2;

/// Differences shown in full, the shortest texts first.
const SHOWN: usize = 3;

pub struct Options {
    pub program: PathBuf,
    pub games: usize,
    pub large: usize,
    pub wide: usize,
    pub damaged: usize,
    pub seed: u64,
}

/// One text to compare: the family and its member's number.
type Job = (Family, u64);

struct Difference {
    job: Job,
    text: Vec<u8>,
    first: String,
    second: String,
    why: String,
}

/// What one family's texts came to.
#[derive(Default)]
struct Tally {
    texts: usize,
    system: usize,
    environment: usize,
    /// By number.
    refused: BTreeMap<String, usize>,
    /// Games with stuck inputs alone, stuck outputs alone, both.
    dead_ends: [usize; 3],
    /// Games in which a reachable row passes, goes, or tours, or in which a
    /// play can end for want of the other side's move: by winner.
    controller_ways: [usize; 4],
    panel_ways: [usize; 4],
}

#[derive(Default)]
struct Report {
    tallies: BTreeMap<usize, Tally>,
    differences: Vec<Difference>,
}

/// Runs everything and prints the report. True when nothing differs.
pub fn run(options: &Options) -> Result<bool, String> {
    println!("seed {}", options.seed);
    if !options.program.is_file() {
        return Err(format!("no such program: {}", options.program.display()));
    }
    let mut report = compare_all(options, &jobs(options));
    for (&family, tally) in &report.tallies {
        println!("{}", tally.line(FAMILIES[family]));
    }
    report.differences.sort_by_key(|difference| difference.text.len());
    for difference in report.differences.iter().take(SHOWN) {
        difference.show();
    }
    let compared: usize = report.tallies.values().map(|tally| tally.texts).sum();
    println!("{compared} compared, {} differ", report.differences.len());
    Ok(report.differences.is_empty())
}

/// The large ones first, so that no thread ends with a long one alone.
fn jobs(options: &Options) -> Vec<Job> {
    let large = (0..options.large).map(|n| (if n % 5 < 3 { Family::Large } else { Family::Rooms }, n as u64));
    let wide = (0..options.wide).map(|n| (Family::Wide, n as u64));
    let slots: Vec<Family> = SMALL.iter().flat_map(|&(family, share)| vec![family; share]).collect();
    let small = (0..options.games).map(|n| (slots[n % slots.len()], n as u64));
    let damaged = (0..options.damaged).map(|n| (if n % 10 < 9 { Family::Damaged } else { Family::Faulty }, n as u64));
    wide.chain(large).chain(small).chain(damaged).collect()
}

/// The prints of the program for games of at most 64 states a graph, a line a
/// family: how many there are, and a number that another print would change.
/// Games within these limits print what they printed when they were all.
pub fn digest(options: &Options) -> Result<bool, String> {
    let mut sums: BTreeMap<usize, (usize, u64)> = BTreeMap::new();
    for (family, index) in jobs(options).into_iter().filter(|job| !matches!(job.0, Family::Damaged | Family::Wide)) {
        let print = answer_of(&options.program, &text_of(options.seed, family, index))?;
        let (count, sum) = sums.entry(family as usize).or_insert((0, 0xcbf2_9ce4_8422_2325));
        *count += 1;
        *sum = print.bytes().fold(*sum, |sum, byte| (sum ^ u64::from(byte)).wrapping_mul(0x100_0000_01b3));
    }
    for (family, (count, sum)) in sums {
        println!("{:?} {count} {sum:016x}", FAMILIES[family]);
    }
    Ok(true)
}

fn compare_all(options: &Options, jobs: &[Job]) -> Report {
    let next = AtomicUsize::new(0);
    let work = || {
        let mut report = Report::default();
        while let Some(&job) = jobs.get(next.fetch_add(1, Ordering::Relaxed)) {
            compare_one(options, job, &mut report);
        }
        report
    };
    let mut all = Report::default();
    std::thread::scope(|scope| {
        let threads: Vec<_> = (0..THREADS).map(|_| scope.spawn(work)).collect();
        for thread in threads {
            all.add(thread.join().expect("a thread of the comparison ends by itself"));
        }
    });
    all
}

/// The text of a job, the same in every run with this seed.
pub fn text_of(seed: u64, family: Family, index: u64) -> Vec<u8> {
    generate::text(family, &mut Draw::member(seed, family as u64, index))
}

fn compare_one(options: &Options, job: Job, report: &mut Report) {
    let text = text_of(options.seed, job.0, job.1);
    let second = crate::printed(&text);
    let tally = report.tallies.entry(job.0 as usize).or_default();
    tally.count(&text, &second);
    let (first, why) = match answer_of(&options.program, &text) {
        Ok(first) => {
            let why = find_fault(&text, &first, &second);
            (first, why)
        }
        Err(why) => (String::new(), Some(why)),
    };
    if let Some(why) = why {
        report.differences.push(Difference { job, text, first, second, why });
    }
}

/// What is wrong with the two prints, if anything.
fn find_fault(text: &[u8], first: &str, second: &str) -> Option<String> {
    if first != second {
        return Some(format!("prints differ; first: {}; second: {}", judged(text, first), judged(text, second)));
    }
    let judgement = judged(text, first);
    judgement.starts_with(LOSES).then(|| format!("same prints, but: {judgement}"))
}

const LOSES: &str = "the table does not win";

/// What walks say of a print.
fn judged(text: &[u8], print: &str) -> String {
    match text::read(text) {
        Ok(game) if print.starts_with("(wins ") => match walks::check(&game, print) {
            Ok(_) => "the table wins".to_string(),
            Err(why) => format!("{LOSES}: {why}"),
        },
        _ => "no table".to_string(),
    }
}

/// The program's print. Ending otherwise than by itself with status 0, and
/// printing nothing, are errors.
fn answer_of(program: &Path, text: &[u8]) -> Result<String, String> {
    let mut child = Command::new(program)
        .stdin(Stdio::piped())
        .stdout(Stdio::piped())
        .stderr(Stdio::null())
        .spawn()
        .map_err(|error| format!("cannot be started: {error}"))?;
    if let Some(mut stdin) = child.stdin.take() {
        // A program that stops reading early may still print the right thing.
        let _ = stdin.write_all(text);
    }
    let ended = child.wait_with_output().map_err(|error| format!("cannot be waited for: {error}"))?;
    if !ended.status.success() {
        return Err(format!("the program ended with {}", ended.status));
    }
    if ended.stdout.is_empty() {
        return Err("the program printed nothing".to_string());
    }
    Ok(String::from_utf8_lossy(&ended.stdout).into_owned())
}

impl Report {
    fn add(&mut self, other: Report) {
        for (family, tally) in other.tallies {
            self.tallies.entry(family).or_default().add(tally);
        }
        self.differences.extend(other.differences);
    }
}

impl Tally {
    /// Counts by the second solver's print.
    fn count(&mut self, text: &[u8], print: &str) {
        self.texts += 1;
        let first_line = print.lines().next().unwrap_or("");
        match (first_line, text::read(text)) {
            ("(wins system)", Ok(game)) => {
                self.system += 1;
                add_to(&mut self.dead_ends, dead_ends(&game));
                add_to(&mut self.controller_ways, controller_ways(&game, print));
            }
            ("(wins environment)", Ok(game)) => {
                self.environment += 1;
                add_to(&mut self.dead_ends, dead_ends(&game));
                add_to(&mut self.panel_ways, panel_ways(&game, print));
            }
            _ => {
                let number = first_line.trim_end_matches(')').split(' ').nth(1).unwrap_or("?");
                *self.refused.entry(number.to_string()).or_default() += 1;
            }
        }
    }

    fn add(&mut self, other: Tally) {
        self.texts += other.texts;
        self.system += other.system;
        self.environment += other.environment;
        for (number, count) in other.refused {
            *self.refused.entry(number).or_default() += count;
        }
        add_to(&mut self.dead_ends, other.dead_ends);
        add_to(&mut self.controller_ways, other.controller_ways);
        add_to(&mut self.panel_ways, other.panel_ways);
    }

    fn line(&self, family: Family) -> String {
        let percent = |part: usize| 100 * part / self.texts.max(1);
        let refused: Vec<String> = self.refused.iter().map(|(number, count)| format!("{number}: {count}")).collect();
        let [inputs, outputs, both] = self.dead_ends;
        let [pass, go, tour, end] = self.controller_ways;
        let [panel_pass, leave, panel_tour, panel_end] = self.panel_ways;
        format!(
            "{family:?}: {} texts; system {} ({}%), environment {} ({}%), refused {} [{}]; \
             stuck: inputs {inputs}, outputs {outputs}, both {both}; \
             in reach: controller passes {pass}, goes home {go}, is home {tour}, sees the input stuck {end}; \
             panel passes {panel_pass}, leaves {leave}, tours {panel_tour}, sees the output stuck {panel_end}",
            self.texts,
            self.system,
            percent(self.system),
            self.environment,
            percent(self.environment),
            self.refused.values().sum::<usize>(),
            refused.join(", "),
        )
    }
}

fn add_to<const N: usize>(sums: &mut [usize; N], more: [usize; N]) {
    for (sum, one) in sums.iter_mut().zip(more) {
        *sum += one;
    }
}

/// Stuck inputs alone, stuck outputs alone, both: 1 if so.
pub fn dead_ends(game: &Game) -> [usize; 3] {
    match game.dead_ends() {
        [false, false] => [0, 0, 0],
        [true, false] => [1, 0, 0],
        [false, true] => [0, 1, 0],
        [true, true] => [0, 0, 1],
    }
}

/// Which ways a play against the printed controller can meet: 1 if so.
pub fn controller_ways(game: &Game, print: &str) -> [usize; 4] {
    let solved = Solved::new(game);
    let reachable = walks::reachable(game, print).unwrap_or_default();
    let rows = reachable.iter().flat_map(|at| game.inputs[at.input].moves.iter().map(|&j| (at.output, j)));
    let mut seen = ways(rows.map(|(output, input)| solved.controller_way(output, input)));
    seen[3] = usize::from(reachable.iter().any(|at| game.inputs[at.input].moves.is_empty()));
    seen
}

/// The same for the printed panel table.
pub fn panel_ways(game: &Game, print: &str) -> [usize; 4] {
    let solved = Solved::new(game);
    let reachable = walks::reachable(game, print).unwrap_or_default();
    ways(reachable.iter().map(|at| solved.panel_way(at.input, at.output)))
}

fn ways(all: impl Iterator<Item = Way>) -> [usize; 4] {
    let mut seen = [0; 4];
    for way in all {
        match way {
            Way::None => {}
            Way::Pass(_) => seen[0] = 1,
            Way::Go(_) => seen[1] = 1,
            Way::Tour(_) => seen[2] = 1,
            Way::Unanswered(_) => seen[3] = 1,
        }
    }
    seen
}

impl Difference {
    fn show(&self) {
        println!("--- {:?} number {}: {}", self.job.0, self.job.1, self.why);
        println!("--- text\n{}", String::from_utf8_lossy(&self.text));
        println!("--- first print\n{}--- second print\n{}---", self.first, self.second);
    }
}
