//! The solver's time on a row of games, each beside the time of a plain loop that writes as many entries. From the root:
//!     tools/prove nanpuwiq && cargo run --release --offline --manifest-path bench/Cargo.toml
//! Times are the best of many runs, in microseconds. The buffers are made once, before the runs, and are not cleared between them.
//! `bench NAME` runs the games whose name begins with NAME; `bench NAME N` only solves them N times each, for a profiler.
mod apart;
mod games;
mod measure;

use measure::{best, plain_loop, single_stores};
use nanpuwiq::{Game, Winner, CONTROLLER_MOST, ENVIRONMENT_MOST, SCRATCH_MOST, SET_WORDS};
use std::env;
use std::hint::black_box;

/// The buffers that every call lends.
struct Buffers {
    scratch: Vec<u64>,
    controller: Vec<u16>,
    environment: Vec<u16>,
}

impl Buffers {
    fn new() -> Buffers {
        Buffers { scratch: vec![0; SCRATCH_MOST], controller: vec![0; CONTROLLER_MOST], environment: vec![0; ENVIRONMENT_MOST] }
    }

    fn solve(&mut self, g: &Game) -> (Winner, usize) {
        g.solve_into(&mut self.scratch, &mut self.controller, &mut self.environment).expect("the games here are accepted")
    }
}

fn microseconds(seconds: f64) -> String {
    format!("{:.2}", seconds * 1e6)
}

fn row(name: &str, g: &Game, b: &mut Buffers) -> f64 {
    let (winner, entries) = b.solve(g);
    let solver = best(|| {
        black_box(b.solve(black_box(g)));
    });
    let (mut scratch, mut map) = (vec![0; SCRATCH_MOST], vec![0; SET_WORDS * g.input.states]);
    let mapped = best(|| g.won_map_into(black_box(&mut scratch), black_box(&mut map)).expect("the games here are accepted"));
    let looped = best(|| plain_loop(black_box(&mut b.controller[..entries])));
    let stores = best(|| single_stores(black_box(&mut b.controller[..entries])));
    println!(
        "{:<34} {:>3} x {:<3} {:<11} {:>7} {:>10} {:>8.2} {:>8} {:>8} {:>7.1} {:>8} {:>7.1} {:>10}",
        name,
        g.input.states,
        g.output.states,
        format!("{winner:?}").to_lowercase(),
        entries,
        microseconds(solver),
        solver * 1e9 / entries as f64,
        microseconds(mapped),
        microseconds(looped),
        solver / looped,
        microseconds(stores),
        solver / stores,
        apart::time(g).map_or("-".to_string(), microseconds),
    );
    solver / looped
}

/// The reader and the writer on the longest text that a game has.
fn texts() {
    let g = games::longest();
    let text = g.write().expect("the game is accepted");
    let mut buffer = vec![0; text.len()];
    let read = best(|| {
        black_box(Game::read(black_box(&text)).is_ok());
    });
    let written = best(|| {
        black_box(g.write_into(black_box(&mut buffer)).is_ok());
    });
    println!("text of {} bytes: read in {} us, written in {} us", text.len(), microseconds(read), microseconds(written));
}

fn main() {
    let name = env::args().nth(1).unwrap_or_default();
    let chosen = games::named(&name);
    let mut b = Buffers::new();
    if let Some(runs) = env::args().nth(2) {
        let runs: usize = runs.parse().expect("a number of runs");
        for (_, g) in chosen {
            for _ in 0..runs {
                black_box(b.solve(black_box(&g)));
            }
        }
        return;
    }
    println!(
        "{:<34} {:<9} {:<11} {:>7} {:>10} {:>8} {:>8} {:>8} {:>7} {:>8} {:>7} {:>10}",
        "game", "states", "wins", "entries", "solver", "ns/entry", "map", "loop", "ratio", "stores", "ratio", "second"
    );
    let mut largest: Option<f64> = None;
    for (name, g) in chosen {
        let ratio = row(&name, &g, &mut b);
        // full tables: 32 sets on each side
        if g.input.states == 64 && g.output.states == 64 && g.requirements.iter().all(|q| q.assumed == 4 && q.guaranteed == 4) {
            largest = Some(largest.map_or(ratio, |most| most.max(ratio)));
        }
    }
    texts();
    println!("loop: entries written by a plain loop, which the compiler may widen; stores: one store at a time");
    if let Some(largest) = largest {
        println!("64 x 64 with 32 sets on each side: at most {largest:.1} times the plain loop");
    }
}
