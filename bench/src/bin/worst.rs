//! A search for the game with a full table, 64 states a graph and 32 sets on each side, that takes the most times the widened loop: the claim about the worst game is
//! made of what this finds, not of a list. It begins with the games of the benchmark and changes moves and sets at random; a change stays where the time
//! does not fall.
//!
//!     cargo run --release --offline --manifest-path bench/Cargo.toml --bin worst -- [SECONDS [SEED]]
#[path = "../games.rs"]
#[allow(dead_code)] // the game with the longest text
mod games;
#[path = "../measure.rs"]
#[allow(dead_code)] // the loop with single stores
mod measure;

use nanpuwiq::{Game, Set, CONTROLLER_MOST, ENVIRONMENT_MOST, SCRATCH_MOST};
use std::hint::black_box;
use std::time::{Duration, Instant};

const N: usize = 64;

/// Marsaglia's xorshift on 64 bits.
struct Random(u64);

impl Random {
    fn below(&mut self, n: usize) -> usize {
        self.0 ^= self.0 << 13;
        self.0 ^= self.0 >> 7;
        self.0 ^= self.0 << 17;
        (self.0 >> 16) as usize % n
    }
}

struct Buffers {
    scratch: Vec<u64>,
    controller: Vec<u16>,
    environment: Vec<u16>,
}

/// Nanoseconds an entry: the least of some runs.
fn cost(g: &Game, b: &mut Buffers, runs: usize) -> f64 {
    let mut least = f64::INFINITY;
    for _ in 0..runs {
        let start = Instant::now();
        let (_, entries) = g.solve_into(black_box(&mut b.scratch), black_box(&mut b.controller), black_box(&mut b.environment)).expect("accepted");
        least = least.min(start.elapsed().as_secs_f64() * 1e9 / entries as f64);
    }
    least
}

/// Nanoseconds an entry of the widened loop.
fn loop_cost(b: &mut Buffers) -> f64 {
    measure::best(|| measure::plain_loop(black_box(&mut b.controller[..131_073]))) * 1e9 / 131_073.0
}

/// A game's cost and how many times the loop's that is, both timed at once: the least of some tries, as a machine can be busy for seconds.
fn beside_loop(g: &Game, b: &mut Buffers) -> (f64, f64) {
    let (mut least, mut times) = (f64::INFINITY, f64::INFINITY);
    for _ in 0..5 {
        let (looped, spent) = (loop_cost(b), cost(g, b, 200));
        least = least.min(spent);
        times = times.min(spent / looped);
    }
    (least, times)
}

/// A set with one state more or less.
fn toggled(x: Set, s: usize) -> Set {
    x.states().filter(|t| *t != s).fold(if x.has(s) { Set::default() } else { Set::of(s) }, |y, t| y | Set::of(t))
}

/// The game with some moves or sets changed.
fn changed(g: &Game, r: &mut Random) -> Game {
    let mut g = *g;
    for _ in 0..1 + r.below(4) {
        let (s, t) = (r.below(N), r.below(N));
        let q = &mut g.requirements[r.below(8)];
        match r.below(7) {
            0 | 1 => g.input.moves[s] = toggled(g.input.moves[s], t),
            2 | 3 => g.output.moves[s] = toggled(g.output.moves[s], t),
            4 => {
                let place = r.below(4);
                q.assumptions[place].0 = toggled(q.assumptions[place].0, t);
            }
            5 => {
                let place = r.below(4);
                q.guarantees[place].0 = toggled(q.guarantees[place].0, t);
            }
            _ => {
                let graph = if r.below(2) == 0 { &mut g.input } else { &mut g.output };
                graph.moves.swap(s, t);
            }
        }
    }
    g
}

fn full(g: &Game) -> bool {
    g.input.states == N && g.output.states == N && g.k == 8 && g.requirements.iter().all(|q| q.assumed == 4 && q.guaranteed == 4)
}

fn main() {
    let words: Vec<u64> = std::env::args().skip(1).map(|word| word.parse().expect("a number")).collect();
    let seconds = words.first().copied().unwrap_or(60);
    let mut r = Random(words.get(1).copied().unwrap_or(88_172_645_463_325_252).max(1));
    let mut b = Buffers { scratch: vec![0; SCRATCH_MOST], controller: vec![0; CONTROLLER_MOST], environment: vec![0; ENVIRONMENT_MOST] };
    let games: Vec<(String, Game)> = games::named("").into_iter().filter(|(_, g)| full(g)).collect();
    let looped = loop_cost(&mut b);
    println!("{:<34} {:>10} {:>8} {:>10} {:>8}", "begun with", "ns/entry", "times", "ns/entry", "times");
    let mut most: f64 = 0.0;
    for (name, g) in &games {
        let (mut at, first) = (*g, cost(g, &mut b, 20));
        let (mut held, begun) = (first, Instant::now());
        while begun.elapsed() < Duration::from_millis(1_000 * seconds / games.len() as u64) {
            let next = changed(&at, &mut r);
            // a quick look, then a closer one at what seems slower
            if next.accept().is_ok() && cost(&next, &mut b, 2) > held {
                let closer = cost(&next, &mut b, 20);
                if closer >= held {
                    (at, held) = (next, closer);
                }
            }
        }
        let (last, times) = beside_loop(&at, &mut b);
        most = most.max(times);
        println!("{name:<34} {first:>10.2} {:>8.1} {last:>10.2} {times:>8.1}", first / looped);
    }
    println!("the worst found: {most:.1} times the widened loop");
}
