//! The map on the joined positions beside the won map, in one run: games of 32 states a graph.
//!
//!     cargo run --release --offline --manifest-path bench/Cargo.toml --bin joined
#[path = "../measure.rs"]
#[allow(dead_code)] // the loops that a table's time is compared with
mod measure;

use measure::best;
use nanpuwiq::{Game, Graph, InSet, OutSet, Requirement, Set, JOINED_SCRATCH, JOINED_STATES, SCRATCH_MOST, SET_WORDS};
use std::hint::black_box;

const N: usize = JOINED_STATES;

/// Marsaglia's xorshift on 64 bits.
struct Random(u64);

impl Random {
    fn below(&mut self, n: usize) -> usize {
        self.0 ^= self.0 << 13;
        self.0 ^= self.0 >> 7;
        self.0 ^= self.0 << 17;
        (self.0 >> 16) as usize % n
    }

    fn set(&mut self, n: usize, size: usize) -> Set {
        (0..size).fold(Set::default(), |x, _| x | Set::of(self.below(n)))
    }

    fn graph(&mut self, n: usize, least: usize, degree: usize) -> Graph {
        graph(n, |_| {
            let k = least + self.below(degree);
            self.set(n, k)
        })
    }
}

fn graph(n: usize, mut moves: impl FnMut(usize) -> Set) -> Graph {
    let mut g = Graph { states: n, initial: Set::of(0), ..Graph::default() };
    for s in 0..n {
        g.moves[s] = moves(s);
    }
    g
}

fn ring(n: usize) -> Graph {
    graph(n, |s| Set::of((s + 1) % n))
}

/// Eight requirements of two sets a side, of up to four states.
fn game(r: &mut Random, input: Graph, output: Graph) -> Game {
    let mut g = Game { input, output, k: 8, ..Game::default() };
    for q in &mut g.requirements {
        *q = Requirement { assumed: 2, guaranteed: 2, ..Requirement::default() };
        for k in 0..2 {
            q.assumptions[k] = InSet(r.set(input.states, 4));
            q.guarantees[k] = OutSet(r.set(output.states, 4));
        }
    }
    g
}

fn main() {
    let mut r = Random(88_172_645_463_325_252);
    let mut games: Vec<(String, Game)> = Vec::new();
    let sparse = (r.graph(N, 1, 3), r.graph(N, 1, 3));
    games.push(("random, 1 to 3 moves".into(), game(&mut r, sparse.0, sparse.1)));
    let latching = (r.graph(N, 0, 3), r.graph(N, 0, 3));
    games.push(("random, 0 to 2 moves".into(), game(&mut r, latching.0, latching.1)));
    let dense = (r.graph(N, 8, 8), r.graph(N, 8, 8));
    games.push(("random, 8 to 15 moves".into(), game(&mut r, dense.0, dense.1)));
    games.push(("rings of 31 and 32: one component".into(), game(&mut r, ring(31), ring(32))));
    games.push(("rings of 32 and 32: 32 components".into(), game(&mut r, ring(32), ring(32))));
    let forward = graph(N, |s| (s + 1..N).fold(Set::default(), |x, t| x | Set::of(t)));
    games.push(("all moves forward: lone positions".into(), game(&mut r, forward, forward)));
    println!("{:<36} {:>12} {:>12} {:>8}", "game, microseconds a map", "joined", "won map", "times");
    let mut map = [0; SET_WORDS * N];
    for (name, g) in &games {
        let mut scratch = vec![0; JOINED_SCRATCH];
        assert_eq!(g.joined_map().expect("a right game"), g.won_map().expect("a right game"));
        let joined = best(|| g.joined_map_into(black_box(&mut scratch), black_box(&mut map)).unwrap());
        let mut scratch = [0; SCRATCH_MOST];
        let ours = best(|| g.won_map_into(black_box(&mut scratch), black_box(&mut map)).unwrap());
        println!("{name:<36} {:>12.1} {:>12.2} {:>8.0}", joined * 1e6, ours * 1e6, joined / ours);
    }
}
