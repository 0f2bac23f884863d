//! The map with bars beside a plain fixpoint in Rust, in one run: random games, rings and lines of 64 and of 128 states a graph. Of the corners, where
//! the plain one takes seconds, the map alone, at 32, 64 and 128 states, with how it grows.
//!
//!     cargo run --release --offline --manifest-path bench/Cargo.toml --bin barred
#[path = "../measure.rs"]
#[allow(dead_code)] // the loops that a table's time is compared with
mod measure;

use measure::best;
use nanpuwiq::{Bars, Game, Graph, InSet, OutSet, Requirement, Set, BARRED_SCRATCH, SET_WORDS, STATES};
use std::hint::black_box;

/// Marsaglia's xorshift on 64 bits.
struct Random(u64);

impl Random {
    fn below(&mut self, n: usize) -> usize {
        self.0 ^= self.0 << 13;
        self.0 ^= self.0 >> 7;
        self.0 ^= self.0 << 17;
        (self.0 >> 16) as usize % n
    }

    fn set(&mut self, n: usize, size: usize) -> Set {
        (0..size).fold(Set::default(), |x, _| x | Set::of(self.below(n)))
    }

    fn graph(&mut self, n: usize, least: usize, degree: usize) -> Graph {
        graph(n, |_| {
            let k = least + self.below(degree);
            self.set(n, k)
        })
    }

    fn requirement(&mut self, n: usize, size: usize) -> Requirement {
        let mut q = Requirement { assumed: 2, guaranteed: 2, ..Requirement::default() };
        for k in 0..2 {
            q.assumptions[k] = InSet(self.set(n, size));
            q.guarantees[k] = OutSet(self.set(n, size));
        }
        q
    }

    /// One pair in `among` is barred.
    fn bars(&mut self, n: usize, among: usize) -> Vec<u128> {
        (0..n).map(|_| (0..n).fold(0, |x, o| x | u128::from(self.below(among) == 0) << o)).collect()
    }
}

fn graph(n: usize, mut moves: impl FnMut(usize) -> Set) -> Graph {
    let mut g = Graph { states: n, initial: Set::of(0), ..Graph::default() };
    for s in 0..n {
        g.moves[s] = moves(s);
    }
    g
}

fn game(input: Graph, output: Graph, q: Requirement) -> Game {
    let mut g = Game { input, output, k: 1, ..Game::default() };
    g.requirements[0] = q;
    g
}

fn below(n: usize) -> u128 {
    u128::MAX >> (128 - n)
}

/// Source document 002's fixpoint by turns over all inputs, one word of 128 bits for a row, with no order, no trim and nothing left out.
fn plain(g: &Game, bars: &[u128]) -> Vec<u128> {
    let (n, m, q) = (g.input.states, g.output.states, g.requirements[0]);
    let next: Vec<u128> = (0..n).map(|i| g.input.moves[i].bits()).collect();
    let moves: Vec<u128> = (0..m).map(|o| g.output.moves[o].bits()).collect();
    let all = [InSet(Set::from_bits(below(n)))];
    let waits: Vec<u128> = all.iter().chain(&q.assumptions[..q.assumed]).map(|a| a.0.bits()).collect();
    let every = [OutSet(Set::from_bits(below(m)))];
    let goals: Vec<u128> = every.iter().chain(&q.guarantees[..q.guaranteed]).map(|b| b.0.bits()).collect();
    let stay = |z: &[u128], y: &[u128], goal: u128, wait: u128| {
        let mut x = z.to_vec();
        loop {
            let answers: Vec<u128> = (0..n)
                .map(|j| {
                    let target = z[j] & goal | y[j] | if wait >> j & 1 == 0 { x[j] } else { 0 };
                    (0..m).fold(0, |r, o| r | u128::from(moves[o] & target != 0) << o)
                })
                .collect();
            let mut changed = false;
            for i in 0..n {
                let mut row = x[i];
                let mut rest = next[i];
                while rest != 0 {
                    row &= answers[rest.trailing_zeros() as usize];
                    rest &= rest - 1;
                }
                changed |= row != x[i];
                x[i] = row;
            }
            if !changed {
                return x;
            }
        }
    };
    let mut z: Vec<u128> = bars.iter().map(|x| below(m) & !x).collect();
    loop {
        let before = z.clone();
        for &goal in &goals {
            let mut y = vec![0; n];
            loop {
                let old = y.clone();
                for &wait in &waits {
                    for (row, more) in y.iter_mut().zip(stay(&z, &old, goal, wait)) {
                        *row |= more;
                    }
                }
                if y == old {
                    break;
                }
            }
            z = y;
        }
        if z == before {
            return z;
        }
    }
}

/// The name, the game and the pairs that are barred.
type Case = (String, Game, Vec<u128>);

fn cases(r: &mut Random, n: usize) -> Vec<Case> {
    let mut cases = Vec::new();
    for (moves, least, degree) in [("0 to 2", 0, 3), ("1 to 3", 1, 3), ("4 to 7", 4, 4)] {
        for among in [3, 10, 50] {
            let (i, o) = (r.graph(n, least, degree), r.graph(n, least, degree));
            let g = game(i, o, r.requirement(n, 4));
            cases.push((format!("random, {moves} moves, 1 of {among}"), g, r.bars(n, among)));
        }
    }
    let waits = |s: usize| Set::of(s) | Set::of((s + 1) % n);
    let ring = |stay: bool| graph(n, |s| if stay { waits(s) } else { Set::of((s + 1) % n) });
    let line = graph(n, |s| Set::of(s) | Set::of((s + 1).min(n - 1)));
    let full = graph(n, |_| Set::from_bits(below(n)));
    let one = |a: Set, b: Set| {
        let mut q = Requirement { assumed: 1, guaranteed: 1, ..Requirement::default() };
        (q.assumptions[0], q.guarantees[0]) = (InSet(a), OutSet(b));
        q
    };
    let last = Set::of(n - 1);
    // the pair (0, 0) alone is barred, or with input s all outputs but s and those around it
    let corner: Vec<u128> = (0..n).map(|i| u128::from(i == 0)).collect();
    let near: Vec<u128> = (0..n).map(|i| below(n) & !(1 << i | 1 << ((i + 1) % n))).collect();
    // outputs by two: rest, and a step to the next rest, which is barred with all inputs but its own; the last rest leads back to the first
    let steps = graph(n, |o| if o % 2 == 0 { Set::of(o) | Set::of(o + 1) } else { Set::of((o + 1) % n) });
    let waiting = |own: fn(usize, usize) -> usize| -> Vec<u128> {
        (0..n).map(|i| (0..n / 2).fold(0, |x, s| x | u128::from(own(s, n) != i) << (2 * s + 1))).collect()
    };
    let (along, against, scattered) = (waiting(|s, _| 2 * s), waiting(|s, n| n - 1 - 2 * s), waiting(|s, n| 37 * s % n));
    let (first, step) = (Set::of(0), Set::of(1));
    for (name, g, bars) in [
        ("rings that wait, a corner", game(ring(true), ring(true), one(last, last)), &corner),
        ("rings in step, near", game(ring(false), ring(false), one(last, last)), &near),
        ("rings that wait, near", game(ring(true), ring(true), one(last, last)), &near),
        ("any input, a line, a corner", game(full, line, one(last, last)), &corner),
        ("any input, a ring that waits, a corner", game(full, ring(true), one(last, last)), &corner),
        ("a line, a ring that waits, a corner", game(line, ring(true), one(last, last)), &corner),
        ("a ring, steps wait along it", game(ring(false), steps, one(first, step)), &along),
        ("a ring, steps wait against it", game(ring(false), steps, one(first, step)), &against),
        ("a ring, steps wait scattered", game(ring(false), steps, one(first, step)), &scattered),
        ("a ring that waits, steps wait along it", game(ring(true), steps, one(first, step)), &along),
        ("a ring that waits, steps wait against it", game(ring(true), steps, one(first, step)), &against),
        ("a ring that waits, steps wait scattered", game(ring(true), steps, one(first, step)), &scattered),
    ] {
        cases.push((name.into(), g, bars.clone()));
    }
    cases
}

/// Games that cost much: steps that wait for their inputs, one after the other, almost a turn of the ring each.
fn corners(n: usize) -> Vec<Case> {
    let ring = |stay: bool| graph(n, |s| Set::of((s + 1) % n) | if stay { Set::of(s) } else { Set::default() });
    let steps = graph(n, |o| if o % 2 == 0 { Set::of(o) | Set::of(o + 1) } else { Set::of((o + 1) % n) });
    let waiting = |own: fn(usize, usize) -> usize| -> Vec<u128> {
        (0..n).map(|i| (0..n / 2).fold(0, |x, s| x | u128::from(own(s, n) != i) << (2 * s + 1))).collect()
    };
    let (countdown, against) = (waiting(|s, n| n - 1 - s), waiting(|s, n| n - 1 - 2 * s));
    let late = Set::from_bits(below(n) & !below(n - n / 8));
    let asks = |assumptions: &[Set], guarantees: &[Set]| {
        let mut q = Requirement { assumed: assumptions.len(), guaranteed: guarantees.len(), ..Requirement::default() };
        for (place, set) in q.assumptions.iter_mut().zip(assumptions) {
            *place = InSet(*set);
        }
        for (place, set) in q.guarantees.iter_mut().zip(guarantees) {
            *place = OutSet(*set);
        }
        q
    };
    let every = Set::from_bits(below(n));
    let quarters: Vec<Set> = (0..4).map(|k| Set::of(k * n / 4 + 1)).collect();
    [
        ("countdown: late steps, no input set", ring(false), asks(&[], &[late]), &countdown),
        ("countdown, a ring that waits", ring(true), asks(&[], &[late]), &countdown),
        ("steps against a ring, no input set", ring(false), asks(&[], &[Set::of(1)]), &against),
        ("steps against a ring, an input set of all", ring(false), asks(&[every], &[Set::of(1)]), &against),
        ("steps against a ring, four output sets", ring(false), asks(&[], &quarters), &against),
        ("steps against a ring that waits, four sets", ring(true), asks(&[every], &quarters), &against),
    ]
    .into_iter()
    .map(|(name, inputs, q, bars)| (name.to_string(), game(inputs, steps, q), bars.clone()))
    .collect()
}

fn words(rows: &[u128]) -> Vec<u64> {
    rows.iter().flat_map(|&x| [x as u64, (x >> 64) as u64]).collect()
}

fn main() {
    let mut r = Random(88_172_645_463_325_252);
    println!("{:<46} {:>5} {:>7} {:>10} {:>10} {:>7}", "game, microseconds a map", "size", "won", "ours", "plain", "times");
    for n in [64, STATES] {
        for (name, g, bars) in cases(&mut r, n) {
            let lent = Bars::from_words(words(&bars));
            let mut scratch = vec![0; BARRED_SCRATCH];
            let mut map = vec![0; SET_WORDS * n];
            g.barred_map_into(&lent, &mut scratch, &mut map).expect("a right game");
            let expected = plain(&g, &bars);
            assert_eq!(map, words(&expected), "{name}");
            let won: u32 = expected.iter().map(|x| x.count_ones()).sum();
            let ours = best(|| g.barred_map_into(&lent, black_box(&mut scratch), black_box(&mut map)).unwrap());
            let other = best(|| drop(black_box(plain(black_box(&g), black_box(&bars)))));
            println!("{name:<46} {n:>5} {won:>7} {:>10.0} {:>10.0} {:>7.2}", ours * 1e6, other * 1e6, ours / other);
        }
    }
    let sizes = [32, 64, STATES];
    println!("\n{:<46} {:>9} {:>9} {:>9} {:>14}", "corner, microseconds a map", sizes[0], sizes[1], sizes[2], "64 to 128");
    for k in 0..corners(sizes[0]).len() {
        let times = sizes.map(|n| {
            let (name, g, bars) = corners(n).swap_remove(k);
            let lent = Bars::from_words(words(&bars));
            let (mut scratch, mut map) = (vec![0; BARRED_SCRATCH], vec![0; SET_WORDS * n]);
            g.barred_map_into(&lent, &mut scratch, &mut map).expect("a right game");
            if n == sizes[0] {
                assert_eq!(map, words(&plain(&g, &bars)), "{name}");
            }
            best(|| g.barred_map_into(&lent, black_box(&mut scratch), black_box(&mut map)).unwrap()) * 1e6
        });
        let name = corners(sizes[0]).swap_remove(k).0;
        println!("{name:<46} {:>9.0} {:>9.0} {:>9.0} {:>14.1}", times[0], times[1], times[2], times[2] / times[1]);
    }
}
