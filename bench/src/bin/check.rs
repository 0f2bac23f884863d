//! The checker of tables beside a plain one in Rust, Tarjan's components for each requirement and output set, in one run: tables at the limit.
//!
//!     cargo run --release --offline --manifest-path bench/Cargo.toml --bin check
#[path = "../measure.rs"]
#[allow(dead_code)] // the loops that a table's time is compared with
mod measure;

use measure::best;
use nanpuwiq::{Checked, Game, Graph, InSet, OutSet, Requirement, Set, Winner, CHECKED_PLACES, NONE, STATES, WALK_ROOM};
use std::hint::black_box;

fn graph(n: usize, initial: u128, moves: impl Fn(usize) -> u128) -> Graph {
    let mut g = Graph { states: n, initial: Set::from_bits(initial), ..Graph::default() };
    for s in 0..n {
        g.moves[s] = Set::from_bits(moves(s));
    }
    g
}

/// The set of all states below n.
fn all(n: usize) -> u128 {
    (0..n).fold(0, |x, s| x | 1 << s)
}

/// `sets` output sets in all, four a requirement; each requirement has the input sets given.
fn requirements(sets: usize, assumptions: &[u128], guarantee: impl Fn(usize) -> u128) -> Vec<Requirement> {
    let mut made = Vec::new();
    for first in (0..sets).step_by(4) {
        let mut q = Requirement { assumed: assumptions.len(), guaranteed: (sets - first).min(4), ..Requirement::default() };
        for (place, &x) in q.assumptions.iter_mut().zip(assumptions) {
            *place = InSet(Set::from_bits(x));
        }
        for b in 0..q.guaranteed {
            q.guarantees[b] = OutSet(Set::from_bits(guarantee(first + b)));
        }
        made.push(q);
    }
    made
}

fn counters(game: &Game) -> usize {
    game.requirements.iter().map(|q| q.guaranteed).sum::<usize>().max(1)
}

/// A table from the reply to each output, counter and next input; every start is output 0, counter 0.
fn table(game: &Game, reply: impl Fn(usize, usize, usize) -> (usize, usize)) -> Vec<u16> {
    let (inputs, counters) = (game.input.states, counters(game));
    let mut entries = vec![0; inputs];
    for row in 0..inputs * game.output.states * counters {
        let (output, counter) = reply(row / inputs / counters, row / inputs % counters, row % inputs);
        entries.push((output + STATES * counter) as u16);
    }
    entries
}

/// The plain checker. It has no walk to hand back.
struct Plain {
    inputs: usize,
    counters: usize,
    to: Vec<u16>,
    reached: Vec<bool>,
}

impl Plain {
    fn wins(game: &Game, table: &[u16]) -> bool {
        let (inputs, counters) = (game.input.states, counters(game));
        let places = inputs * game.output.states * counters;
        let place = |entry: u16, allowed: Set, input: usize| {
            let (state, counter) = (usize::from(entry) % STATES, usize::from(entry) / STATES);
            let legal = entry != NONE && allowed.has(state) && counter < counters;
            if legal { ((state * counters + counter) * inputs + input) as u16 } else { u16::MAX }
        };
        let rows = 0..places;
        let to = rows.map(|r| place(table[inputs + r], game.output.moves[r / inputs / counters], r % inputs)).collect();
        let mut plain = Plain { inputs, counters, to, reached: vec![false; places] };
        let mut open = Vec::new();
        for i in (0..inputs).filter(|i| game.input.initial.has(*i)) {
            match place(table[i], game.output.initial, i) {
                u16::MAX => return false,
                first => plain.find(first, &mut open),
            }
        }
        while let Some(at) = open.pop() {
            let mut moves = game.input.moves[at % inputs].bits();
            while moves != 0 {
                let next = plain.to[at / inputs * inputs + moves.trailing_zeros() as usize];
                if next == u16::MAX {
                    return false;
                }
                plain.find(next, &mut open);
                moves &= moves - 1;
            }
        }
        let pair = |q: &Requirement| q.guarantees[..q.guaranteed].iter().all(|set| !plain.breaks(game, q, set.0));
        game.requirements[..game.k].iter().all(pair)
    }

    fn find(&mut self, place: u16, open: &mut Vec<usize>) {
        let place = usize::from(place);
        if !std::mem::replace(&mut self.reached[place], true) {
            open.push(place);
        }
    }

    /// Tarjan's components of the reached places outside the set: does one with a turn inside visit every assumption?
    fn breaks(&self, game: &Game, q: &Requirement, missed: Set) -> bool {
        let (inputs, places) = (self.inputs, self.to.len());
        let inside = |p: usize| self.reached[p] && !missed.has(p / inputs / self.counters);
        let (mut number, mut low) = (vec![0u32; places], vec![0u32; places]);
        let mut closed = vec![false; places];
        let (mut count, mut parts) = (0, Vec::new());
        let mut path: Vec<(usize, u128)> = Vec::new();
        for root in 0..places {
            if !inside(root) || number[root] != 0 {
                continue;
            }
            count += 1;
            (number[root], low[root]) = (count, count);
            parts.push(root);
            path.push((root, game.input.moves[root % inputs].bits()));
            while let Some((at, moves)) = path.pop() {
                if moves != 0 {
                    path.push((at, moves & (moves - 1)));
                    let next = usize::from(self.to[at / inputs * inputs + moves.trailing_zeros() as usize]);
                    if !inside(next) {
                        continue;
                    }
                    if number[next] == 0 {
                        count += 1;
                        (number[next], low[next]) = (count, count);
                        parts.push(next);
                        path.push((next, game.input.moves[next % inputs].bits()));
                    } else if !closed[next] {
                        low[at] = low[at].min(number[next]);
                    }
                    continue;
                }
                if let Some(&(before, _)) = path.last() {
                    low[before] = low[before].min(low[at]);
                }
                if low[at] == number[at] {
                    let first = parts.iter().rposition(|p| *p == at).expect("it is there");
                    let part = parts.split_off(first);
                    let mut visited = 0;
                    for &p in &part {
                        closed[p] = true;
                        visited |= 1u128 << (p % inputs);
                    }
                    let own = usize::from(self.to[at]) == at && game.input.moves[at % inputs].has(at % inputs);
                    if (part.len() > 1 || own) && q.assumptions[..q.assumed].iter().all(|set| set.0.bits() & visited != 0) {
                        return true;
                    }
                }
            }
        }
        false
    }
}

type Named = (String, Game, Vec<u16>);

/// Ours, and the same with two kinds of damage: a counter that never moves on, and a row that the first configuration needs and that is none.
fn ours(tables: &mut Vec<Named>, name: &str, game: Game) {
    let verdict = game.solve().expect("an accepted game");
    assert_eq!(verdict.winner, Winner::System, "{name}");
    let stopped = verdict.table.iter().map(|e| if *e == NONE { NONE } else { *e % STATES as u16 }).collect();
    let mut missing = verdict.table.clone();
    let (first, next) = (usize::from(missing[0]) % STATES, game.input.moves[0].bits().trailing_zeros() as usize);
    missing[game.input.states + first * counters(&game) * game.input.states + next] = NONE;
    tables.push((format!("{name}, ours"), game, verdict.table));
    tables.push((format!("{name}, counter stopped"), game, stopped));
    tables.push((format!("{name}, a row missing"), game, missing));
}

fn at_the_limit() -> Vec<Named> {
    let mut tables = Vec::new();
    for (n, sets) in [(64, 1), (32, 4), (16, 16)] {
        let full = graph(n, 1, |_| all(n));
        let game = Game::new(full, full, &requirements(sets, &[1, 2], |b| 1 << (b % n))).expect("accepted");
        ours(&mut tables, &format!("complete, {n} x {n}, {sets} sets"), game);
        let ring = graph(n, 1, |s| 1 << s | 1 << ((s + 1) % n));
        let game = Game::new(ring, ring, &requirements(sets, &[1, 2], |b| 1 << (b % n))).expect("accepted");
        ours(&mut tables, &format!("rings, {n} x {n}, {sets} sets"), game);
    }
    // 32 output sets that are all missed, complete inputs, one input set that is never visited in the last component
    let (inputs, outputs) = (64, 2);
    let input = graph(inputs, 1, |_| all(inputs));
    let output = graph(outputs, 1, |_| all(outputs));
    let game = Game::new(input, output, &requirements(32, &[0], |_| 0)).expect("accepted");
    tables.push(("complete inputs, 32 sets missed".into(), game, table(&game, |o, g, j| ((o + j) % 2, (g + j) % 32))));
    // inputs that move to themselves and to all later ones: a component for each input, and nothing is found
    let input = graph(inputs, 1, |s| all(inputs) & !all(s));
    let game = Game::new(input, output, &requirements(32, &[1, 1 << (inputs - 1)], |_| 0)).expect("accepted");
    tables.push(("inputs forward, 32 sets missed".into(), game, table(&game, |o, g, j| ((o + j) % 2, (g + 1) % 32))));
    // a chain of places with a turn to themselves, alternating two input sets, for each of 32 output sets that its end alone visits
    for (name, downward) in [("chain of self-loops, up", false), ("chain of self-loops, down", true)] {
        let (inputs, outputs) = (8, 16);
        let step = |s: usize| if downward { (s + inputs - 1) % inputs } else { (s + 1) % inputs };
        let first = if downward { inputs - 1 } else { 0 };
        let input = graph(inputs, 1 << first, |s| 1 << s | 1 << step(s));
        let output = graph(outputs, 1, |_| all(outputs));
        let alternating = |k: usize| (0..inputs).filter(|s| s % 2 == k).fold(0, |x, s| x | 1 << s);
        let sets = requirements(32, &[alternating(0), alternating(1)], |_| 1 << (outputs - 1));
        let game = Game::new(input, output, &sets).expect("accepted");
        // the row of the first input leads on to the next counter and output: no turn there leads back
        let reply = |o: usize, g: usize, j: usize| match (j == first, g + 1 < 32, o + 1 < outputs) {
            (false, _, _) => (o, g),
            (true, true, _) => (o, g + 1),
            (true, false, true) => (o + 1, 0),
            (true, false, false) => (o, g),
        };
        tables.push((name.into(), game, table(&game, reply)));
    }
    tables
}

fn main() {
    println!("{:<46} {:>10} {:>12} {:>12} {:>8}", "table, microseconds a check", "answer", "ours", "plain", "times");
    let mut room = vec![0; WALK_ROOM];
    for (name, game, table) in at_the_limit() {
        assert!(table.len() - game.input.states <= CHECKED_PLACES);
        let checked = game.check_into(&table, &mut room).expect("no number");
        assert_eq!(checked == Checked::Wins, Plain::wins(&game, &table), "{name}");
        let ours = best(|| {
            let _ = black_box(game.check_into(black_box(&table), black_box(&mut room)));
        });
        let plain = best(|| {
            black_box(Plain::wins(black_box(&game), black_box(&table)));
        });
        let answer = if checked == Checked::Wins { "wins" } else { "does not" };
        println!("{name:<46} {answer:>10} {:>12.1} {:>12.1} {:>8.1}", ours * 1e6, plain * 1e6, ours / plain);
    }
}
