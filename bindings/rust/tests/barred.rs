//! Map and verdict with bars beside a solver of another kind, made here: the play with two counters as a parity game of three priorities, solved by Zielonka's
//! recursion. Numbers and what is left in lent memory.
mod made;

use made::*;
use nanpuwiq::*;

// ---- the parity game

const SYSTEM: bool = true;

/// Owner, priority and moves of each node; every node has a move. The system wants the highest priority that returns for ever to be even.
struct Parity {
    owner: Vec<bool>,
    priority: Vec<u8>,
    next: Vec<Vec<usize>>,
    before: Vec<Vec<usize>>,
}

impl Parity {
    /// Adds to `won`, among the nodes that are in play, those from which the side can force a visit to it.
    fn attract(&self, play: &[bool], side: bool, won: &mut [bool]) {
        let mut todo: Vec<usize> = (0..won.len()).filter(|&v| won[v]).collect();
        while let Some(v) = todo.pop() {
            for &u in &self.before[v] {
                let forced = self.owner[u] == side || self.next[u].iter().all(|&w| !play[w] || won[w]);
                if play[u] && !won[u] && forced {
                    won[u] = true;
                    todo.push(u);
                }
            }
        }
    }

    /// The nodes in play that the system wins.
    fn system(&self, play: &[bool]) -> Vec<bool> {
        let n = play.len();
        let Some(top) = (0..n).filter(|&v| play[v]).map(|v| self.priority[v]).max() else {
            return vec![false; n];
        };
        let side = top % 2 == 0;
        let mut near: Vec<bool> = (0..n).map(|v| play[v] && self.priority[v] == top).collect();
        self.attract(play, side, &mut near);
        let rest: Vec<bool> = (0..n).map(|v| play[v] && !near[v]).collect();
        let inner = self.system(&rest);
        let mut lost: Vec<bool> = (0..n).map(|v| rest[v] && inner[v] != side).collect();
        if lost.iter().all(|&x| !x) {
            return if side { play.to_vec() } else { vec![false; n] };
        }
        self.attract(play, !side, &mut lost);
        let rest: Vec<bool> = (0..n).map(|v| play[v] && !lost[v]).collect();
        let inner = self.system(&rest);
        (0..n).map(|v| if lost[v] { !side } else { inner[v] }).collect()
    }
}

/// A game of one requirement, the barred pairs by input, and the nodes of its parity game: the panel's, (input, output, which input set and which output set is
/// waited for, priority), then the system's, then two ends.
struct Barred<'a> {
    g: &'a Game,
    bars: &'a [u128],
}

impl Barred<'_> {
    /// Values of the two counters; an empty list has a value too.
    fn waits(&self) -> (usize, usize) {
        let q = self.g.requirements[0];
        (q.assumed.max(1), q.guaranteed.max(1))
    }

    fn panels(&self) -> usize {
        let (a, b) = self.waits();
        self.g.input.states * self.g.output.states * a * b * 3
    }

    fn panel(&self, i: usize, o: usize, (a, b): (usize, usize), priority: u8) -> usize {
        let (most_a, most_b) = self.waits();
        (((i * self.g.output.states + o) * most_a + a) * most_b + b) * 3 + usize::from(priority)
    }

    /// The system is to answer input j.
    fn answer(&self, j: usize, o: usize, at: (usize, usize)) -> usize {
        self.panels() + self.panel(j, o, at, 0)
    }

    /// The pair (j, p) is entered: 2 where all output sets have been visited in turn, otherwise 1 where all input sets have been. An empty list has been visited.
    fn entered(&self, j: usize, p: usize, (a, b): (usize, usize)) -> usize {
        let q = self.g.requirements[0];
        let count = |n: usize, at: usize, visited: bool| match (n, visited) {
            (0, _) => (0, true),
            (_, false) => (at, false),
            _ => ((at + 1) % n, at + 1 == n),
        };
        let (a, assumed) = count(q.assumed, a, q.assumptions[a].0.has(j));
        let (b, guaranteed) = count(q.guaranteed, b, q.guarantees[b].0.has(p));
        self.panel(j, p, (a, b), if guaranteed { 2 } else { u8::from(assumed) })
    }

    fn parity(&self) -> Parity {
        let (g, panels) = (self.g, self.panels());
        let (n, kept, stopped) = (2 * panels + 2, 2 * panels, 2 * panels + 1);
        let mut game = Parity { owner: vec![!SYSTEM; n], priority: vec![0; n], next: vec![vec![]; n], before: vec![vec![]; n] };
        let (most_a, most_b) = self.waits();
        for i in 0..g.input.states {
            for o in 0..g.output.states {
                for at in (0..most_a).flat_map(|a| (0..most_b).map(move |b| (a, b))) {
                    for priority in 0..3 {
                        let v = self.panel(i, o, at, priority);
                        game.priority[v] = priority;
                        game.next[v] = g.input.moves[i].states().map(|j| self.answer(j, o, at)).collect();
                        if game.next[v].is_empty() {
                            game.next[v].push(kept);
                        }
                    }
                    let v = self.answer(i, o, at);
                    game.owner[v] = SYSTEM;
                    let allowed = g.output.moves[o].states().filter(|&p| self.bars[i] >> p & 1 == 0);
                    game.next[v] = allowed.map(|p| self.entered(i, p, at)).collect();
                    if game.next[v].is_empty() {
                        game.next[v].push(stopped);
                    }
                }
            }
        }
        // numbers that are no node's stay where they are
        for v in (panels..kept).filter(|v| (v - panels) % 3 != 0) {
            game.next[v].push(v);
        }
        game.next[kept].push(kept);
        game.priority[kept] = 2;
        game.next[stopped].push(stopped);
        game.priority[stopped] = 1;
        for v in 0..n {
            for &w in &game.next[v] {
                game.before[w].push(v);
            }
        }
        game
    }

    /// The won pairs that are not barred, by input.
    fn map(&self) -> Vec<u128> {
        let parity = self.parity();
        let won = parity.system(&vec![true; parity.owner.len()]);
        let marked = |i: usize, o: usize| self.bars[i] >> o & 1 == 0 && won[self.panel(i, o, (0, 0), 0)];
        (0..self.g.input.states).map(|i| (0..self.g.output.states).filter(|&o| marked(i, o)).fold(0, |x, o| x | 1 << o)).collect()
    }
}

/// Every initial input has an initial output that is marked with it.
fn opens(g: &Game, map: &[u128]) -> bool {
    g.input.initial.states().all(|i| g.output.initial.bits() & map[i] != 0)
}

// ---- the library's answers

fn lent(bars: &[u128]) -> Bars {
    Bars::from_words(bars.iter().flat_map(|&x| [x as u64, (x >> 64) as u64]).collect())
}

/// The library's map and verdict, with what scratch and the map's room must be left as.
fn answered(g: &Game, bars: &[u128]) -> (Vec<u128>, bool) {
    let (n, bars) = (SET_WORDS * g.input.states, lent(bars));
    let mut scratch = vec![u64::MAX; BARRED_SCRATCH + 3];
    let mut map = vec![5; n + 2];
    g.barred_map_into(&bars, &mut scratch, &mut map).unwrap();
    let left = |scratch: &[u64]| scratch[..BARRED_SCRATCH].iter().all(|&w| w == 0) && scratch[BARRED_SCRATCH..] == [u64::MAX; 3];
    assert!(left(&scratch) && map[n..] == [5, 5]);
    scratch.fill(u64::MAX);
    let wins = g.barred_verdict_in(&bars, &mut scratch).unwrap();
    assert!(left(&scratch));
    (map[..n].chunks(SET_WORDS).map(|x| u128::from(x[0]) | u128::from(x[1]) << 64).collect(), wins)
}

/// How many pairs are marked, of a game whose answers are those of the parity game.
fn compared(g: &Game, bars: &[u128]) -> u32 {
    let expected = Barred { g, bars }.map();
    assert_eq!(answered(g, bars), (expected.clone(), opens(g, &expected)), "{g:?} {bars:x?}");
    expected.iter().map(|x| x.count_ones()).sum()
}

// ---- games at random

struct Draw(u64);

impl Draw {
    fn below(&mut self, n: usize) -> usize {
        self.0 = self.0.wrapping_mul(6_364_136_223_846_793_005).wrapping_add(1_442_695_040_888_963_407);
        (self.0 >> 33) as usize % n
    }

    // Up to `size` of n states.
    fn states(&mut self, n: usize, size: usize) -> Set {
        (0..self.below(size + 1)).fold(Set::default(), |x, _| x | Set::of(self.below(n)))
    }

    // Some initial states; moves at random, with dead ends where `least` is 0, and in a third of the graphs each state may wait.
    fn graph(&mut self, n: usize) -> Graph {
        let (least, degree, waits) = (self.below(3).min(1), 1 + self.below(3), self.below(3) == 0);
        let mut g = Graph { states: n, initial: Set::of(self.below(n)) | self.states(n, 2), ..Graph::default() };
        for s in 0..n {
            for _ in 0..least + self.below(degree + 1) {
                g.moves[s] |= Set::of(self.below(n));
            }
            if waits {
                g.moves[s] |= Set::of(s);
            }
        }
        g
    }

    fn game(&mut self, inputs: usize, outputs: usize, k: usize) -> Game {
        let mut g = Game { input: self.graph(inputs), output: self.graph(outputs), k, ..Game::default() };
        for q in &mut g.requirements[..k] {
            (q.assumed, q.guaranteed) = (self.below(4), self.below(4));
            for a in &mut q.assumptions[..q.assumed] {
                *a = InSet(self.states(inputs, 3));
            }
            for b in &mut q.guarantees[..q.guaranteed] {
                *b = OutSet(self.states(outputs, 3));
            }
        }
        g
    }

    // One pair in `among` is barred; at least one is.
    fn bars(&mut self, g: &Game, among: usize) -> Vec<u128> {
        let mut bars = vec![0u128; g.input.states];
        for x in &mut bars {
            for o in 0..g.output.states {
                *x |= u128::from(self.below(among) == 0) << o;
            }
        }
        bars[self.below(g.input.states)] |= 1 << self.below(g.output.states);
        bars
    }
}

// Games of one requirement with bars: some pairs are won, some are not.
fn some_of_each(seed: u64, games: usize, most: usize) {
    let mut draw = Draw(seed);
    let (mut won, mut all) = (0, 0);
    for _ in 0..games {
        let (inputs, outputs) = (1 + draw.below(most), 1 + draw.below(most));
        let g = draw.game(inputs, outputs, 1);
        let among = 2 + draw.below(8);
        let bars = draw.bars(&g, among);
        won += compared(&g, &bars);
        all += (inputs * outputs) as u32;
    }
    assert!(0 < won && won < all, "{won} of {all} pairs are won");
}

#[test]
fn small_games_with_bars() {
    some_of_each(1, 12_000, 5);
}

#[test]
fn larger_games_with_bars() {
    some_of_each(2, 400, 12);
}

#[test]
fn games_of_over_64_states() {
    let mut draw = Draw(3);
    for (inputs, outputs) in [(65, 3), (3, 65), (128, 2), (2, 128), (1, 127), (100, 1), (9, 70), (70, 9)] {
        for among in [3, 20] {
            let g = draw.game(inputs, outputs, 1);
            let bars = draw.bars(&g, among);
            compared(&g, &bars);
        }
    }
}

#[test]
fn without_bars_they_are_map_and_verdict() {
    let mut draw = Draw(4);
    for round in 0..4_000 {
        let most = if round % 40 == 0 { STATES } else { 7 };
        let (inputs, outputs, k) = (1 + draw.below(most), 1 + draw.below(most), draw.below(REQUIREMENTS + 1));
        let g = draw.game(inputs, outputs, k);
        let (map, wins) = answered(&g, &vec![0; inputs]);
        let ours: Vec<u128> = g.won_map().unwrap().iter().map(|x| x.bits()).collect();
        assert_eq!((map, wins), (ours, g.solve().unwrap().winner == Winner::System), "{g:?}");
    }
}

// ---- games by hand

/// Two states, each free to stay or to change.
fn both() -> Graph {
    graph(&[0, 1], &[&[0, 1], &[0, 1]])
}

#[test]
fn empty_lists() {
    // No input sets: every play must visit the output sets. No output sets: the system must go on, and barred pairs are not marked.
    let stays = || graph(&[0], &[&[0]]);
    for (q, won) in [
        (requirement(&[], &[&[1]]), 0),
        (requirement(&[], &[&[0]]), 1),
        (requirement(&[], &[&[]]), 0),
        (requirement(&[&[]], &[&[]]), 1),
        (requirement(&[], &[]), 1),
        (requirement(&[&[0]], &[]), 1),
    ] {
        assert_eq!(answered(&made(stays(), both(), &[q]), &[0b10]), (vec![won], won == 1), "{q:?}");
    }
}

#[test]
fn bars_hold_at_the_start_and_later() {
    // Output 1 is barred with input 1: the play opens with 0 there, and 0 is the only reply.
    let turns = || graph(&[0, 1], &[&[1], &[0]]);
    let anything = [requirement(&[], &[])];
    assert_eq!(answered(&made(turns(), both(), &anything), &[0, 0b10]), (vec![0b11, 0b01], true));
    // Outputs that stay as they are: the pair (0, 1) is not barred, and the play has no reply from it.
    let kept = graph(&[0, 1], &[&[0], &[1]]);
    assert_eq!(answered(&made(turns(), kept, &anything), &[0, 0b10]), (vec![0b01, 0b01], true));
    // With the stuck input 1 the pair (1, 1) would be won, and it is barred.
    let stuck = graph(&[0, 1], &[&[1], &[]]);
    assert_eq!(answered(&made(stuck, both(), &anything), &[0, 0b10]), (vec![0b11, 0b01], true));
    // The start alone: both outputs are barred with the initial input 1.
    assert_eq!(answered(&made(turns(), both(), &anything), &[0, 0b11]), (vec![0, 0], false));
}

/// The games of examples/README.md, "Interlocks": run, announced, service; pump, slow, rest.
#[test]
fn the_right_to_wait_fails_with_bars() {
    let announced = Game::read(include_bytes!("../../../examples/service.game")).unwrap();
    assert_eq!(answered(&announced, &[0, 0, 0]), (vec![0b111; 3], true));
    // The panel goes on from run to announced and the drive waits in pump: from won to lost, though pump is not barred with announced.
    let (map, wins) = answered(&announced, &[0, 0, 0b011]);
    assert_eq!((&map[..], wins), (&[0b111, 0b110, 0b100][..], true));
    assert!(announced.input.moves[0].has(1) && announced.output.moves[0].has(0));
    compared(&announced, &[0, 0, 0b011]);
    let surprise = Game::read(include_bytes!("../../../examples/service_unannounced.game")).unwrap();
    assert_eq!(answered(&surprise, &[0, 0]), (vec![0b111; 2], true));
    assert_eq!(answered(&surprise, &[0, 0b011]), (vec![0, 0], false));
    compared(&surprise, &[0, 0b011]);
}

// ---- numbers

/// A game with no fault, and bars with none.
fn fine() -> (Game, Vec<u64>) {
    (made(both(), both(), &[requirement(&[&[1]], &[&[1]])]), vec![0b10, 0, 0, 0])
}

/// Both calls refuse with the number and leave all that is lent as it was.
fn refused(number: u8, g: &Game, bars: &[u64], words: usize, rows: usize) {
    let bars = Bars::from_words(bars.to_vec());
    let (mut scratch, mut map) = (vec![9; words], vec![9; rows]);
    assert_eq!(g.barred_map_into(&bars, &mut scratch, &mut map), Err(Error { number, place: 0 }));
    if words < BARRED_SCRATCH || number != 8 || rows >= SET_WORDS * g.input.states {
        assert_eq!(g.barred_verdict_in(&bars, &mut scratch), Err(Error { number, place: 0 }));
    }
    assert!(scratch.iter().chain(&map).all(|&w| w == 9));
}

#[test]
fn refusals() {
    let (g, bars) = fine();
    let long = BARRED_SCRATCH;
    assert!(g.barred_map_into(&Bars::from_words(bars.clone()), &mut vec![9; long], &mut [9; 4]).is_ok());
    // 8: scratch, the map, the bars, each a word short.
    refused(8, &g, &bars, long - 1, 4);
    refused(8, &g, &bars, long, 3);
    refused(8, &g, &bars[..3], long, 4);
    refused(8, &g, &[], 0, 0);
    // 28: a barred pair, and k is 0 or 2. No number without one.
    let none = Game { k: 0, requirements: Game::default().requirements, ..g };
    let two = Game { k: 2, ..g };
    for other in [none, two] {
        refused(28, &other, &bars, 0, 0);
        refused(28, &other, &bars[..1], long, 4);
        assert_eq!(answered(&other, &[0, 0]).0, other.won_map().unwrap().iter().map(|x| x.bits()).collect::<Vec<_>>());
        refused(8, &other, &[0, 0, 0], long, 4);
    }
    // 29: an output past the count, in either word of a set; an input past the count; also before 28 and in lists that are too short.
    for outside in [&[0b100, 0, 0, 0][..], &[0, 1, 0, 0], &[0, 0, 0, 1 << 63], &[0, 0, 0, 0, 1], &[0, 0, 0, 0, 0, 1 << 63], &[0b100], &[0, 1]] {
        refused(29, &g, outside, 0, 0);
        refused(29, &two, outside, 0, 0);
    }
    // The numbers of the game go before: 1, 2, 3, 5, 6, 7.
    let mut wrong = [g; 6];
    wrong[0].input.states = 0;
    wrong[1].output.moves[1] |= Set::of(2);
    wrong[2].input.initial = Set::default();
    wrong[3].k = 9;
    wrong[4].requirements[0].assumed = 5;
    wrong[5].requirements[0].guarantees[0] = OutSet(Set::of(2));
    for (g, number) in wrong.iter().zip([1, 2, 3, 5, 6, 7]) {
        refused(number, g, &[0b100], 0, 0);
    }
}

#[test]
fn words_past_the_inputs() {
    // Zero words past the inputs are read and say nothing; half a set at the end is read.
    let (g, bars) = fine();
    let expected = g.barred_map(&Bars::from_words(bars.clone())).unwrap();
    for more in 1..5 {
        let mut longer = bars.clone();
        longer.resize(bars.len() + more, 0);
        assert_eq!(g.barred_map(&Bars::from_words(longer.clone())).unwrap(), expected);
        *longer.last_mut().unwrap() = 1;
        refused(29, &g, &longer, 0, 0);
    }
}

#[test]
fn bars_of_pairs() {
    let (g, bars) = fine();
    assert_eq!(Bars::new(2, &[(InState(0), OutState(1))]).unwrap(), Bars::from_words(bars));
    assert_eq!(Bars::new(2, &[]), Bars::none(2));
    for count in [0, 129, 1 << 40, usize::MAX] {
        assert_eq!(Bars::none(count), Err(Error { number: 1, place: 0 }));
        assert_eq!(Bars::new(count, &[]), Err(Error { number: 1, place: 0 }));
    }
    for outside in [(InState(2), OutState(0)), (InState(0), OutState(STATES))] {
        assert_eq!(Bars::new(2, &[outside]), Err(Error { number: 29, place: 0 }));
    }
    let past = Bars::new(2, &[(InState(0), OutState(2))]).unwrap();
    assert_eq!(g.barred_map(&past), Err(Error { number: 29, place: 0 }));
    assert_eq!(g.barred_verdict(&past), Err(Error { number: 29, place: 0 }));
}
