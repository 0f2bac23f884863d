//! The map on the joined positions beside the won map: the two are worked out in different ways, and must be the same on every game that both accept.
mod made;

use made::*;
use nanpuwiq::*;

struct Draw(u64);

impl Draw {
    fn below(&mut self, n: usize) -> usize {
        self.0 = self.0.wrapping_mul(6_364_136_223_846_793_005).wrapping_add(1_442_695_040_888_963_407);
        (self.0 >> 33) as usize % n
    }

    // Up to `size` of n states.
    fn states(&mut self, n: usize, size: usize) -> Set {
        (0..self.below(size + 1)).fold(Set::default(), |x, _| x | Set::of(self.below(n)))
    }

    // From `least` moves on a state; with 0 there are dead ends.
    fn any(&mut self, n: usize, least: usize, degree: usize) -> Graph {
        let mut g = Graph { states: n, initial: Set::of(0), ..Graph::default() };
        for s in 0..n {
            for _ in 0..least + self.below(degree + 1) {
                g.moves[s] |= Set::of(self.below(n));
            }
        }
        g
    }

    // A ring of n states in a random order; with `more`, some further moves.
    fn ring(&mut self, n: usize, more: usize) -> Graph {
        let mut order: Vec<usize> = (0..n).collect();
        for k in (1..n).rev() {
            order.swap(k, self.below(k + 1));
        }
        let mut g = Graph { states: n, initial: Set::of(0), ..Graph::default() };
        for k in 0..n {
            g.moves[order[k]] |= Set::of(order[(k + 1) % n]);
        }
        for _ in 0..more {
            g.moves[self.below(n)] |= Set::of(self.below(n));
        }
        g
    }

    // Moves to higher states alone, and to the state itself where `stay`.
    fn forward(&mut self, n: usize, degree: usize, stay: bool) -> Graph {
        let mut g = Graph { states: n, initial: Set::of(0), ..Graph::default() };
        for s in 0..n {
            for _ in 0..self.below(degree + 1) {
                if s + 1 < n {
                    g.moves[s] |= Set::of(s + 1 + self.below(n - s - 1));
                }
            }
            if stay && self.below(2) > 0 {
                g.moves[s] |= Set::of(s);
            }
        }
        g
    }

    // Rings of lengths that divide n, next to each other, with moves from one to a later one: components with periods of their own.
    fn rings(&mut self, n: usize) -> Graph {
        let mut g = Graph { states: n, initial: Set::of(0), ..Graph::default() };
        let mut from = 0;
        while from < n {
            let length = 1 + self.below((n - from).min(6));
            for k in 0..length {
                g.moves[from + k] |= Set::of(from + (k + 1) % length);
                if from + length < n && self.below(3) == 0 {
                    g.moves[from + k] |= Set::of(from + length + self.below(n - from - length));
                }
            }
            from += length;
        }
        g
    }

    fn graph(&mut self, most: usize) -> Graph {
        let n = 1 + self.below(most);
        match self.below(8) {
            0 => self.any(n, 1, 2),
            1 => self.any(n, 0, 2),
            2 => self.any(n, 1, n),
            3 => self.ring(n, 0),
            4 => self.ring(n, 2),
            5 => self.forward(n, 3, false),
            6 => self.forward(n, 3, true),
            _ => self.rings(n),
        }
    }

    fn required(&mut self, input: Graph, output: Graph, most: usize) -> Game {
        let mut g = Game { input, output, k: self.below(most + 1), ..Game::default() };
        for q in &mut g.requirements[..g.k] {
            (q.assumed, q.guaranteed) = (self.below(3), self.below(4));
            for a in &mut q.assumptions[..q.assumed] {
                *a = InSet(self.states(input.states, 4));
            }
            for b in &mut q.guarantees[..q.guaranteed] {
                *b = OutSet(self.states(output.states, 4));
            }
        }
        g
    }
}

// Whether the two maps are the same, scratch and the map's room are left as promised, and how many positions are won.
fn compared(g: &Game) -> u32 {
    let n = g.input.states;
    let mut scratch = vec![u64::MAX; JOINED_SCRATCH + 3];
    let mut map = vec![5; SET_WORDS * n + 2];
    g.joined_map_into(&mut scratch, &mut map).unwrap();
    let words: Vec<u64> = g.won_map().unwrap().iter().flat_map(|x| [x.low, x.high]).collect();
    assert_eq!(map[..SET_WORDS * n], words, "{g:?}");
    assert_eq!(map[SET_WORDS * n..], [5, 5]);
    assert!(scratch[..JOINED_SCRATCH].iter().all(|&w| w == 0) && scratch[JOINED_SCRATCH..] == [u64::MAX; 3]);
    map[..SET_WORDS * n].iter().map(|w| w.count_ones()).sum()
}

// Compares games and sees that of all their positions some are won and some are not.
fn some_of_each(games: impl Iterator<Item = Game>) {
    let (mut won, mut all) = (0, 0);
    for g in games {
        won += compared(&g);
        all += (g.input.states * g.output.states) as u32;
    }
    assert!(0 < won && won < all, "{won} of {all} positions are won");
}

// Case 6: the output commits too early. Case 7: it may wait.
fn fork(first: &[usize]) -> Game {
    made(
        graph(&[0], &[&[1], &[2, 3], &[2], &[3]]),
        graph(&[0], &[first, &[1], &[2]]),
        &[requirement(&[&[2]], &[&[1]]), requirement(&[&[3]], &[&[2]])],
    )
}

#[test]
fn cases_6_and_7() {
    assert_eq!(fork(&[1, 2]).joined_map().unwrap(), [0b000, 0b001, 0b011, 0b101].map(Set::from_bits));
    assert_eq!(fork(&[0, 1, 2]).joined_map().unwrap(), [0b001, 0b001, 0b011, 0b101].map(Set::from_bits));
}

#[test]
fn games_at_random() {
    let mut draw = Draw(1);
    some_of_each((0..20_000).map(|_| {
        let (i, o) = (draw.graph(9), draw.graph(9));
        draw.required(i, o, 3)
    }));
    some_of_each((0..300).map(|_| {
        let (i, o) = (draw.graph(JOINED_STATES), draw.graph(JOINED_STATES));
        draw.required(i, o, 8)
    }));
}

#[test]
fn rings_of_all_lengths() {
    let mut draw = Draw(2);
    some_of_each((1..=12).flat_map(|i| (1..=12).map(move |o| (i, o))).flat_map(|(i, o)| {
        let (i, o) = (draw.ring(i, 0), draw.ring(o, 0));
        [draw.required(i, o, 2), draw.required(i, o, 2), draw.required(i, o, 2)]
    }));
    // One component of 992 positions, and 32 components of 32.
    for (i, o) in [(31, 32), (32, 31), (32, 32)] {
        let (i, o) = (draw.ring(i, 0), draw.ring(o, 0));
        compared(&draw.required(i, o, 8));
    }
}

#[test]
fn equal_rings_are_not_one_component() {
    // Two rings of two in step: the requirement is judged on both phases, which are components of their own, and both are won or lost alike.
    let ring = || graph(&[0], &[&[1], &[0]]);
    assert_eq!(made(ring(), ring(), &[requirement(&[&[0]], &[&[1]])]).joined_map().unwrap(), [3, 3].map(Set::from_bits));
    assert_eq!(made(ring(), ring(), &[requirement(&[&[0]], &[&[]])]).joined_map().unwrap(), [0, 0].map(Set::from_bits));
}

#[test]
fn dead_ends_on_both_sides() {
    // Input 1 is stuck, output 1 is stuck: (0, 0) moves on, (1, any) is won, (0, 1) is lost.
    let g = made(graph(&[0], &[&[0, 1], &[]]), graph(&[0], &[&[0, 1], &[]]), &[]);
    assert_eq!(g.joined_map().unwrap(), [1, 3].map(Set::from_bits));
    // A lone position that is no play's end is judged by its replies alone: from (0, 0) the play must enter (1, 0), where a requirement fails.
    let g = made(graph(&[0], &[&[1], &[1]]), graph(&[0], &[&[0]]), &[requirement(&[], &[&[]])]);
    assert_eq!(g.joined_map().unwrap(), [0, 0].map(Set::from_bits));
}

#[test]
fn refusals() {
    let fine = fork(&[1, 2]);
    let wide = |i, o| Game { input: Draw(3).ring(i, 0), output: Draw(4).ring(o, 0), ..Game::default() };
    let mut many = wide(33, 1);
    many.k = 9;
    let mut wider = many;
    wider.output.states = 129;
    let long = JOINED_SCRATCH;
    for (number, g, words, rows) in [
        (24, wide(33, 1), long, 66),
        (24, wide(1, 33), long, 2),
        (24, wide(128, 128), 0, 0),
        (5, many, 0, 0),
        (1, wider, 0, 0),
        (8, fine, long - 1, 8),
        (8, fine, long, 7),
        (8, fine, 0, 0),
    ] {
        let mut scratch = vec![9; words];
        let mut map = vec![9; rows];
        assert_eq!(g.joined_map_into(&mut scratch, &mut map), Err(Error { number, place: 0 }));
        assert!(scratch.iter().chain(&map).all(|&w| w == 9));
    }
    assert_eq!(wide(32, 32).joined_map().unwrap(), wide(32, 32).won_map().unwrap());
}
