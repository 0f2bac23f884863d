//! The games that are measured.
use nanpuwiq::{Game, Graph, InSet, OutSet, Requirement, Set, Winner, STATES};

type Named = (String, Game);

/// The set of the states from a to below b.
fn range(a: usize, b: usize) -> u128 {
    (a..b).fold(0, |x, s| x | 1 << s)
}

/// A graph of n states, from the set of moves of each.
fn graph(n: usize, initial: u128, moves: impl Fn(usize) -> u128) -> Graph {
    let mut g = Graph { states: n, initial: Set::from_bits(initial), ..Graph::default() };
    for s in 0..n {
        g.moves[s] = Set::from_bits(moves(s));
    }
    g
}

/// States 0 to n - 1 in a circle.
fn circle(n: usize) -> Graph {
    graph(n, 1, |s| 1 << ((s + 1) % n))
}

/// A requirement from numbers of sets.
fn requirement(assumptions: &[u128], guarantees: &[u128]) -> Requirement {
    let mut q = Requirement { assumed: assumptions.len(), guaranteed: guarantees.len(), ..Requirement::default() };
    for (place, &x) in q.assumptions.iter_mut().zip(assumptions) {
        *place = InSet(Set::from_bits(x));
    }
    for (place, &x) in q.guarantees.iter_mut().zip(guarantees) {
        *place = OutSet(Set::from_bits(x));
    }
    q
}

/// The records of lists, which are right.
fn listed(initial: &[usize], moves: &[&[usize]]) -> Graph {
    Graph::new(initial, moves).expect("a right graph")
}

fn required(assumptions: &[&[usize]], guarantees: &[&[usize]]) -> Requirement {
    Requirement::new(assumptions, guarantees).expect("a right requirement")
}

fn game(input: Graph, output: Graph, requirements: &[Requirement]) -> Game {
    Game::new(input, output, requirements).expect("the games here are accepted")
}

/// Eight requirements of four sets each on both sides: set number a of all 32.
fn full(assumption: impl Fn(usize) -> u128, guarantee: impl Fn(usize) -> u128) -> Vec<Requirement> {
    (0..8)
        .map(|r| {
            let sets = [4 * r, 4 * r + 1, 4 * r + 2, 4 * r + 3];
            requirement(&sets.map(&assumption), &sets.map(&guarantee))
        })
        .collect()
}

/// "Drives to try", cases 1 to 8.
fn drives() -> Vec<Named> {
    let two = listed(&[0], &[&[0, 1], &[0, 1]]);
    let one = listed(&[0], &[&[0]]);
    let single = |q: &[Requirement]| game(one, one, q);
    let fork = listed(&[0], &[&[1], &[2, 3], &[2], &[3]]);
    let branches = [required(&[&[2]], &[&[1]]), required(&[&[3]], &[&[2]])];
    let each = |s: usize| required(&[&[s]], &[&[s]]);
    let games = [
        game(two, two, &[required(&[&[1]], &[&[1]])]),
        single(&[]),
        single(&[required(&[&[0]], &[&[]])]),
        single(&[required(&[], &[&[]])]),
        single(&[required(&[&[]], &[&[]])]),
        game(fork, listed(&[0], &[&[1, 2], &[1], &[2]]), &branches),
        game(fork, listed(&[0], &[&[0, 1, 2], &[1], &[2]]), &branches),
        game(
            listed(&[0], &[&[1, 2], &[1], &[2]]),
            listed(&[0], &[&[1, 2], &[0], &[2]]),
            &[each(0), each(1), each(2)],
        ),
    ];
    games.into_iter().enumerate().map(|(k, g)| (format!("case {}", k + 1), g)).collect()
}

/// The multi-mode hardware of source document 000, section 8: the target (input) moves from mode 0 to any mode and stays there; the adaptee
/// (output) moves from mode 0 to the odd modes only, and up and down between modes 2i and 2i + 1. For each mode: if the target's recurs, the
/// adaptee's does. With one requirement a mode, 8 modes are the most.
fn modes(n: usize) -> Named {
    let target = graph(n, 1, |s| if s == 0 { range(0, n) } else { 1 << s });
    let odd = (0..n).filter(|s| s % 2 == 1).fold(0, |x, s| x | 1 << s);
    let adaptee = graph(n, 1, |s| if s == 0 { odd } else { 1 << (s ^ 1) });
    let each: Vec<Requirement> = (0..n).map(|s| requirement(&[1 << s], &[1 << s])).collect();
    (format!("modes {n}"), game(target, adaptee, &each))
}

/// Marsaglia's xorshift on 64 bits.
struct Random(u64);

impl Random {
    fn below(&mut self, n: usize) -> usize {
        self.0 ^= self.0 << 13;
        self.0 ^= self.0 >> 7;
        self.0 ^= self.0 << 17;
        (self.0 >> 16) as usize % n
    }

    fn set(&mut self, n: usize, size: usize) -> u128 {
        (0..size).fold(0, |x, _| x | 1 << self.below(n))
    }

    /// Graphs of n states with up to `degree` moves each, and 32 sets of up to `size` states on either side.
    fn game(&mut self, n: usize, degree: usize, size: usize) -> Game {
        let mut draw = |_| {
            let mut g = Graph { states: n, initial: Set::of(0), ..Graph::default() };
            for s in 0..n {
                let k = 1 + self.below(degree);
                g.moves[s] = Set::from_bits(self.set(n, k));
            }
            g
        };
        let (input, output) = (draw(0), draw(1));
        let sets: Vec<(u128, u128)> = (0..32).map(|_| (self.set(n, size), self.set(n, size))).collect();
        game(input, output, &full(|a| sets[a].0, |a| sets[a].1))
    }
}

/// Random games of n states a graph: the first that the system wins, and the first that the environment wins.
fn random(n: usize) -> [Named; 2] {
    [(Winner::System, "system"), (Winner::Environment, "environment")].map(|(winner, name)| {
        let mut r = Random(88_172_645_463_325_252);
        let wins = |g: &Game| g.solve().expect("random games are accepted").winner == winner;
        let g = std::iter::repeat_with(|| r.game(n, 3, n / 4)).find(wins).expect("each side wins some");
        (format!("random {n} {name}"), g)
    })
}

/// The subsets of 8 that have 4 members, 70 in all: none contains another.
fn quartets() -> Vec<u64> {
    (0u64..256).filter(|x| x.count_ones() == 4).collect()
}

/// Games of the largest size, made to be slow.
fn worst() -> Vec<Named> {
    let n = 64;
    let whole = range(0, n);
    let mut all = Vec::new();
    let mut add = |name: &str, g: Game| all.push((format!("worst {name}"), g));
    // Both graphs circles: one home, 32 goals of one state, ways of up to 63 moves.
    add("one home", game(circle(n), circle(n), &full(|a| 1 << (2 * a), |a| 1 << (2 * a))));
    // Both graphs go down from 63, and may stay: 64 components each. Requirement r is due in the inputs whose quartet has r, and met at the outputs
    // whose quartet has r: input j has the single home j, which outputs above it reach in up to 63 moves.
    let down = graph(n, 1 << 63, |s| 1 << s | if s == 0 { 0 } else { 1 << (s - 1) });
    let quartet = quartets();
    let due = |a: usize| (0..n).filter(|&d| quartet[d] >> (a / 4) & 1 == 1).fold(0, |x, d| x | 1 << d);
    add("many homes", game(down, down, &full(due, due)));
    // The same with every output above its home one move away.
    let far = graph(n, 1 << 63, |s| range(0, s + 1));
    add("many homes, near", game(down, far, &full(due, due)));
    // Inputs in a circle of 63, left for input 63 from one of them; there no guarantee is ever met. A way out of up to 62 moves for every output.
    let exit = graph(n, 1, |s| match s {
        0 => 1 << 1 | 1 << 63,
        62 => 1,
        63 => 1 << 63,
        s => 1 << (s + 1),
    });
    add("way out", game(exit, circle(n), &full(|_| 1 << 63, |_| 0)));
    // Inputs in a circle past 32 assumptions of one state, with no output set ever visited.
    add("environment's tour", game(circle(n), circle(n), &full(|a| 1 << (2 * a), |_| 0)));
    // As the way out, with 31 circles of two inputs: each is a component of its own with its own way out.
    let pairs = graph(n, 1, |s| match s {
        62 | 63 => 1 << 63,
        s if s % 2 == 0 => 1 << (s + 1),
        s => 1 << (s - 1) | 1 << 63 | if s < 61 { 1 << (s + 1) } else { 0 },
    });
    add("ways out of pairs", game(pairs, circle(n), &full(|_| 1 << 63, |_| 0)));
    // Inputs 0 to 30 move to all of 31 to 63; 31 to 62 stay and are won from output 63 alone; 63 stays and is never won. Outputs 0 to 31 move to all
    // of 32 to 63, which stay. For an input below 31 every move but the last has a won reply, which is the last.
    let heavy = graph(n, 1, |s| if s < 31 { range(31, 64) } else { 1 << s });
    let light = graph(n, 1, |s| if s < 32 { range(32, 64) } else { 1 << s });
    let mut q = full(|_| range(31, 63), |_| 1 << 63);
    for r in q.iter_mut().take(4) {
        *r = requirement(&[1 << 63; 4], &[0; 4]);
    }
    add("late replies", game(heavy, light, &q));
    // Every move and every set there is: the densest rows.
    add("dense", game(graph(n, whole, |_| whole), graph(n, whole, |_| whole), &full(|_| whole, |_| whole)));
    all
}

/// Upward: state s stays or goes to the next one.
fn up(n: usize) -> Graph {
    graph(n, 1, |s| 1 << s | 1 << (s + 1).min(n - 1))
}

/// States in circles of two, one pair after the other; from the second of a pair the next pair can be entered.
fn pairs(n: usize) -> Graph {
    graph(n, 1, |s| if s % 2 == 0 { 1 << (s + 1) } else { 1 << (s - 1) | 1 << (s + 1).min(n - 1) })
}

/// Games of n states a graph whose time a plain count of entries does not foretell, most with small tables.
fn families(n: usize) -> Vec<Named> {
    let mut all = Vec::new();
    let mut add = |name: &str, g: Game| all.push((format!("{n}: {name}"), g));
    // every output is its own home, and nothing is ever due
    add("ladder", game(up(n), up(n), &full(|_| 0, |_| 0)));
    add("ladder, no sets", game(up(n), up(n), &[]));
    add("chain of pairs, no sets", game(pairs(n), pairs(n), &[]));
    // Inputs in a circle, each with a way out to a state of its own, which stays. Of those every eighth makes one requirement due, and every eighth output
    // does not meet it: so the ways out change with each output.
    let half = n / 2;
    let gates = graph(n, 1, |s| if s < half { 1 << ((s + 1) % half) | 1 << (half + s) } else { 1 << s });
    let stays = graph(n, range(0, n), |s| 1 << s);
    let every = |from: usize, r: usize| (from..n).filter(|s| s % 8 == r).fold(0, |x, s| x | 1 << s);
    let turns = full(|a| every(half, a / 4), |a| range(0, n) & !every(0, a / 4));
    add("gates by turns", game(gates, stays, &turns));
    add("gates by turns, one set each", game(gates, stays, &turns.iter().map(one_each).collect::<Vec<_>>()));
    let mut r = Random(88_172_645_463_325_252);
    for (name, least) in [("random, four sets", 1), ("random, four sets, latching", 0)] {
        let draw = |r: &mut Random| {
            let rows: Vec<u128> = (0..n)
                .map(|_| {
                    let k = least + r.below(3);
                    r.set(n, k)
                })
                .collect();
            graph(n, 1, |s| rows[s])
        };
        let (input, output) = (draw(&mut r), draw(&mut r));
        let few = [requirement(&[r.set(n, 4), r.set(n, 4)], &[r.set(n, n / 4), r.set(n, n / 4)]); 2];
        add(name, game(input, output, &few));
    }
    all
}

/// The requirement with its first sets alone.
fn one_each(q: &Requirement) -> Requirement {
    requirement(&[bits(q.assumptions[0].0)], &[bits(q.guarantees[0].0)])
}

fn bits(x: Set) -> u128 {
    x.states().fold(0, |x, s| x | 1 << s)
}

/// The cleaning robots of source document 000, section 4.1: both go along a corridor of rooms and clean some; the second is to clean those that the first
/// left. A state is the rooms passed and which of them are clean. Two requirements a room, so four rooms are the most.
fn cleaning(rooms: usize) -> Named {
    let states: Vec<(usize, u32)> = (0..=rooms).flat_map(|p| (0..1 << p).map(move |clean| (p, clean))).collect();
    let number = |at: (usize, u32)| states.iter().position(|s| *s == at).expect("a state");
    let robot = graph(states.len(), 1, |s| match states[s] {
        at if at.0 == rooms => 1 << s,
        (p, clean) => 1 << number((p + 1, clean)) | 1 << number((p + 1, clean | 1 << p)),
    });
    let done = |fits: &dyn Fn(u32) -> bool| (0..states.len()).filter(|s| states[*s].0 == rooms && fits(states[*s].1)).fold(0, |x, s| x | 1 << s);
    let mut each = Vec::new();
    for room in 0..rooms {
        let (clean, left) = (done(&|c| c >> room & 1 == 1), done(&|c| c >> room & 1 == 0));
        each.extend([requirement(&[clean | left, left], &[clean]), requirement(&[clean | left, clean], &[left])]);
    }
    (format!("cleaning {rooms}"), game(robot, robot, &each))
}

/// The railway signals of source document 000, section 4.1, without the frequency: rails 1 to 4 overlap, 3 to 6, 5 to 8. The old system turns on one signal or
/// none; the new one as many as overlap no other that is on, and every signal that recurs in the old one recurs in the new.
fn railways(rails: usize) -> Named {
    let overlap = |a: usize, b: usize| a != b && (0..rails).step_by(2).any(|k| (k..k + 4).contains(&a) && (k..k + 4).contains(&b));
    let free = |on: u32, a: usize| (0..rails).all(|b| on >> b & 1 == 0 || !overlap(a, b));
    let maximal: Vec<u32> = (0..1u32 << rails).filter(|&on| (0..rails).all(|a| (on >> a & 1 == 1) == free(on, a))).collect();
    let target = graph(rails + 1, 1, |_| range(0, rails + 1));
    let adaptee = graph(maximal.len(), range(0, maximal.len()), |_| range(0, maximal.len()));
    let on = |a: usize| (0..maximal.len()).filter(|s| maximal[*s] >> a & 1 == 1).fold(0, |x, s| x | 1 << s);
    let each: Vec<Requirement> = (0..rails).map(|a| requirement(&[1 << (a + 1)], &[on(a)])).collect();
    (format!("railways {rails}"), game(target, adaptee, &each))
}

/// The largest games: tables of 524,416 and 524,289 entries.
fn largest() -> Vec<Named> {
    let n = STATES;
    let whole = range(0, n);
    let fourth = |a: usize| 1 << (4 * a);
    [
        ("128: one home", game(circle(n), circle(n), &full(fourth, fourth))),
        ("128: environment's tour", game(circle(n), circle(n), &full(fourth, |_| 0))),
        ("128: dense", game(graph(n, whole, |_| whole), graph(n, whole, |_| whole), &full(|_| whole, |_| whole))),
    ]
    .map(|(name, g)| (name.to_string(), g))
    .into()
}

/// The games whose names begin so. Random games are drawn only where they are asked for, as that takes time.
pub fn named(front: &str) -> Vec<Named> {
    let mut all = drives();
    all.extend([2, 4, 8].map(modes));
    all.extend([2, 3, 4].map(cleaning));
    all.extend([2, 4, 8].map(railways));
    if "random".starts_with(front) || front.starts_with("random") {
        all.extend([16, 32, 64, 128].into_iter().flat_map(random));
    }
    all.extend(worst());
    all.extend([64, 128].into_iter().flat_map(families));
    all.extend(largest());
    all.retain(|(name, _)| name.starts_with(front));
    all
}

/// A game with a text about as long as is read: of 64 states, every row and every set holds all of them.
pub fn longest() -> Game {
    let all: Vec<usize> = (0..64).collect();
    let moves: Vec<&[usize]> = vec![&all; 64];
    let sets: Vec<&[usize]> = vec![&all; 4];
    let requirements: Vec<Requirement> = (0..8).map(|_| required(&sets, &sets)).collect();
    game(listed(&all, &moves), listed(&all, &moves), &requirements)
}
