//! Two recordings of one run, the panel's and the drive's, compared through the safe wrapper: each reply at the start and later, what goes before what
//! at one step, each refusal, and recordings and tables at random.
mod made;

use made::*;
use nanpuwiq::Comparison::*;
use nanpuwiq::*;

fn example() -> Game {
    made(
        graph(&[0], &[&[0, 1], &[0, 1]]),
        graph(&[0], &[&[0, 1], &[0, 1]]),
        &[requirement(&[&[1]], &[&[1]])],
    )
}

// The example's table and a run of it: from 0 it answers 0, then always 1.
const TABLE: [u16; 6] = [0, NONE, 1, 1, 1, 1];
const INS: [u8; 6] = [0, 1, 0, 0, 1, 1];
const OUTS: [u8; 6] = [0, 1, 1, 1, 1, 1];
// The entry that each step of the run has.
const ENTRIES: [usize; 6] = [0, 3, 4, 4, 5, 5];

// Three inputs and three outputs, every move there, two requirements with three guarantees in all.
fn three() -> Game {
    let all: &[usize] = &[0, 1, 2];
    made(
        graph(all, &[all; 3]),
        graph(&[0], &[all; 3]),
        &[requirement(&[&[1]], &[&[1], &[2]]), requirement(&[&[2]], &[&[0]])],
    )
}

// Old modes stop, low, high, service; new modes stop, ramp, low, high, flush, park.
fn pump() -> Game {
    made(
        graph(&[0], &[&[0, 1, 3], &[0, 1, 2], &[1, 2], &[3]]),
        graph(&[0], &[&[0, 1, 4, 5], &[0, 2, 5], &[0, 2, 3, 5], &[2, 3], &[0, 4], &[5]]),
        &[
            requirement(&[&[1]], &[&[2]]),
            requirement(&[&[2]], &[&[3]]),
            requirement(&[&[0]], &[&[0], &[4]]),
            requirement(&[&[3]], &[&[5]]),
        ],
    )
}

// All 128 states, every move there.
fn full() -> Game {
    let all: Vec<usize> = (0..128).collect();
    let rows = vec![&all[..]; 128];
    made(graph(&all, &rows), graph(&all, &rows), &[requirement(&[&[127]], &[&[127], &[40]])])
}

fn refused(number: u8) -> Error {
    Error { number, place: 0 }
}

fn changed<T: Copy, const N: usize>(list: [T; N], n: usize, to: T) -> [T; N] {
    let mut list = list;
    list[n] = to;
    list
}

#[test]
fn fronts_of_a_run() {
    let g = example();
    assert_eq!(g.solve().unwrap().table, TABLE);
    for n in 0..=6 {
        for m in 0..=6 {
            let wanted = if n == m { Agree } else { Ended { step: n.min(m) } };
            assert_eq!(g.compare(&TABLE, InRecording(&INS[..n]), OutRecording(&OUTS[..m])), Ok(wanted), "{n} inputs, {m} outputs");
        }
    }
}

#[test]
fn each_reply_at_each_step() {
    let g = example();
    for n in 0..6 {
        let other = changed(OUTS, n, 1 - OUTS[n]);
        assert_eq!(g.compare(&TABLE, InRecording(&INS), OutRecording(&other)), Ok(Differ { step: n }));
        assert_eq!(g.compare(&TABLE, InRecording(&INS[..=n]), OutRecording(&other[..=n])), Ok(Differ { step: n }));
        assert_eq!(g.compare(&TABLE, InRecording(&INS[..n]), OutRecording(&other[..n])), Ok(Agree));
        // no states
        for byte in 2..=255 {
            assert_eq!(g.compare(&TABLE, InRecording(&INS), OutRecording(&changed(OUTS, n, byte))), Ok(Differ { step: n }), "output {byte}");
            let wrong = changed(INS, n, byte);
            assert_eq!(g.compare(&TABLE, InRecording(&wrong), OutRecording(&OUTS)), Ok(Fault { step: n, number: 14 }), "input {byte}");
            assert_eq!(g.compare(&TABLE, InRecording(&wrong[..=n]), OutRecording(&OUTS[..=n])), Ok(Fault { step: n, number: 14 }), "input {byte}");
            assert_eq!(g.compare(&TABLE, InRecording(&wrong[..n]), OutRecording(&OUTS[..n])), Ok(Agree), "input {byte} is cut off");
        }
        // none, a counter out of range, an output that is no move or at the start not initial
        let entry = ENTRIES[n];
        let first = ENTRIES.iter().position(|&e| e == entry).unwrap();
        for bad in [NONE, 128, if n == 0 { 1 } else { 129 }, 2, 127, 32_768 + n as u16] {
            let table = changed(TABLE, entry, bad);
            assert_eq!(g.compare(&table, InRecording(&INS), OutRecording(&OUTS)), Ok(Fault { step: first, number: 15 }), "entry {bad}");
            assert_eq!(g.compare(&table, InRecording(&INS[..first]), OutRecording(&OUTS[..first])), Ok(Agree), "entry {bad} is not come to");
        }
    }
    // not initial
    assert_eq!(g.compare(&TABLE, InRecording(&INS[1..]), OutRecording(&OUTS[1..])), Ok(Fault { step: 0, number: 14 }));
    // entries that the run has no use of
    assert_eq!(g.compare(&[0, 0, NONE, 1, 1, 1], InRecording(&INS), OutRecording(&OUTS)), Ok(Agree));
    // a row in order, but another one
    assert_eq!(g.compare(&changed(TABLE, 4, 0), InRecording(&INS), OutRecording(&OUTS)), Ok(Differ { step: 2 }));
}

#[test]
fn what_goes_before_what() {
    let g = example();
    for n in 0..6 {
        let (ins, outs) = (changed(INS, n, 255), changed(OUTS, n, 255));
        // at one step: a fault, then a difference or an ending; with no input there is no fault
        assert_eq!(g.compare(&TABLE, InRecording(&ins), OutRecording(&outs)), Ok(Fault { step: n, number: 14 }));
        assert_eq!(g.compare(&TABLE, InRecording(&ins), OutRecording(&OUTS[..n])), Ok(Fault { step: n, number: 14 }));
        assert_eq!(g.compare(&TABLE, InRecording(&INS[..n]), OutRecording(&outs)), Ok(Ended { step: n }));
        if ENTRIES.iter().position(|&e| e == ENTRIES[n]) == Some(n) {
            let table = changed(TABLE, ENTRIES[n], NONE);
            assert_eq!(g.compare(&table, InRecording(&INS), OutRecording(&outs)), Ok(Fault { step: n, number: 15 }));
            assert_eq!(g.compare(&table, InRecording(&INS), OutRecording(&OUTS[..n])), Ok(Fault { step: n, number: 15 }));
            assert_eq!(g.compare(&table, InRecording(&ins), OutRecording(&OUTS)), Ok(Fault { step: n, number: 14 }));
            assert_eq!(g.compare(&table, InRecording(&INS[..n]), OutRecording(&OUTS)), Ok(Ended { step: n }));
        }
        // of two steps the earlier
        for m in n + 1..6 {
            assert_eq!(g.compare(&TABLE, InRecording(&ins), OutRecording(&changed(OUTS, m, 255))), Ok(Fault { step: n, number: 14 }));
            assert_eq!(g.compare(&TABLE, InRecording(&ins), OutRecording(&OUTS[..m])), Ok(Fault { step: n, number: 14 }));
            assert_eq!(g.compare(&TABLE, InRecording(&changed(INS, m, 255)), OutRecording(&outs)), Ok(Differ { step: n }));
            assert_eq!(g.compare(&TABLE, InRecording(&INS), OutRecording(&outs[..m])), Ok(Differ { step: n }));
            assert_eq!(g.compare(&TABLE, InRecording(&INS[..m]), OutRecording(&outs)), Ok(Differ { step: n }));
            assert_eq!(g.compare(&TABLE, InRecording(&changed(INS, m, 255)), OutRecording(&OUTS[..n])), Ok(Ended { step: n }));
            assert_eq!(g.compare(&TABLE, InRecording(&INS[..n]), OutRecording(&changed(OUTS, m, 255))), Ok(Ended { step: n }));
        }
    }
    // a start of none and nothing recorded on one side
    let table = changed(TABLE, 0, NONE);
    assert_eq!(g.compare(&table, InRecording(&[]), OutRecording(&OUTS)), Ok(Ended { step: 0 }));
    assert_eq!(g.compare(&table, InRecording(&INS), OutRecording(&[])), Ok(Fault { step: 0, number: 15 }));
    assert_eq!(g.compare(&table, InRecording(&[]), OutRecording(&[])), Ok(Agree));
    // the input is no move and its row is none
    let mut g = g;
    let table = changed(TABLE, 3, NONE);
    assert_eq!(g.compare(&table, InRecording(&INS), OutRecording(&OUTS)), Ok(Fault { step: 1, number: 15 }));
    g.input.moves[0] = Set::from_bits(1);
    assert_eq!(g.compare(&table, InRecording(&INS), OutRecording(&OUTS)), Ok(Fault { step: 1, number: 14 }));
}

#[test]
fn bytes_that_are_no_states_of_the_largest_graphs() {
    let g = Game { k: 0, requirements: Default::default(), ..full() };
    // the output is the input's number
    let table: Vec<u16> = (0..128 + 128 * 128).map(|k| k % 128).collect();
    let run: Vec<u8> = (0..258).map(|n| ((n * 37 + 127) % 128) as u8).collect();
    assert_eq!(g.compare(&table, InRecording(&run), OutRecording(&run)), Ok(Agree));
    for n in [0, 1, 128, 257] {
        for byte in 128..=255 {
            let mut other = run.clone();
            other[n] = byte;
            assert_eq!(g.compare(&table, InRecording(&other), OutRecording(&run)), Ok(Fault { step: n, number: 14 }), "input {byte}");
            assert_eq!(g.compare(&table, InRecording(&run), OutRecording(&other)), Ok(Differ { step: n }), "output {byte}");
            assert_eq!(g.compare(&table, InRecording(&other), OutRecording(&other)), Ok(Fault { step: n, number: 14 }), "both {byte}");
        }
    }
}

#[test]
fn refusals() {
    let mut faulty: Vec<(u8, Game)> = Vec::new();
    let mut add = |number, change: fn(&mut Game)| {
        let mut g = example();
        change(&mut g);
        faulty.push((number, g));
    };
    add(1, |g| g.input.states = 0);
    add(1, |g| g.output.states = 129);
    add(2, |g| g.output.initial = Set::from_bits(4));
    add(3, |g| g.input.initial = Set::from_bits(0));
    add(5, |g| g.k = 9);
    add(6, |g| g.requirements[7].guaranteed = 5);
    add(7, |g| g.requirements[0].assumptions[0] = InSet(Set::from_bits(4)));
    add(1, |g| *g = Game::default());
    let wrong = [255; 3];
    for (number, g) in faulty {
        // before 16, 14, 15, a difference and an ending
        for table in [&TABLE[..], &TABLE[..5], &[NONE; 6], &[]] {
            for (ins, outs) in [(&INS[..], &OUTS[..]), (&wrong, &wrong), (&INS, &wrong), (&INS, &OUTS[..2]), (&[], &OUTS), (&[], &[])] {
                assert_eq!(g.compare(table, InRecording(ins), OutRecording(outs)), Err(refused(number)));
            }
        }
    }
    // a table of another length, before 14, 15, a difference and an ending
    let g = example();
    for table in [&TABLE[..5], &[0, NONE, 1, 1, 1, 1, 1], &[NONE; 5], &[], &[0; CONTROLLER_MOST]] {
        for (ins, outs) in [(&INS[..], &OUTS[..]), (&wrong, &wrong), (&INS, &wrong), (&INS, &OUTS[..2]), (&[], &OUTS), (&[], &[])] {
            assert_eq!(g.compare(table, InRecording(ins), OutRecording(outs)), Err(refused(16)));
        }
    }
    // a drive that latches is none: the row that has it go on is at fault
    let mut latched = g;
    latched.output.moves[1] = Set::from_bits(0);
    assert_eq!(latched.compare(&TABLE, InRecording(&INS), OutRecording(&OUTS)), Ok(Fault { step: 2, number: 15 }));
    // a panel's table, another game's
    assert_eq!(g.compare(&[0; 5], InRecording(&INS), OutRecording(&OUTS)), Err(refused(16)));
    assert_eq!(three().compare(&TABLE, InRecording(&INS), OutRecording(&OUTS)), Err(refused(16)));
}

// Input, output, counter.
type At = (usize, usize, usize);

fn counters(g: &Game) -> usize {
    g.requirements.iter().map(|q| q.guaranteed).sum::<usize>().max(1)
}

// The place of the entry for an input after a position, or at the start.
fn place(g: &Game, at: Option<At>, input: usize) -> usize {
    match at {
        None => input,
        Some((_, o, c)) => g.input.states + (o * counters(g) + c) * g.input.states + input,
    }
}

fn has(set: Set, state: usize) -> bool {
    set.has(state)
}

// What a controller's table makes of an input, by its definition.
fn turn(g: &Game, table: &[u16], at: Option<At>, input: usize) -> Result<At, u8> {
    if !has(at.map_or(g.input.initial, |(i, _, _)| g.input.moves[i]), input) {
        return Err(14);
    }
    let entry = table[place(g, at, input)];
    let (output, counter) = (entry as usize % 128, entry as usize / 128);
    let to = at.map_or(g.output.initial, |(_, o, _)| g.output.moves[o]);
    if entry == NONE || counter >= counters(g) || !has(to, output) {
        return Err(15);
    }
    Ok((input, output, counter))
}

// What is to be told of two recordings. The inputs are played again; the player's answers are those of the definition.
fn told(g: &Game, table: &[u16], inputs: &[u8], outputs: &[u8]) -> Comparison {
    let mut at: Option<Position> = None;
    for step in 0.. {
        let Some(&input) = inputs.get(step) else {
            return if step < outputs.len() { Ended { step } } else { Agree };
        };
        let next = InState(input as usize);
        let moved = match at {
            None => g.begin(table, next),
            Some(mut here) => g.step(table, &mut here, next).map(|()| here),
        };
        let defined = turn(g, table, at.map(|p| (p.input.0, p.output.0, p.counter)), next.0);
        assert_eq!(moved.map(|p| (p.input.0, p.output.0, p.counter)), defined.map_err(refused));
        match (moved, outputs.get(step)) {
            (Err(e), _) => return Fault { step, number: e.number },
            (Ok(_), None) => return Ended { step },
            (Ok(here), Some(&output)) if here.output != OutState(output as usize) => return Differ { step },
            (Ok(here), Some(_)) => at = Some(here),
        }
    }
    unreachable!()
}

struct Draw(u64);

impl Draw {
    fn below(&mut self, n: usize) -> usize {
        self.0 = self.0.wrapping_mul(6_364_136_223_846_793_005).wrapping_add(1_442_695_040_888_963_407);
        (self.0 >> 33) as usize % n
    }

    fn of(&mut self, set: Set) -> usize {
        let n = self.below(set.count());
        set.states().nth(n).unwrap()
    }

    // 1 to 6 states, of each move about half, and at least one.
    fn graph(&mut self) -> Graph {
        let states = 1 + self.below(6);
        let mut g = Graph { states, initial: Set::from_bits((self.below(1 << states) | 1 << self.below(states)) as u128), ..Graph::default() };
        for row in &mut g.moves[..states] {
            *row = Set::from_bits((self.below(1 << states) | 1 << self.below(states)) as u128);
        }
        g
    }

    // Up to three requirements with up to three guarantees each.
    fn game(&mut self) -> Game {
        let (input, output) = (self.graph(), self.graph());
        let mut g = Game { input, output, k: self.below(4), ..Game::default() };
        for q in &mut g.requirements[..g.k] {
            q.guaranteed = self.below(4);
            for set in &mut q.guarantees[..q.guaranteed] {
                *set = OutSet(Set::from_bits(self.below(1 << output.states) as u128));
            }
        }
        g
    }

    // A table that always answers with a move, but one entry in 30 is anything at all and one in 30 is none.
    fn table(&mut self, g: &Game) -> Vec<u16> {
        let counters = counters(g);
        let length = g.input.states * (1 + g.output.states * counters);
        let mut table = Vec::new();
        for k in 0..length {
            let to = match k.checked_sub(g.input.states) {
                None => g.output.initial,
                Some(row) => g.output.moves[row / g.input.states / counters],
            };
            table.push(match self.below(30) {
                0 => self.below(65_536) as u16,
                1 => NONE,
                _ => (self.of(to) + 128 * self.below(counters)) as u16,
            });
        }
        table
    }

    // A run, and the place of each step's entry, up to a fault of the table.
    fn run(&mut self, g: &Game, table: &[u16], steps: usize) -> Run {
        let mut r = Run { inputs: Vec::new(), outputs: Vec::new(), places: Vec::new() };
        let mut at: Option<At> = None;
        for _ in 0..steps {
            let input = self.of(at.map_or(g.input.initial, |(i, _, _)| g.input.moves[i]));
            r.places.push(place(g, at, input));
            r.inputs.push(input as u8);
            let Ok(here) = turn(g, table, at, input) else {
                r.outputs.push(self.below(g.output.states) as u8);
                break;
            };
            r.outputs.push(here.1 as u8);
            at = Some(here);
        }
        r
    }

    fn byte(&mut self) -> u8 {
        [self.below(128), self.below(256), 128, 255][self.below(4)] as u8
    }

    // Something wrong with step n of the run, or of that length.
    fn damage(&mut self, g: &Game, table: &mut [u16], run: &mut Run, n: usize) {
        let (states, counters) = (g.output.states, counters(g));
        match self.below(10) {
            0 => put(&mut run.outputs, n, self.below(states) as u8),
            1 => put(&mut run.outputs, n, self.byte()),
            2 => put(&mut run.inputs, n, self.below(g.input.states) as u8),
            3 => put(&mut run.inputs, n, self.byte()),
            4 => run.inputs.truncate(n),
            5 => run.outputs.truncate(n),
            6 => run.inputs.push(self.below(g.input.states) as u8),
            7 => run.outputs.push(self.below(states) as u8),
            8 => table[run.places[n]] = [NONE, 128 * counters as u16, states as u16, self.below(65_536) as u16][self.below(4)],
            _ => table[run.places[n]] = (self.below(states) + 128 * self.below(counters)) as u16,
        }
    }
}

struct Run {
    inputs: Vec<u8>,
    outputs: Vec<u8>,
    places: Vec<usize>,
}

// Puts the byte where the recording has that step.
fn put(recording: &mut [u8], n: usize, byte: u8) {
    if let Some(there) = recording.get_mut(n) {
        *there = byte;
    }
}

// How often each reply was told, at step 0 and later, and how often a fault was told where the outputs had ended, or were wrong too.
#[derive(Default, Debug)]
struct Tally {
    agree: usize,
    differ: [usize; 2],
    no_input: [usize; 2],
    no_output: [usize; 2],
    fault_14: [usize; 2],
    fault_15: [usize; 2],
    fault_and_ending: [usize; 2],
    fault_and_difference: [usize; 2],
}

impl Tally {
    fn add(&mut self, said: Comparison, run: &Run, right: &[u8]) {
        match said {
            Agree => self.agree += 1,
            Differ { step } => self.differ[(step > 0) as usize] += 1,
            Ended { step } if step == run.inputs.len() => self.no_input[(step > 0) as usize] += 1,
            Ended { step } => self.no_output[(step > 0) as usize] += 1,
            Fault { step, number } => {
                let faults = if number == 14 { &mut self.fault_14 } else { &mut self.fault_15 };
                faults[(step > 0) as usize] += 1;
                match run.outputs.get(step) {
                    None => self.fault_and_ending[(step > 0) as usize] += 1,
                    Some(x) if Some(x) != right.get(step) => self.fault_and_difference[(step > 0) as usize] += 1,
                    Some(_) => {}
                }
            }
        }
    }

    fn least(&self) -> usize {
        let all = [self.differ, self.no_input, self.no_output, self.fault_14, self.fault_15, self.fault_and_ending, self.fault_and_difference];
        all.concat().into_iter().chain([self.agree]).min().unwrap()
    }
}

// Up to four things wrong, half of the time all at one step.
fn damaged(draw: &mut Draw, g: &Game, table: &mut [u16], run: &mut Run) {
    let one = [0, draw.below(run.places.len())][draw.below(2)];
    let together = draw.below(2) == 0;
    for _ in 0..draw.below(5) {
        let n = if together { one } else { draw.below(run.places.len()) };
        draw.damage(g, table, run, n);
    }
}

#[test]
fn runs_of_controllers_at_random() {
    let mut draw = Draw(7);
    let mut tally = Tally::default();
    for g in [example(), three(), pump(), full()] {
        let v = g.solve().unwrap();
        assert_eq!(v.winner, Winner::System);
        for _ in 0..500 {
            let steps = 1 + draw.below(40);
            let mut run = draw.run(&g, &v.table, steps);
            assert_eq!(run.inputs.len(), steps);
            assert_eq!(g.compare(&v.table, InRecording(&run.inputs), OutRecording(&run.outputs)), Ok(Agree));
            let (mut table, right) = (v.table.clone(), run.outputs.clone());
            damaged(&mut draw, &g, &mut table, &mut run);
            let wanted = told(&g, &table, &run.inputs, &run.outputs);
            assert_eq!(g.compare(&table, InRecording(&run.inputs), OutRecording(&run.outputs)), Ok(wanted), "{g:?} {:?} {:?}", run.inputs, run.outputs);
            tally.add(wanted, &run, &right);
        }
    }
    assert!(tally.least() > 10, "{tally:?}");
}

#[test]
fn tables_at_random() {
    let mut draw = Draw(8);
    let mut tally = Tally::default();
    for _ in 0..2_000 {
        let g = draw.game();
        let mut table = draw.table(&g);
        let steps = 1 + draw.below(40);
        let mut run = draw.run(&g, &table, steps);
        let right = run.outputs.clone();
        damaged(&mut draw, &g, &mut table, &mut run);
        let wanted = told(&g, &table, &run.inputs, &run.outputs);
        assert_eq!(g.compare(&table, InRecording(&run.inputs), OutRecording(&run.outputs)), Ok(wanted), "{g:?} {table:?} {:?} {:?}", run.inputs, run.outputs);
        tally.add(wanted, &run, &right);
    }
    assert!(tally.least() > 10, "{tally:?}");
}

#[test]
fn a_long_recording() {
    let g = pump();
    let table = g.solve().unwrap().table;
    // service is never left: it is not picked
    let picked = Game { input: Graph { moves: g.input.moves.map(|row| row & Set::from_bits(7)), ..g.input }, ..g };
    let steps = 300_000;
    let mut run = Draw(9).run(&picked, &table, steps);
    assert_eq!(run.inputs.len(), steps);
    assert_eq!(g.compare(&table, InRecording(&run.inputs), OutRecording(&run.outputs)), Ok(Agree));
    run.outputs[steps - 1] ^= 1;
    assert_eq!(g.compare(&table, InRecording(&run.inputs), OutRecording(&run.outputs)), Ok(Differ { step: steps - 1 }));
    run.outputs.pop();
    assert_eq!(g.compare(&table, InRecording(&run.inputs), OutRecording(&run.outputs)), Ok(Ended { step: steps - 1 }));
    run.inputs[steps - 1] = 255;
    assert_eq!(g.compare(&table, InRecording(&run.inputs), OutRecording(&run.outputs)), Ok(Fault { step: steps - 1, number: 14 }));
    run.inputs.pop();
    assert_eq!(g.compare(&table, InRecording(&run.inputs), OutRecording(&run.outputs)), Ok(Agree));
}
