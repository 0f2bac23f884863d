//! Playing against an environment's table through the safe wrapper: each refusal alone and before the others, tables at random against a reader of
//! the layout that is written here, and games that the panel wins, where every loop that closes breaks a requirement.
mod made;

use made::*;
use nanpuwiq::*;

// The output commits too early: case 6.
fn early() -> Game {
    made(
        graph(&[0], &[&[1], &[2, 3], &[2], &[3]]),
        graph(&[0], &[&[1, 2], &[1], &[2]]),
        &[requirement(&[&[2]], &[&[1]]), requirement(&[&[3]], &[&[2]])],
    )
}

// Two states each; the panel can hold input 1, and output 1 is stuck.
fn stuck() -> Game {
    made(graph(&[0, 1], &[&[0, 1], &[0, 1]]), graph(&[0], &[&[0, 1], &[]]), &[requirement(&[&[1]], &[&[1]])])
}

fn refused(number: u8) -> Error {
    Error { number, place: 0 }
}

fn at(input: usize, output: usize, counter: usize) -> Position {
    Position { input: InState(input), output: OutState(output), counter }
}

// What the table does, read from its layout: the start, then rows by input, counter, output.
fn counters(g: &Game) -> usize {
    g.requirements.iter().map(|q| q.assumed).sum::<usize>().max(1)
}

fn entries(g: &Game) -> usize {
    1 + g.input.states * counters(g) * g.output.states
}

fn has(set: Set, state: usize) -> bool {
    set.has(state)
}

// The number of a test that fails, of two in this order.
fn first_of(tests: [(bool, u8); 2]) -> Result<(), Error> {
    tests.into_iter().find(|(holds, _)| !holds).map_or(Ok(()), |(_, number)| Err(refused(number)))
}

fn panel_move(g: &Game, table: &[u16], from: Option<Position>) -> Result<PanelMove, Error> {
    let row = |p: Position| 1 + (p.input.0 * counters(g) + p.counter) * g.output.states + p.output.0;
    let there = |p: Position| p.input.0 < g.input.states && p.output.0 < g.output.states && p.counter < counters(g);
    if table.len() != entries(g) || !from.map_or(true, there) {
        return Err(refused(16));
    }
    let entry = table[from.map_or(0, row)];
    let (input, counter) = (entry as usize % 128, entry as usize / 128);
    let allowed = from.map_or(g.input.initial, |p| g.input.moves[p.input.0]);
    if entry == NONE || counter >= counters(g) || !has(allowed, input) {
        return Err(refused(15));
    }
    Ok(PanelMove { input: InState(input), counter })
}

fn panel_place(g: &Game, table: &[u16], from: Option<Position>, output: OutState) -> Result<Position, Error> {
    let moved = panel_move(g, table, from);
    if moved == Err(refused(16)) {
        return Err(refused(16));
    }
    let allowed = from.map_or(g.output.initial, |p| g.output.moves[p.output.0]);
    first_of([(has(allowed, output.0), 14), (moved.is_ok(), 15)])?;
    let PanelMove { input, counter } = moved?;
    Ok(Position { input, output, counter })
}

// The entries' answers, which must be the reader's.
fn told(g: &Game, table: &[u16], from: Option<Position>) -> Result<PanelMove, Error> {
    let said = from.map_or_else(|| g.panel_first(table), |p| g.panel_next(table, p));
    assert_eq!(said, panel_move(g, table, from), "{g:?} {table:?} {from:?}");
    said
}

fn moved(g: &Game, table: &[u16], from: Option<Position>, output: OutState) -> Result<Position, Error> {
    let said = from.map_or_else(|| g.panel_begin(table, output), |p| g.panel_step(table, p, output));
    assert_eq!(said, panel_place(g, table, from, output), "{g:?} {table:?} {from:?} {output:?}");
    said
}

#[test]
fn the_output_commits_too_early() {
    let g = early();
    let Verdict { winner, table } = g.solve().unwrap();
    assert_eq!(winner, Winner::Environment);
    assert_eq!(g.panel_first(&table), Ok(PanelMove { input: InState(0), counter: 0 }));
    let first = g.panel_begin(&table, OutState(0)).unwrap();
    assert_eq!(first, at(0, 0, 0));
    assert_eq!(g.panel_next(&table, first), Ok(PanelMove { input: InState(1), counter: 0 }));
    // whichever output is picked, the panel then goes where the other was needed
    for (output, input) in [(1, 3), (2, 2)] {
        let second = g.panel_step(&table, first, OutState(output)).unwrap();
        assert_eq!(second, at(1, output, 0));
        assert_eq!(g.panel_next(&table, second).unwrap().input, InState(input));
        let third = g.panel_step(&table, second, OutState(output)).unwrap();
        assert_eq!((third.input, third.output), (InState(input), OutState(output)));
    }
}

#[test]
fn a_stuck_output_has_no_reply() {
    let g = stuck();
    let table = g.solve().unwrap().table;
    assert_eq!(table.len(), entries(&g));
    let start = g.panel_first(&table).unwrap();
    let first = g.panel_begin(&table, OutState(0)).unwrap();
    assert_eq!((first.input, first.counter), (start.input, start.counter));
    let next = g.panel_next(&table, first).unwrap();
    let second = g.panel_step(&table, first, OutState(1)).unwrap();
    assert_eq!((second.input, second.counter, second.output), (next.input, next.counter, OutState(1)));
    // the panel still moves, and no output can be picked
    assert!(g.panel_next(&table, second).is_ok());
    for output in 0..3 {
        assert_eq!(g.panel_step(&table, second, OutState(output)), Err(refused(14)));
    }
}

// Each refusal where its condition alone holds, and where later ones hold too.
#[test]
fn refusals_in_order() {
    let g = early();
    let table = g.solve().unwrap().table;
    let (here, gone, wrong) = (at(1, 1, 0), at(1, 3, 0), OutState(128));
    let none = vec![NONE; table.len()];
    let all = |g: &Game, table: &[u16], p: Position, first: OutState, next: OutState| {
        [
            g.panel_first(table).map(|_| ()),
            g.panel_begin(table, first).map(|_| ()),
            g.panel_next(table, p).map(|_| ()),
            g.panel_step(table, p, next).map(|_| ()),
        ]
    };
    let (ok, first, next) = (Ok(()), OutState(0), OutState(1));
    assert_eq!(all(&g, &table, here, first, next), [ok; 4]);
    // 15 alone
    assert_eq!(all(&g, &none, here, first, next), [Err(refused(15)); 4]);
    // 14 alone, and before 15; the panel's own move has no 14
    assert_eq!(all(&g, &table, here, wrong, wrong), [ok, Err(refused(14)), ok, Err(refused(14))]);
    assert_eq!(all(&g, &none, here, wrong, wrong), [15, 14, 15, 14].map(|n| Err(refused(n))));
    assert_eq!(all(&g, &none, here, OutState(1), OutState(0)), [15, 14, 15, 14].map(|n| Err(refused(n))));
    // 16 alone, and before both
    for short in [&table[1..], &[], &[NONE; 5]] {
        assert_eq!(all(&g, short, here, first, next), [Err(refused(16)); 4]);
        assert_eq!(all(&g, short, here, wrong, wrong), [Err(refused(16)); 4]);
    }
    for lacking in [gone, at(4, 1, 0), at(1, 1, 2), at(usize::MAX, usize::MAX, usize::MAX), at(128, 1, 0), at(1, 128, 0)] {
        assert_eq!(all(&g, &table, lacking, first, next), [ok, ok, Err(refused(16)), Err(refused(16))]);
        assert_eq!(all(&g, &none, lacking, wrong, wrong), [15, 14, 16, 16].map(|n| Err(refused(n))));
    }
    // 1 to 7 before all of them
    for (number, change) in [
        (1, (|g| g.input.states = 0) as fn(&mut Game)),
        (1, |g| g.output.states = 129),
        (2, |g| g.input.moves[0] = Set::from_bits(1 << 4)),
        (3, |g| g.output.initial = Set::from_bits(0)),
        (5, |g| g.k = 9),
        (6, |g| g.requirements[7].guaranteed = 5),
        (7, |g| g.requirements[0].assumptions[0] = InSet(Set::from_bits(1 << 4))),
    ] {
        let mut faulty = g;
        change(&mut faulty);
        for (table, p, output) in [(&table[..], here, next), (&[], gone, wrong), (&none, gone, wrong)] {
            assert_eq!(all(&faulty, table, p, output, output), [Err(refused(number)); 4]);
        }
    }
}

// Entries that name what is no move, no state, or no counter.
#[test]
fn entries_that_count_as_none() {
    let g = early();
    let table = g.solve().unwrap().table;
    let here = at(1, 1, 0);
    let row = 1 + counters(&g) * g.output.states + 1;
    for entry in [1, 4, 127, 128 * counters(&g) as u16, 65_534, NONE] {
        let mut other = table.clone();
        other[0] = entry;
        assert_eq!(g.panel_first(&other), Err(refused(15)), "{entry}");
        assert_eq!(g.panel_begin(&other, OutState(0)), Err(refused(15)), "{entry}");
        assert_eq!(g.panel_begin(&other, OutState(1)), Err(refused(14)), "{entry}");
        let mut other = table.clone();
        other[row] = entry;
        assert_eq!(g.panel_next(&other, here), Err(refused(15)), "{entry}");
        assert_eq!(g.panel_step(&other, here, OutState(1)), Err(refused(15)), "{entry}");
        assert_eq!(g.panel_step(&other, here, OutState(0)), Err(refused(14)), "{entry}");
    }
}

struct Draw(u64);

impl Draw {
    fn below(&mut self, n: usize) -> usize {
        self.0 = self.0.wrapping_mul(6_364_136_223_846_793_005).wrapping_add(1_442_695_040_888_963_407);
        (self.0 >> 33) as usize % n
    }

    fn of(&mut self, set: Set) -> Option<usize> {
        let n = (set != Set::default()).then(|| self.below(set.count()))?;
        set.states().nth(n)
    }

    fn set(&mut self, states: usize) -> Set {
        Set::from_bits(self.below(1 << states) as u128)
    }

    // 1 to 6 states; one in ten has no move.
    fn graph(&mut self) -> Graph {
        let states = 1 + self.below(6);
        let mut g = Graph { states, initial: self.set(states) | Set::of(self.below(states)), ..Graph::default() };
        for row in &mut g.moves[..states] {
            *row = if self.below(10) == 0 { Set::default() } else { self.set(states) & self.set(states) | Set::of(self.below(states)) };
        }
        g
    }

    // Up to three requirements with up to three sets a side.
    fn game(&mut self) -> Game {
        let (input, output) = (self.graph(), self.graph());
        let mut g = Game { input, output, k: self.below(4), ..Game::default() };
        for q in &mut g.requirements[..g.k] {
            q.assumed = self.below(4);
            q.assumptions[..q.assumed].fill_with(|| InSet(self.set(input.states)));
            q.guaranteed = self.below(4);
            q.guarantees[..q.guaranteed].fill_with(|| OutSet(self.set(output.states)));
        }
        g
    }

    // A table of the panel's length that mostly names moves.
    fn table(&mut self, g: &Game) -> Vec<u16> {
        let counters = counters(g);
        let from = |k: usize| g.input.moves[k / g.output.states / counters];
        let allowed = |k: usize| k.checked_sub(1).map_or(g.input.initial, from);
        let entry = |k| match (self.below(10), self.of(allowed(k))) {
            (0, _) => self.below(65_536) as u16,
            (1, _) | (_, None) => NONE,
            (2, Some(input)) => (input + 128 * self.below(counters + 1)) as u16,
            (_, Some(input)) => (input + 128 * self.below(counters)) as u16,
        };
        (0..entries(g)).map(entry).collect()
    }

    // A place, mostly of the game.
    fn position(&mut self, g: &Game) -> Position {
        let mut past = |n: usize| if self.below(20) == 0 { n + self.below(3) } else { self.below(n) };
        at(past(g.input.states), past(g.output.states), past(counters(g)))
    }
}

#[test]
fn tables_at_random() {
    let mut draw = Draw(11);
    let (mut numbers, mut moves) = ([0; 17], 0);
    for _ in 0..2_000 {
        let g = draw.game();
        let mut table = draw.table(&g);
        if draw.below(50) == 0 {
            table.pop();
        }
        for _ in 0..20 {
            let from = [None, Some(draw.position(&g)), Some(draw.position(&g))][draw.below(3)];
            let output = OutState(draw.below(g.output.states + 1));
            let _ = told(&g, &table, from);
            match moved(&g, &table, from, output) {
                Ok(_) => moves += 1,
                Err(error) => numbers[error.number as usize] += 1,
            }
        }
    }
    assert!(moves > 1_000 && [14, 15, 16].iter().all(|&n| numbers[n] > 1_000), "{moves} {numbers:?}");
}

fn broken(g: &Game, round: &[Position]) -> bool {
    let visits_in = |set: &InSet| round.iter().any(|p| has(set.0, p.input.0));
    let visits_out = |set: &OutSet| round.iter().any(|p| has(set.0, p.output.0));
    g.requirements[..g.k]
        .iter()
        .any(|q| q.assumptions[..q.assumed].iter().all(visits_in) && !q.guarantees[..q.guaranteed].iter().all(visits_out))
}

#[test]
fn the_panel_wins_its_games() {
    let mut draw = Draw(12);
    let (mut games, mut loops, mut stops) = (0, 0, 0);
    while games < 300 {
        let g = draw.game();
        let Verdict { winner, table } = g.solve().unwrap();
        if winner == Winner::System {
            continue;
        }
        games += 1;
        let mut trail: Vec<Position> = Vec::new();
        for _ in 0..400 {
            let from = trail.last().copied();
            // the panel is never the one that is stopped
            let PanelMove { input, counter } = told(&g, &table, from).unwrap();
            let Some(output) = draw.of(from.map_or(g.output.initial, |p| g.output.moves[p.output.0])) else {
                stops += 1;
                break;
            };
            let here = moved(&g, &table, from, OutState(output)).unwrap();
            assert_eq!(here, Position { input, output: OutState(output), counter });
            // the loops back to the first and to the last time that the play was here
            let before = |p: &Position| *p == here;
            for k in [trail.iter().position(before), trail.iter().rposition(before)].into_iter().flatten() {
                assert!(broken(&g, &trail[k..]), "{g:?} {:?}", &trail[k..]);
                loops += 1;
            }
            trail.push(here);
        }
    }
    assert!(loops > 100_000 && stops > 30, "{loops} {stops}");
}
