//! Kits through the safe wrapper: two pump drives, an environment's win, each refusal, and kits at random.
mod made;

use made::*;
use nanpuwiq::*;

const B: u8 = BARRED;

// Old modes: stop, low, high, service; commands: off, slow, fast, service. New modes: stop, ramp, low, high, flush, park; commands: hold, halt, up,
// down, flush, park. Low, high and stop with a flush are to be found again and again where they are asked for again and again. Service is never left,
// nor is park: the new drive is to go there then, and not before.
fn pump() -> Kit {
    made_kit(
        drive(&[0], &[&[0, 1, B, 3], &[0, 1, 2], &[B, 1, 2], &[B, B, B, 3]]),
        drive(
            &[0],
            &[&[0, 0, 1, B, 4, 5], &[B, 0, 2, B, B, 5], &[2, 0, 3, 2, B, 5], &[3, B, B, 2], &[4, 0, B, B, 4], &[5, 5, B, B, B, 5]],
        ),
        &[
            requirement(&[&[1]], &[&[2]]),
            requirement(&[&[2]], &[&[3]]),
            requirement(&[&[0]], &[&[0], &[4]]),
            requirement(&[&[3]], &[&[5]]),
        ],
    )
}

// Words of scratch of that kit, and lengths of its tables: five guarantees, four assumptions.
const SCRATCH: usize = SET_WORDS * (2 * 4 + 6);
const CONTROLLER: usize = 4 + 6 * 5 * 4;
const ENVIRONMENT: usize = 1 + 4 * 4 * 6;
const KIT: usize = 4 + 6 * 5 * 4 * 4;

// The same kit with a requirement that nothing meets: parked, the new drive cannot stop.
fn hopeless() -> Kit {
    let mut kit = pump();
    kit.requirements[0].guarantees[0] = OutSet(Set::from_bits(1 << 5));
    kit
}

fn refused(number: u8) -> Error {
    Error { number, place: 0 }
}

fn next(d: &Drive, mode: usize, command: usize) -> Option<usize> {
    let to = d.next[16 * mode + command];
    (to != BARRED).then_some(to as usize)
}

// A move is there where some command makes it.
fn graph(d: &Drive) -> Graph {
    let mut g = Graph { states: d.modes, initial: d.initial, ..Graph::default() };
    for m in 0..d.modes {
        for u in 0..d.commands {
            g.moves[m] |= next(d, m, u).map_or(Set::default(), Set::of);
        }
    }
    g
}

fn game(kit: &Kit) -> Game {
    Game { input: graph(&kit.old), output: graph(&kit.new), k: kit.k, requirements: kit.requirements }
}

fn counters(kit: &Kit) -> usize {
    kit.requirements.iter().map(|q| q.guaranteed).sum::<usize>().max(1)
}

// The kit's table, made from the controller's.
fn kit_table(kit: &Kit, controller: &[u16]) -> Vec<u16> {
    let (modes, counters) = (kit.old.modes, counters(kit));
    let mut table = controller[..modes].to_vec();
    for o in 0..kit.new.modes {
        for c in 0..counters {
            for i in 0..modes {
                for u in 0..kit.old.commands {
                    let row = next(&kit.old, i, u).map_or(NONE, |j| controller[modes + (o * counters + c) * modes + j]);
                    table.push(match row {
                        NONE => NONE,
                        row => {
                            let to = Some(row as usize % 128);
                            let lowest = (0..kit.new.commands).find(|&v| next(&kit.new, o, v) == to).expect("the controller's move");
                            lowest as u16 + 16 * (row / 128)
                        }
                    });
                }
            }
        }
    }
    table
}

// Old mode, new mode, counter.
type At = (usize, usize, usize);

// Where the kit's table begins with old mode i.
fn first(table: &[u16], i: usize) -> At {
    let start = table[i];
    assert_ne!(start, NONE, "a start for old mode {i}");
    (i, start as usize % 128, start as usize / 128)
}

// The turn that the kit's table makes of an old command that is allowed. Every answer is a command that the new drive allows.
fn turn(kit: &Kit, table: &[u16], (i, o, c): At, u: usize) -> At {
    let entry = table[kit.old.modes + ((o * counters(kit) + c) * kit.old.modes + i) * kit.old.commands + u];
    assert_ne!(entry, NONE, "an answer to command {u} at {i} {o} {c}");
    let (command, counter) = (entry as usize % 16, entry as usize / 16);
    assert!(command < kit.new.commands && counter < counters(kit), "{entry} at {i} {o} {c}");
    let to = next(&kit.new, o, command).expect("a command that the new drive allows");
    (next(&kit.old, i, u).expect("a command that the old drive allows"), to, counter)
}

// Whether the requirements in use are met where these are the modes that recur.
fn met(kit: &Kit, old: Set, new: Set) -> bool {
    let none = Set::default();
    kit.requirements[..kit.k].iter().all(|q| {
        !q.assumptions[..q.assumed].iter().all(|a| a.0 & old != none) || q.guarantees[..q.guaranteed].iter().all(|g| g.0 & new != none)
    })
}

// How many closed loops a run has; each meets every requirement, for the panel could go round it for ever.
fn loops_met(kit: &Kit, run: &[At]) -> usize {
    let mut loops = 0;
    for (n, here) in run.iter().enumerate() {
        let (mut old, mut new) = (Set::default(), Set::default());
        for there in &run[n + 1..] {
            old |= Set::of(there.0);
            new |= Set::of(there.1);
            if there == here {
                loops += 1;
                assert!(met(kit, old, new), "a loop through old modes {old:?} and new modes {new:?}: {kit:?}");
            }
        }
    }
    loops
}

// Whether no closed loop that the panel can bring about goes through every assumption of a requirement and keeps off one of its guarantees.
fn every_loop_met(kit: &Kit, table: &[u16]) -> bool {
    let mut reached: Vec<At> = (0..kit.old.modes).filter(|&i| kit.old.initial.has(i)).map(|i| first(table, i)).collect();
    let mut moves: Vec<Vec<usize>> = Vec::new();
    while let Some(&at) = reached.get(moves.len()) {
        let mut row = Vec::new();
        for u in (0..kit.old.commands).filter(|&u| next(&kit.old, at.0, u).is_some()) {
            let to = turn(kit, table, at, u);
            row.push(reached.iter().position(|&x| x == to).unwrap_or(reached.len()));
            if row.last() == Some(&reached.len()) {
                reached.push(to);
            }
        }
        moves.push(row);
    }
    let all = 0..reached.len();
    let broken = |q: &Requirement, g: &OutSet| {
        // where one comes to from n by at least one move, keeping off g
        let come_to = |n: usize| {
            let (mut there, mut ways) = (vec![false; reached.len()], vec![n]);
            while let Some(n) = ways.pop() {
                for &m in &moves[n] {
                    if !g.0.has(reached[m].1) && !there[m] {
                        there[m] = true;
                        ways.push(m);
                    }
                }
            }
            there
        };
        let from: Vec<Vec<bool>> = all.clone().map(come_to).collect();
        all.clone().any(|n| {
            let round = |m: usize| from[n][m] && from[m][n];
            round(n) && q.assumptions[..q.assumed].iter().all(|a| all.clone().any(|m| round(m) && a.0.has(reached[m].0)))
        })
    };
    !kit.requirements[..kit.k].iter().any(|q| q.guarantees[..q.guaranteed].iter().any(|g| broken(q, g)))
}

struct Draw(u64);

impl Draw {
    fn below(&mut self, n: usize) -> usize {
        self.0 = self.0.wrapping_mul(6_364_136_223_846_793_005).wrapping_add(1_442_695_040_888_963_407);
        (self.0 >> 33) as usize % n
    }

    // One of the old commands that are allowed in this mode.
    fn command(&mut self, d: &Drive, mode: usize) -> usize {
        loop {
            let u = self.below(d.commands);
            if next(d, mode, u).is_some() {
                return u;
            }
        }
    }

    fn states(&mut self, n: usize) -> Set {
        Set::from_bits(self.below(1 << n) as u128)
    }

    // 1 to 6 modes and 1 to 4 commands, of which about half are barred; in each mode some command is allowed, and some mode is initial.
    fn drive(&mut self) -> Drive {
        let (modes, commands) = (1 + self.below(6), 1 + self.below(4));
        let mut d = Drive { modes, initial: self.states(modes) | Set::of(self.below(modes)), commands, ..Drive::default() };
        for m in 0..modes {
            for u in 0..commands {
                if self.below(2) > 0 {
                    d.next[16 * m + u] = self.below(modes) as u8;
                }
            }
            d.next[16 * m + self.below(commands)] = self.below(modes) as u8;
        }
        d
    }

    fn kit(&mut self) -> Kit {
        let (old, new) = (self.drive(), self.drive());
        let mut kit = Kit { old, new, k: self.below(4), ..Kit::default() };
        for q in &mut kit.requirements[..kit.k] {
            (q.assumed, q.guaranteed) = (self.below(3), self.below(4));
            for a in &mut q.assumptions[..q.assumed] {
                *a = InSet(self.states(old.modes) | self.states(old.modes));
            }
            for g in &mut q.guarantees[..q.guaranteed] {
                *g = OutSet(self.states(new.modes));
            }
        }
        kit
    }
}

struct Rooms {
    scratch: Vec<u64>,
    controller: Vec<u16>,
    environment: Vec<u16>,
    room: Vec<u16>,
}

impl Rooms {
    fn new(words: usize, controller: usize, environment: usize, room: usize) -> Rooms {
        Rooms { scratch: vec![7; words], controller: vec![9; controller], environment: vec![10; environment], room: vec![11; room] }
    }

    fn solve(&mut self, kit: &Kit) -> Result<(Winner, usize), Error> {
        kit.solve_into(&mut self.scratch, &mut self.controller, &mut self.environment, &mut self.room)
    }

    fn untouched(&self) -> bool {
        self.scratch.iter().all(|&x| x == 7)
            && self.controller.iter().all(|&x| x == 9)
            && self.environment.iter().all(|&x| x == 10)
            && self.room.iter().all(|&x| x == 11)
    }
}

#[test]
fn drives() {
    let d = pump().old;
    assert_eq!((d.modes, d.initial, d.commands), (4, Set::of(0), 4));
    assert_eq!(d.next[..20], [0, 1, B, 3, B, B, B, B, B, B, B, B, B, B, B, B, 0, 1, 2, B]);
    assert!(d.next[64..].iter().all(|&x| x == B));
}

#[test]
fn the_pump() {
    let kit = pump();
    assert_eq!(kit.accept(), Ok(()));
    let controller = game(&kit).solve().unwrap();
    assert_eq!((controller.winner, controller.table.len()), (Winner::System, CONTROLLER));
    let v = kit.solve().unwrap();
    assert_eq!((v.winner, v.table.len()), (Winner::System, KIT));
    assert_eq!(v.table, kit_table(&kit, &controller.table));
    // from stop, fast is barred; in park all is lost but service, in which hold is the lowest command that stays there
    assert_eq!(v.table[4 + 2], NONE);
    assert_eq!(v.table[4 + 5 * 5 * 4 * 4], NONE);
    assert_eq!(v.table[4 + 5 * 5 * 4 * 4 + 3] % 16, 0);
}

#[test]
fn a_run_of_the_pump() {
    let kit = pump();
    let table = kit.solve().unwrap().table;
    let mut draw = Draw(1);
    let mut run = vec![first(&table, 0)];
    assert_eq!(run[0], (0, 0, 0));
    for n in 0..500 {
        let at = run[n];
        let u = draw.command(&Drive { commands: if n < 450 { 3 } else { 4 }, ..kit.old }, at.0);
        run.push(turn(&kit, &table, at, u));
    }
    assert!(loops_met(&kit, &run) > 1_000);
    assert!(every_loop_met(&kit, &table));
    for mode in 0..4 {
        assert!(run.iter().any(|at| at.0 == mode), "old mode {mode}");
    }
    for mode in 0..6 {
        assert!(run.iter().any(|at| at.1 == mode), "new mode {mode}");
    }
    assert_eq!((run[450].1 == 5, run[500].0, run[500].1), (false, 3, 5));
}

#[test]
fn a_win_of_the_environment() {
    let kit = hopeless();
    let v = kit.solve().unwrap();
    assert_eq!((v.winner, v.table.len()), (Winner::Environment, ENVIRONMENT));
    assert_eq!(v, game(&kit).solve().unwrap());
}

#[test]
fn the_rest_of_the_rooms_stays() {
    let kit = pump();
    let mut r = Rooms::new(600, CONTROLLER + 3, ENVIRONMENT + 3, KIT + 3);
    assert_eq!(r.solve(&kit), Ok((Winner::System, KIT)));
    assert_eq!(r.controller[..CONTROLLER], game(&kit).solve().unwrap().table);
    assert_eq!(r.room[..KIT], kit_table(&kit, &r.controller));
    assert!(r.controller[CONTROLLER..].iter().all(|&x| x == 9) && r.room[KIT..].iter().all(|&x| x == 11));
    assert!(r.environment.iter().all(|&x| x == 10));
    assert!(r.scratch[..SCRATCH].iter().all(|&x| x == 0) && r.scratch[SCRATCH..].iter().all(|&x| x == 7));
    let kit = hopeless();
    let mut r = Rooms::new(600, CONTROLLER + 3, ENVIRONMENT + 3, KIT + 3);
    assert_eq!(r.solve(&kit), Ok((Winner::Environment, ENVIRONMENT)));
    assert_eq!(r.environment[..ENVIRONMENT], game(&kit).solve().unwrap().table);
    assert!(r.environment[ENVIRONMENT..].iter().all(|&x| x == 10));
    assert!(r.controller.iter().all(|&x| x == 9) && r.room.iter().all(|&x| x == 11));
    assert!(r.scratch[..SCRATCH].iter().all(|&x| x == 0) && r.scratch[SCRATCH..].iter().all(|&x| x == 7));
}

// Park takes no command any more. Where the old drive goes on in service, park would have to recur; where service latches too, all that is allowed is answered.
#[test]
fn drives_that_latch() {
    let mut kit = pump();
    kit.new.next[16 * 5..16 * 6].fill(BARRED);
    assert_eq!(kit.accept(), Ok(()));
    let mut r = Rooms::new(SCRATCH, CONTROLLER, ENVIRONMENT, KIT);
    assert_eq!(r.solve(&kit), Ok((Winner::Environment, ENVIRONMENT)));
    assert!(r.room.iter().all(|&x| x == 11));
    // the lowest move where the new drive is stuck, the counter as it was
    for (i, lowest) in [0, 0, 1, 3].into_iter().enumerate() {
        for h in 0..4 {
            assert_eq!(r.environment[1 + (i * 4 + h) * 6 + 5], lowest + 128 * h as u16);
        }
    }
    kit.old.next[16 * 3..16 * 4].fill(BARRED);
    let v = kit.solve().unwrap();
    assert_eq!(v.winner, Winner::System);
    assert_eq!(v.table, kit_table(&kit, &game(&kit).solve().unwrap().table));
    // neither latched mode has a row
    for (n, rows) in v.table[4..].chunks(4).enumerate() {
        assert!((n % 4 != 3 && n / 20 != 5) || rows == [NONE; 4], "rows {n}");
    }
    assert!(every_loop_met(&kit, &v.table));
}

type Change = fn(&mut Kit);

// The changes that make a kit faulty, each with its number, in the order in which they are tried.
fn faults() -> Vec<(u8, Change)> {
    vec![
        (1, |k| k.old.modes = 0),
        (1, |k| k.new.modes = 129),
        (17, |k| k.new.commands = 0),
        (17, |k| k.old.commands = 17),
        (18, |k| k.old.next[16 * 2] = 4),
        (18, |k| k.new.next[16 * 5 + 4] = 254),
        (18, |k| k.old.next[4] = 0),
        (18, |k| k.new.next[16 * 127 + 15] = 0),
        (2, |k| k.old.initial |= Set::of(4)),
        (3, |k| k.new.initial = Set::from_bits(0)),
        (5, |k| k.k = 9),
        (6, |k| k.requirements[7].guaranteed = 5),
        (7, |k| k.requirements[0].guarantees[0] = OutSet(Set::from_bits(1 << 6))),
        (7, |k| k.requirements[1].assumptions[1] = InSet(Set::from_bits(1))),
        (7, |k| k.requirements[5].assumed = 1),
    ]
}

#[test]
fn each_fault_alone() {
    for (number, change) in faults() {
        let mut kit = pump();
        change(&mut kit);
        assert_eq!(kit.accept(), Err(refused(number)));
        let mut r = Rooms::new(600, CONTROLLER, ENVIRONMENT, KIT);
        assert_eq!(r.solve(&kit), Err(refused(number)));
        assert!(r.untouched());
        assert_eq!(kit.solve(), Err(refused(number)));
    }
    assert_eq!(Kit::default().accept(), Err(refused(1)));
}

// A kit with a fault and all later ones, in rooms that are too short.
#[test]
fn the_first_fault_is_told() {
    let faults = faults();
    for (n, &(number, _)) in faults.iter().enumerate() {
        let mut kit = pump();
        for (_, change) in &faults[n..] {
            change(&mut kit);
        }
        assert_eq!(kit.accept(), Err(refused(number)), "from fault {n}");
        let mut r = Rooms::new(SCRATCH - 1, CONTROLLER - 1, ENVIRONMENT - 1, KIT - 1);
        assert_eq!(r.solve(&kit), Err(refused(number)), "from fault {n}");
        assert!(r.untouched());
    }
}

#[test]
fn short_rooms_are_refused() {
    let rooms = [
        (8, SCRATCH - 1, CONTROLLER, ENVIRONMENT, KIT),
        (8, SCRATCH - 1, CONTROLLER - 1, ENVIRONMENT - 1, KIT - 1),
        (8, 0, 0, 0, 0),
        (9, SCRATCH, CONTROLLER - 1, ENVIRONMENT, KIT),
        (9, SCRATCH, CONTROLLER, ENVIRONMENT, KIT - 1),
        (9, SCRATCH, CONTROLLER, ENVIRONMENT - 1, KIT - 1),
        (9, SCRATCH, CONTROLLER - 1, ENVIRONMENT - 1, KIT),
        (10, SCRATCH, CONTROLLER, ENVIRONMENT - 1, KIT),
    ];
    // whoever wins
    for kit in [pump(), hopeless()] {
        for (number, s, c, e, t) in rooms {
            let mut r = Rooms::new(s, c, e, t);
            assert_eq!(r.solve(&kit), Err(refused(number)));
            assert!(r.untouched());
        }
        // rooms of the exact length are long enough
        assert_eq!(kit.scratch_words(), SCRATCH);
        assert!(Rooms::new(SCRATCH, CONTROLLER, ENVIRONMENT, KIT).solve(&kit).is_ok());
    }
}

// Random kits with up to three random changes: 1, 17 and 18 as defined, else what the kit's game is told.
#[test]
fn faulty_kits_at_random() {
    let mut draw = Draw(3);
    let mut told = [0; 19];
    for _ in 0..4_000 {
        let mut kit = draw.kit();
        for _ in 0..draw.below(4) {
            let d = if draw.below(2) == 0 { &mut kit.old } else { &mut kit.new };
            match draw.below(8) {
                0 => d.modes = [0, d.modes + 1, 128, 129][draw.below(4)],
                1 => d.commands = [0, d.commands + 1, 16, 17][draw.below(4)],
                2 => d.next[draw.below(96)] = draw.below(8) as u8,
                3 => d.next[draw.below(2_048)] = [0, 128, 254, 255][draw.below(4)],
                4 => d.initial = [Set::default(), Set::of(draw.below(128))][draw.below(2)],
                5 => d.next[16 * draw.below(6)..][..4].fill(BARRED),
                6 => kit.k = draw.below(10),
                _ => kit.requirements[draw.below(8)].assumed = draw.below(6),
            }
        }
        let both = [kit.old, kit.new];
        let unfit = |d: &Drive| {
            (0..128).any(|m| {
                (0..16).any(|u| next(d, m, u).is_some_and(|to| m >= d.modes || u >= d.commands || to >= d.modes))
            })
        };
        let wanted = if both.iter().any(|d| !(1..=128).contains(&d.modes)) {
            Err(refused(1))
        } else if both.iter().any(|d| !(1..=16).contains(&d.commands)) {
            Err(refused(17))
        } else if both.iter().any(unfit) {
            Err(refused(18))
        } else {
            game(&kit).accept()
        };
        assert_eq!(kit.accept(), wanted, "{kit:?}");
        told[wanted.map_or_else(|e| e.number as usize, |()| 0)] += 1;
    }
    for number in [0, 1, 2, 3, 5, 6, 7, 17, 18] {
        assert!(told[number] > 20, "number {number}: {told:?}");
    }
    assert_eq!(told[4], 0);
}

// 150 wins of each side. The answer is that to the kit's game, the kit's table is as defined, and on runs of it every closed loop meets the requirements.
#[test]
fn kits_at_random() {
    let mut draw = Draw(2);
    let mut wins = [0; 2];
    let (mut drawn, mut loops) = (0, 0);
    while wins != [150; 2] {
        drawn += 1;
        assert!(drawn < 1_000, "{wins:?}");
        let kit = draw.kit();
        let g = game(&kit);
        assert_eq!(kit.accept(), Ok(()));
        let mut by_game = Rooms::new(520, 800, 800, 0);
        let mut r = Rooms::new(520, 800, 800, 4_000);
        let (winner, entries) = g.solve_into(&mut by_game.scratch, &mut by_game.controller, &mut by_game.environment).unwrap();
        let system = winner == Winner::System;
        if wins[system as usize] == 150 {
            continue;
        }
        wins[system as usize] += 1;
        let said = r.solve(&kit).unwrap();
        assert_eq!(r.scratch, by_game.scratch);
        assert_eq!(r.controller, by_game.controller);
        assert_eq!(r.environment, by_game.environment);
        if !system {
            assert_eq!(said, (Winner::Environment, entries));
            assert!(r.room.iter().all(|&x| x == 11));
            continue;
        }
        let table = kit_table(&kit, &r.controller[..entries]);
        assert_eq!(said, (Winner::System, table.len()));
        assert_eq!(r.room[..table.len()], table);
        assert!(r.room[table.len()..].iter().all(|&x| x == 11));
        let begin = kit.old.initial.states().nth(draw.below(kit.old.initial.count())).unwrap();
        let mut run = vec![first(&table, begin)];
        assert!(kit.new.initial.has(run[0].1) && run[0].2 < counters(&kit));
        for n in 0..2_000 {
            let at = run[n];
            let u = draw.command(&kit.old, at.0);
            run.push(turn(&kit, &table, at, u));
        }
        loops += loops_met(&kit, &run);
        assert!(every_loop_met(&kit, &table), "{kit:?}");
    }
    assert!(loops > 1_000_000, "{loops}");
}

#[test]
fn the_largest_kit() {
    // command u leads from mode m to mode 16 m + u, counted round: two commands lead anywhere
    let rows: Vec<Vec<u8>> = (0..128).map(|m| (0..16).map(|u| ((16 * m + u) % 128) as u8).collect()).collect();
    let rows: Vec<&[u8]> = rows.iter().map(|row| &row[..]).collect();
    let d = drive(&[0], &rows);
    let q = requirement(&[&[0], &[1], &[2], &[3]], &[&[124], &[125], &[126], &[127]]);
    let kit = made_kit(d, d, &[q; 8]);
    let v = kit.solve().unwrap();
    assert_eq!((v.winner, v.table.len()), (Winner::System, KIT_MOST));
    assert_eq!(v.table, kit_table(&kit, &game(&kit).solve().unwrap().table));
    let mut r = Rooms::new(SCRATCH_MOST, CONTROLLER_MOST, ENVIRONMENT_MOST, KIT_MOST - 1);
    assert_eq!(r.solve(&kit), Err(refused(9)));
}
