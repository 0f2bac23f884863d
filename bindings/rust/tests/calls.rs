//! Every entry called through the safe wrapper: the example, an environment's win, each refusal, buffers after a refusal, a player's run.
mod made;

use made::*;
use nanpuwiq::*;

const TEXT: &[u8] = b"(game 2 2 1)\n(in 0 1 (0 1))\n(in 1 0 (0 1))\n(out 0 1 (0 1))\n(out 1 0 (0 1))\n(if ((1)) ((1)))\n";

fn example() -> Game {
    made(
        graph(&[0], &[&[0, 1], &[0, 1]]),
        graph(&[0], &[&[0, 1], &[0, 1]]),
        &[requirement(&[&[1]], &[&[1]])],
    )
}

// One state each with a self-move.
fn single(requirements: &[Requirement]) -> Game {
    made(graph(&[0], &[&[0]]), graph(&[0], &[&[0]]), requirements)
}

// Case 6: the output commits too early.
fn early() -> Game {
    made(
        graph(&[0], &[&[1], &[2, 3], &[2], &[3]]),
        graph(&[0], &[&[1, 2], &[1], &[2]]),
        &[requirement(&[&[2]], &[&[1]]), requirement(&[&[3]], &[&[2]])],
    )
}

fn refused(number: u8) -> Error {
    Error { number, place: 0 }
}

// A wrong game for each of 1 to 7 but 4, which does not occur.
fn faulty() -> Vec<(u8, Game)> {
    let mut all = Vec::new();
    let mut add = |number, change: fn(&mut Game)| {
        let mut g = example();
        change(&mut g);
        all.push((number, g));
    };
    add(1, |g| g.input.states = 0);
    add(1, |g| g.output.states = 129);
    add(2, |g| g.input.moves[0] = Set::from_bits(4));
    add(2, |g| g.output.initial = Set::from_bits(4));
    add(2, |g| g.output.moves[127] = Set::from_bits(1));
    add(3, |g| g.input.initial = Set::from_bits(0));
    add(5, |g| g.k = 9);
    add(6, |g| g.requirements[7].guaranteed = 5);
    add(7, |g| g.requirements[0].assumptions[0] = InSet(Set::from_bits(4)));
    add(7, |g| g.requirements[0].guarantees[1] = OutSet(Set::from_bits(1)));
    add(7, |g| g.requirements[1].assumed = 1);
    add(1, |g| *g = Game::default());
    all
}

#[test]
fn the_example() {
    let v = example().solve().unwrap();
    assert_eq!(v.winner, Winner::System);
    assert_eq!(v.table, [0, NONE, 1, 1, 1, 1]);
    assert_eq!(example().won_map().unwrap(), [Set::from_bits(3); 2]);
    assert_eq!(example().accept(), Ok(()));
}

#[test]
fn wins_of_the_environment() {
    let v = single(&[requirement(&[&[0]], &[&[]])]).solve().unwrap();
    assert_eq!((v.winner, v.table), (Winner::Environment, vec![0, 0]));
    let v = single(&[requirement(&[], &[&[]])]).solve().unwrap();
    assert_eq!((v.winner, v.table), (Winner::Environment, vec![0, 0]));
    let v = early().solve().unwrap();
    assert_eq!((v.winner, v.table.len()), (Winner::Environment, 1 + 4 * 2 * 3));
    assert_eq!(v.table[0], 0);
    assert_eq!(early().won_map().unwrap()[0], Set::default());
}

#[test]
fn wins_of_the_system() {
    let v = single(&[]).solve().unwrap();
    assert_eq!((v.winner, v.table), (Winner::System, vec![0, 0]));
    let v = single(&[requirement(&[&[]], &[&[]])]).solve().unwrap();
    assert_eq!(v.winner, Winner::System);
    let mut g = early();
    g.output.moves[0] = Set::from_bits(7);
    assert_eq!(g.solve().unwrap().winner, Winner::System);
}

#[test]
fn rows_of_case_8() {
    let s = |s: usize| requirement(&[&[s]], &[&[s]]);
    let g = made(
        graph(&[0], &[&[1, 2], &[1], &[2]]),
        graph(&[0], &[&[1, 2], &[0], &[2]]),
        &[s(0), s(1), s(2)],
    );
    let v = g.solve().unwrap();
    assert_eq!((v.winner, v.table.len()), (Winner::System, 3 + 3 * 3 * 3));
    let row = |o: usize, c: usize, j: usize| {
        let e = v.table[3 + (o * 3 + c) * 3 + j];
        (e % 128, e / 128)
    };
    assert_eq!(row(0, 0, 1), (1, 0));
    assert_eq!(row(1, 0, 1), (0, 1));
    assert_eq!(row(0, 1, 1), (1, 2));
    assert_eq!(row(1, 2, 1), (0, 1));
    assert_eq!(row(0, 0, 2), (2, 0));
}

#[test]
fn faulty_games_are_refused_by_every_entry() {
    for (number, g) in faulty() {
        let mut scratch = vec![7u64; 800];
        let mut map = vec![8u64; 260];
        let mut controller = vec![9u16; 200];
        let mut environment = vec![10u16; 200];
        let mut text = vec![11u8; 300];
        assert_eq!(g.accept(), Err(refused(number)));
        assert_eq!(g.won_map_into(&mut scratch, &mut map), Err(refused(number)));
        assert_eq!(g.solve_into(&mut scratch, &mut controller, &mut environment), Err(refused(number)));
        assert_eq!(g.write_into(&mut text), Err(refused(number)));
        assert_eq!(g.begin(&controller, InState(0)), Err(refused(number)));
        let old = Position { input: InState(1), output: OutState(1), counter: 3 };
        let mut at = old;
        assert_eq!(g.step(&controller, &mut at, InState(0)), Err(refused(number)));
        assert_eq!(at, old);
        assert_eq!(g.advance(&controller, &mut at, InState(0)), Err(refused(number)));
        assert_eq!(at, old);
        assert_eq!(g.compare(&controller, InRecording(&[0]), OutRecording(&[0])), Err(refused(number)));
        assert!(scratch.iter().all(|&x| x == 7) && map.iter().all(|&x| x == 8) && text.iter().all(|&x| x == 11));
        assert!(controller.iter().all(|&x| x == 9) && environment.iter().all(|&x| x == 10));
    }
}

#[test]
fn short_buffers_are_refused() {
    let g = example();
    let mut scratch = vec![7u64; g.scratch_words()];
    let mut map = vec![8u64; 4];
    let mut controller = vec![9u16; 6];
    let mut environment = vec![10u16; 5];
    let calls: [(u8, usize, usize, usize); 5] = [(8, 11, 6, 5), (8, 11, 0, 0), (9, 12, 5, 5), (9, 12, 5, 4), (10, 12, 6, 4)];
    for (number, s, c, e) in calls {
        let r = g.solve_into(&mut scratch[..s], &mut controller[..c], &mut environment[..e]);
        assert_eq!(r, Err(refused(number)));
    }
    assert_eq!(g.won_map_into(&mut scratch[..11], &mut map), Err(refused(8)));
    assert_eq!(g.won_map_into(&mut scratch, &mut map[..3]), Err(refused(8)));
    assert_eq!(g.won_map_into(&mut [], &mut []), Err(refused(8)));
    let mut text = vec![11u8; TEXT.len()];
    assert_eq!(g.write_into(&mut text[..TEXT.len() - 1]), Err(refused(13)));
    assert_eq!(g.write_into(&mut []), Err(refused(13)));
    assert!(scratch.iter().all(|&x| x == 7) && map.iter().all(|&x| x == 8) && text.iter().all(|&x| x == 11));
    assert!(controller.iter().all(|&x| x == 9) && environment.iter().all(|&x| x == 10));
    // buffers of the exact length are long enough
    assert_eq!(g.solve_into(&mut scratch, &mut controller, &mut environment), Ok((Winner::System, 6)));
    assert_eq!(g.won_map_into(&mut scratch, &mut map), Ok(()));
    assert_eq!(g.write_into(&mut text), Ok(TEXT.len()));
    assert_eq!(text, TEXT);
}

#[test]
fn the_rest_of_the_buffers_stays() {
    let g = example();
    let mut scratch = vec![7u64; 600];
    let mut map = vec![8u64; 6];
    let mut controller = vec![9u16; 20];
    let mut environment = vec![10u16; 20];
    let mut text = vec![11u8; 200];
    assert_eq!(g.won_map_into(&mut scratch, &mut map), Ok(()));
    assert_eq!(map, [3, 0, 3, 0, 8, 8]);
    assert!(scratch[..12].iter().all(|&x| x == 0) && scratch[12..].iter().all(|&x| x == 7));
    assert_eq!(g.solve_into(&mut scratch, &mut controller, &mut environment), Ok((Winner::System, 6)));
    assert_eq!(controller[..6], [0, NONE, 1, 1, 1, 1]);
    assert!(controller[6..].iter().all(|&x| x == 9) && environment.iter().all(|&x| x == 10));
    assert!(scratch[..12].iter().all(|&x| x == 0) && scratch[12..].iter().all(|&x| x == 7));
    assert_eq!(g.write_into(&mut text), Ok(TEXT.len()));
    assert!(text.starts_with(TEXT) && text[TEXT.len()..].iter().all(|&x| x == 11));
    let g = single(&[requirement(&[&[0]], &[&[]])]);
    let mut controller = vec![9u16; 20];
    assert_eq!(g.solve_into(&mut scratch, &mut controller, &mut environment), Ok((Winner::Environment, 2)));
    assert_eq!(environment[..2], [0, 0]);
    assert!(environment[2..].iter().all(|&x| x == 10) && controller.iter().all(|&x| x == 9));
}

#[test]
fn texts() {
    assert_eq!(Game::read(TEXT), Ok(example()));
    assert_eq!(example().write().unwrap(), TEXT);
    assert_eq!(Game::read(b""), Err(Error { number: 11, place: 0 }));
    let mut longer = TEXT.to_vec();
    longer.push(b'\n');
    assert_eq!(Game::read(&longer), Err(Error { number: 11, place: TEXT.len() }));
    for n in 0..TEXT.len() {
        assert_eq!(Game::read(&TEXT[..n]), Err(Error { number: 11, place: n }));
    }
    assert_eq!(Game::read(&vec![b'('; 40_961]), Err(refused(12)));
    assert_eq!(Game::read(&vec![b'('; 40_960]), Err(Error { number: 11, place: 1 }));
    assert_eq!(Game::read(b"(game 1 1 0)\n(in 0 0 (0))\n(out 0 1 (0))\n"), Err(refused(3)));
    assert_eq!(Game::read(b"(game 1 1 0)\n(in 0 1 (1))\n(out 0 1 (0))\n"), Err(refused(2)));
    assert_eq!(Game::read(b"(game 1 1 1)\n(in 0 1 (0))\n(out 0 1 (0))\n(if ((1)) ())\n"), Err(refused(7)));
    assert_eq!(Game::read(b"").unwrap_err().to_string(), "refused 11 0: bytes that are no game's text");
}

// Every number has its words, from the list that the C header includes; tests/words.py holds C and docs/API.md to it.
#[test]
fn words_for_numbers() {
    assert_eq!(words(0), "not refused");
    assert_eq!(words(3), "no initial state");
    assert_eq!(words(255), "no number of a refusal");
    assert_eq!(refused(16).to_string(), "refused 16: a table of another length, or a position that the game does not have");
    let listed = include_str!("../../../include/nanpuwiq_words.h");
    for number in 0..=255 {
        let line = format!("NANPUWIQ_WORDS({number}, \"{}\")", words(number));
        let told = number == 0 || words(number) == words(255);
        assert_eq!(listed.lines().any(|other| other == line), !told, "{number}");
    }
}

// A state without a move is accepted, read and written; whoever has to move there loses.
#[test]
fn drives_that_latch() {
    let solved = |text: &[u8]| {
        let g = Game::read(text).unwrap();
        assert_eq!(g.accept(), Ok(()));
        assert_eq!(g.write().unwrap(), text);
        g.solve().unwrap()
    };
    let stuck_output = solved(b"(game 1 1 0)\n(in 0 1 (0))\n(out 0 1 ())\n");
    assert_eq!(stuck_output, Verdict { winner: Winner::Environment, table: vec![0, 0] });
    let stuck_input = solved(b"(game 1 1 1)\n(in 0 1 ())\n(out 0 1 (0))\n(if () (()))\n");
    assert_eq!(stuck_input, Verdict { winner: Winner::System, table: vec![0, 0] });
    let both = solved(b"(game 1 1 1)\n(in 0 1 ())\n(out 0 1 ())\n(if () (()))\n");
    assert_eq!(both, Verdict { winner: Winner::System, table: vec![0, NONE] });
}

#[test]
fn a_players_run() {
    let g = example();
    let table = g.solve().unwrap().table;
    let mut at = g.begin(&table, InState(0)).unwrap();
    assert_eq!(at, Position { input: InState(0), output: OutState(0), counter: 0 });
    for (k, next) in [1, 0, 0, 1, 1, 0].into_iter().enumerate() {
        g.step(&table, &mut at, InState(next)).unwrap();
        assert_eq!(at, Position { input: InState(next), output: OutState(1), counter: 0 }, "step {k}");
    }
}

#[test]
fn a_players_refusals() {
    let g = example();
    let table = g.solve().unwrap().table;
    assert_eq!(g.begin(&table[..5], InState(0)), Err(refused(16)));
    assert_eq!(g.begin(&[], InState(9)), Err(refused(16)));
    assert_eq!(g.begin(&table, InState(1)), Err(refused(14)));
    assert_eq!(g.begin(&table, InState(usize::MAX)), Err(refused(14)));
    // a start of none, of a counter out of range, of an output that is not initial
    for entry in [NONE, 128, 1] {
        let mut other = table.clone();
        other[0] = entry;
        assert_eq!(g.begin(&other, InState(0)), Err(refused(15)));
    }
    let here = Position { input: InState(0), output: OutState(1), counter: 0 };
    let mut cases = vec![
        (16, table[..5].to_vec(), here, 0),
        (16, table.clone(), Position { input: InState(2), ..here }, 0),
        (16, table.clone(), Position { output: OutState(2), ..here }, 0),
        (16, table.clone(), Position { counter: 1, ..here }, 0),
        (14, table.clone(), here, 2),
    ];
    // row (1, 0, 0): none, a counter out of range, an output that is no move
    for entry in [NONE, 128, 2] {
        let mut other = table.clone();
        other[4] = entry;
        cases.push((15, other, here, 0));
    }
    for (number, table, old, next) in cases {
        let mut at = old;
        assert_eq!(g.step(&table, &mut at, InState(next)), Err(refused(number)));
        assert_eq!(at, old);
        assert_eq!(g.advance(&table, &mut at, InState(next)), Err(refused(number)));
        assert_eq!(at, old);
    }
}

// Three inputs and three outputs, every move there, two requirements with three guarantees in all.
fn three() -> Game {
    let all: &[usize] = &[0, 1, 2];
    made(
        graph(all, &[all; 3]),
        graph(&[0], &[all; 3]),
        &[requirement(&[&[1]], &[&[1], &[2]]), requirement(&[&[2]], &[&[0]])],
    )
}

#[test]
fn a_lent_position_moves_on() {
    let g = example();
    let table = g.solve().unwrap().table;
    let mut at = g.begin(&table, InState(0)).unwrap();
    assert_eq!(g.advance(&table, &mut at, InState(1)), Ok(()));
    assert_eq!(at, Position { input: InState(1), output: OutState(1), counter: 0 });
}

#[test]
fn a_long_run() {
    let g = three();
    let v = g.solve().unwrap();
    assert_eq!(v.winner, Winner::System);
    let mut at = g.begin(&v.table, InState(0)).unwrap();
    let mut seed = 1u64;
    let mut kept = 0;
    let mut counters = [false; 3];
    for k in 0..10_000 {
        seed = seed.wrapping_mul(6_364_136_223_846_793_005).wrapping_add(1_442_695_040_888_963_407);
        // one in four is no input
        let next = InState((seed >> 62) as usize);
        let mut other = at;
        let old = at;
        let said = g.advance(&v.table, &mut at, next);
        assert_eq!(said, g.step(&v.table, &mut other, next), "step {k}");
        assert_eq!(at, other, "step {k}");
        assert_eq!(said, if next.0 < 3 { Ok(()) } else { Err(refused(14)) }, "step {k}");
        if said.is_err() {
            kept += 1;
            assert_eq!(at, old, "step {k}");
        } else {
            assert_eq!(at.input, next, "step {k}");
        }
        counters[at.counter] = true;
    }
    assert!(kept > 2_000 && kept < 3_000, "{kept}");
    assert_eq!(counters, [true; 3]);
}

#[test]
fn the_largest_game() {
    let all: Vec<usize> = (0..128).collect();
    let rows = vec![&all[..]; 128];
    let q: Requirement = requirement(&[&[0], &[1], &[2], &[3]], &[&[124], &[125], &[126], &[127]]);
    let g = made(graph(&all, &rows), graph(&all, &rows), &[q; 8]);
    let v = g.solve().unwrap();
    assert_eq!((v.winner, v.table.len()), (Winner::System, CONTROLLER_MOST));
    assert_eq!(g.won_map().unwrap(), vec![Set::from_bits(u128::MAX); 128]);
    // its text is written, and is longer than what is read
    let text = g.write().unwrap();
    assert!(text.len() > TEXT_MOST);
    assert_eq!(Game::read(&text), Err(refused(12)));
    let mut short = vec![0; CONTROLLER_MOST - 1];
    let r = g.solve_into(&mut [0; SCRATCH_MOST], &mut short, &mut vec![0; ENVIRONMENT_MOST]);
    assert_eq!(r, Err(refused(9)));
    // one word of scratch under 2 × (2 × inputs + outputs) gets 8; that many pass, are zero afterwards, and no word past them is
    assert_eq!(g.scratch_words(), SCRATCH_MOST);
    let mut scratch = [7; SCRATCH_MOST + 1];
    let (mut controller, mut environment, mut map) = (vec![0; CONTROLLER_MOST], vec![0; ENVIRONMENT_MOST], [0; SET_WORDS * 128]);
    assert_eq!(g.solve_into(&mut scratch[..SCRATCH_MOST - 1], &mut controller, &mut environment), Err(refused(8)));
    assert_eq!(g.won_map_into(&mut scratch[..SCRATCH_MOST - 1], &mut map), Err(refused(8)));
    assert_eq!(scratch, [7; SCRATCH_MOST + 1]);
    assert!(g.solve_into(&mut scratch, &mut controller, &mut environment).is_ok());
    assert_eq!((&scratch[..SCRATCH_MOST], scratch[SCRATCH_MOST]), (&[0; SCRATCH_MOST][..], 7));
    scratch.fill(7);
    assert!(g.won_map_into(&mut scratch, &mut map).is_ok());
    assert_eq!((&scratch[..SCRATCH_MOST], scratch[SCRATCH_MOST]), (&[0; SCRATCH_MOST][..], 7));
}

// Every size of up to 9 states a side: the words that are asked for, one less, one more.
#[test]
fn scratch_of_every_small_size() {
    for inputs in 1..10 {
        for outputs in 1..10 {
            let turning = |n: usize| -> Graph {
                let rows: Vec<[usize; 1]> = (0..n).map(|s| [(s + 1) % n]).collect();
                let rows: Vec<&[usize]> = rows.iter().map(|row| &row[..]).collect();
                graph(&[0], &rows)
            };
            let g = made(turning(inputs), turning(outputs), &[requirement(&[&[0]], &[&[0]])]);
            let n = SET_WORDS * (2 * inputs + outputs);
            assert_eq!(g.scratch_words(), n);
            let mut scratch = vec![7; n + 3];
            let (mut controller, mut environment, mut map) = (vec![0; 100], vec![0; 100], [0; 20]);
            assert_eq!(g.solve_into(&mut scratch[..n - 1], &mut controller, &mut environment), Err(refused(8)));
            assert_eq!(g.won_map_into(&mut scratch[..n - 1], &mut map), Err(refused(8)));
            assert!(scratch.iter().all(|&x| x == 7));
            for length in [n, n + 3] {
                scratch.fill(7);
                assert!(g.solve_into(&mut scratch[..length], &mut controller, &mut environment).is_ok());
                assert!(scratch[..n].iter().all(|&x| x == 0) && scratch[n..].iter().all(|&x| x == 7));
                scratch.fill(7);
                assert!(g.won_map_into(&mut scratch[..length], &mut map).is_ok());
                assert!(scratch[..n].iter().all(|&x| x == 0) && scratch[n..].iter().all(|&x| x == 7));
            }
        }
    }
}
