//! The checker of tables: its numbers, what it leaves of the room, stuck states, and entries from prints. tests/beside compares its answers.
use nanpuwiq::*;

fn places(game: &Game) -> usize {
    let counters = game.requirements.iter().map(|q| q.guaranteed).sum::<usize>().max(1);
    game.input.states * game.output.states * counters
}

/// A game of one state a graph, and its only table.
fn point() -> Game {
    let one = Graph::new(&[0], &[&[0]]).unwrap();
    Game::new(one, one, &[Requirement::new(&[&[0]], &[&[0]]).unwrap()]).unwrap()
}

#[test]
fn numbers_come_in_their_order_and_leave_the_room() {
    let number = |game: &Game, table: &[u16], entries: usize| {
        let mut room = vec![7; entries];
        let answer = game.check_into(table, &mut room).map_err(|e| e.number);
        assert!(room.iter().all(|e| *e == 7));
        answer
    };
    let game = point();
    assert_eq!(number(&game, &[0, 0], WALK_ROOM), Ok(Checked::Wins));
    assert_eq!(number(&game, &[0, 0], WALK_ROOM - 1), Err(8));
    assert_eq!(number(&game, &[0], 0), Err(19));
    assert_eq!(number(&Game { k: 9, ..game }, &[0], 0), Err(5));
    // 128 inputs and 32 outputs with one counter are the most
    let ring = |n: usize| {
        let moves: Vec<[usize; 1]> = (0..n).map(|s| [(s + 1) % n]).collect();
        let rows: Vec<&[usize]> = moves.iter().map(|row| &row[..]).collect();
        Graph::new(&[0], &rows).unwrap()
    };
    let (input, output) = (ring(STATES), ring(CHECKED_PLACES / STATES));
    let sets = Requirement::new(&[], &[&[0], &[1]]).unwrap();
    let large = Game::new(input, output, &[sets]).unwrap();
    let table = vec![NONE; STATES + places(&large)];
    assert_eq!(number(&large, &table, 0), Err(20));
    let at_the_limit = Game::new(input, output, &[Requirement::new(&[], &[&[0]]).unwrap()]).unwrap();
    assert_eq!(places(&at_the_limit), CHECKED_PLACES);
    assert_eq!(number(&at_the_limit, &at_the_limit.solve().unwrap().table, WALK_ROOM), Ok(Checked::Wins));
    assert_eq!(number(&at_the_limit, &vec![NONE; STATES + places(&at_the_limit)], WALK_ROOM), Ok(Checked::BadStart(InState(0))));
}

#[test]
fn starts_of_other_inputs_and_stuck_states() {
    // input 0 moves to 1, which is stuck: no row is asked for after it; input 2 is not initial, its start is not looked at
    let input = Graph::new(&[0], &[&[1], &[], &[2]]).unwrap();
    let output = Graph::new(&[0], &[&[1], &[]]).unwrap();
    let game = Game::new(input, output, &[]).unwrap();
    let mut table = vec![NONE; 3 + 6];
    table[0] = 0;
    table[3 + 1] = 1;
    assert_eq!(game.check(&table).unwrap().0, Checked::Wins);
    // the output is stuck in 1 and the input is not: a bad row
    let moving = Graph::new(&[0], &[&[1], &[1], &[2]]).unwrap();
    let game = Game::new(moving, output, &[]).unwrap();
    table[3 + 3 + 1] = 1;
    let (checked, walk) = game.check(&table).unwrap();
    assert_eq!(checked, Checked::BadRow { walk: 2, next: InState(1) });
    let at = |input, output| Position { input: InState(input), output: OutState(output), counter: 0 };
    assert_eq!(walk, [at(0, 0), at(1, 1)]);
    // a counter past the range is none
    table[0] = STATES as u16;
    assert_eq!(game.check(&table).unwrap().0, Checked::BadStart(InState(0)));
}

#[test]
fn prints_become_entries_or_are_refused() {
    let game = point();
    let fault = |print: &str| game.entries_of_print(print.as_bytes()).map_err(|e| (e.line, e.fault));
    assert_eq!(fault("(wins system)\n(start 0 0)\n(step 0 0 0 0 0)\n"), Ok(vec![0, 0]));
    assert_eq!(fault("(wins system)\n"), Ok(vec![NONE, NONE]));
    assert_eq!(fault("(wins system)\n(step 0 0 0 5 3)\n"), Ok(vec![NONE, 5 + 3 * STATES as u16]));
    assert_eq!(fault("(wins environment)\n(start 0)\n"), Err((1, PrintFault::NotTheSystems)));
    assert_eq!(fault(""), Err((1, PrintFault::NotTheSystems)));
    assert_eq!(fault("(wins system)"), Err((1, PrintFault::NotTheSystems)));
    let lines = ["(start 0)\n", "(start 0 0 0)\n", "(start 00 0)\n", "(start 0  0)\n", "(start 0 -1)\n", "start 0 0\n", "(start 0 0)", "\n"];
    for line in lines {
        assert_eq!(fault(&format!("(wins system)\n{line}")), Err((2, PrintFault::NotALine)), "{line}");
    }
    assert_eq!(fault("(wins system)\n(start 1 0)\n"), Err((2, PrintFault::NoSuchRow)));
    assert_eq!(fault("(wins system)\n(step 0 1 0 0 0)\n"), Err((2, PrintFault::NoSuchRow)));
    assert_eq!(fault("(wins system)\n(start 0 0)\n(start 0 0)\n"), Err((3, PrintFault::Twice)));
    assert_eq!(fault("(wins system)\n(start 0 999)\n"), Err((2, PrintFault::NoEntry)));
    assert_eq!(fault("(wins system)\n(step 0 0 0 0 99999999)\n"), Err((2, PrintFault::NoEntry)));
}
