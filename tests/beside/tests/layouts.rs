//! The compact layout beside the second solver's: what the solver writes, stored tables moved both ways, refusals in their order, and rows read in place.
use nanpuwiq::*;
use second::generate::{self, Draw, Family};
use second::layout;

const FAMILIES: [Family; 9] = [
    Family::Tree,
    Family::Chain,
    Family::Lone,
    Family::Period,
    Family::Dense,
    Family::Sparse,
    Family::Copy,
    Family::Modes,
    Family::Edge,
];

/// The second solver's game as a record, by its text.
fn record(game: &second::game::Game) -> Game {
    Game::read(second::text::write(game).as_bytes()).expect("an accepted game")
}

fn counters(game: &Game) -> usize {
    game.requirements.iter().map(|q| q.guaranteed).sum::<usize>().max(1)
}

/// A move by the library into a room of so many entries: what it fills, the rest being as it was; on a refusal all of it.
fn moved(entries: usize, by: impl Fn(&mut [u16]) -> Result<usize, Error>) -> Result<Vec<u16>, u8> {
    let before: Vec<u16> = (0..entries).map(|k| (k * 7919 + 5) as u16).collect();
    let mut room = before.clone();
    let answer = by(&mut room).map_err(|error| error.number);
    let filled = *answer.as_ref().unwrap_or(&0);
    assert_eq!(room[filled..], before[filled..]);
    room.truncate(filled);
    answer.map(|_| room)
}

fn over(game: &Game, table: &[u16], entries: usize) -> Result<Vec<u16>, u8> {
    moved(entries, |room| game.to_compact_into(table, room))
}

fn back(game: &Game, table: &[u16], entries: usize) -> Result<Vec<u16>, u8> {
    moved(entries, |room| game.to_full_into(table, room))
}

/// Any entries at all, the same for inputs of one component, some of them damaged.
fn any_table(second: &second::game::Game, draw: &mut Draw) -> Vec<u16> {
    let (inputs, ranks) = (second.inputs.len(), layout::ranks(&second.inputs));
    let (long, _) = layout::lengths(second);
    let mut table: Vec<u16> = (0..inputs).map(|_| draw.below(65_536) as u16).collect();
    for _ in 0..(long - inputs) / inputs {
        let row: Vec<u16> = (0..inputs).map(|_| draw.below(65_536) as u16).collect();
        table.extend(ranks.iter().map(|&rank| row[rank]));
    }
    table
}

/// A table, now and then of another length or with an entry changed.
fn damaged(table: &[u16], draw: &mut Draw) -> Vec<u16> {
    let mut table = table.to_vec();
    match draw.below(5) {
        0 => table.push(0),
        1 => drop(table.pop()),
        2 | 3 => {
            let at = draw.below(table.len());
            table[at] = draw.below(128) as u16;
        }
        _ => {}
    }
    table
}

/// A room: long enough, or by one entry too short, or of any length.
fn room(most: usize, draw: &mut Draw) -> usize {
    match draw.below(4) {
        0 => most - 1,
        1 => draw.below(most + 1),
        _ => most + draw.below(5),
    }
}

/// One game with these tables: moves both ways beside the second solver's, each table read in place. Counts the answers by their number.
fn beside(second: &second::game::Game, game: &Game, draw: &mut Draw, seen: &mut [usize; 32]) {
    let (long, short) = layout::lengths(second);
    let any = any_table(second, draw);
    for table in [any.clone(), damaged(&any, draw)] {
        let entries = room(short, draw);
        let got = over(game, &table, entries);
        assert_eq!(got, layout::to_compact(second, &table, entries));
        seen[usize::from(got.as_ref().err().copied().unwrap_or(0))] += 1;
    }
    let compact = layout::to_compact(second, &any, short).expect("inputs of one component have one row");
    for table in [compact.clone(), damaged(&compact, draw)] {
        let entries = room(long, draw);
        let got = back(game, &table, entries);
        assert_eq!(got, layout::to_full(second, &table, entries));
        seen[usize::from(got.as_ref().err().copied().unwrap_or(0))] += 1;
    }
    assert_eq!(back(game, &over(game, &any, short).unwrap(), long), Ok(any.clone()));
    assert_eq!(over(game, &back(game, &compact, long).unwrap(), short), Ok(compact.clone()));
    read_in_place(game, &compact, &any);
}

/// Every row read from the compact layout is the full one's, and one past each count is none.
fn read_in_place(game: &Game, compact: &[u16], full: &[u16]) {
    let (inputs, counters) = (game.input.states, counters(game));
    let table = game.compact_table(compact).unwrap();
    for i in 0..=inputs {
        assert_eq!(table.start(InState(i)), if i < inputs { full[i] } else { NONE });
    }
    for o in 0..game.output.states {
        for g in 0..=counters {
            for j in 0..=inputs {
                let wanted = if g < counters && j < inputs { full[inputs + (o * counters + g) * inputs + j] } else { NONE };
                assert_eq!(table.row(OutState(o), g, InState(j)), wanted);
            }
        }
    }
}

#[test]
fn layouts_are_those_of_the_second_solver() {
    let mut draw = Draw::new(107);
    let (mut seen, mut written) = ([0; 32], 0);
    for _ in 0..6_000 {
        let family = draw.pick(&FAMILIES);
        let second = generate::game(family, &mut draw);
        let game = record(&second);
        let (long, short) = layout::lengths(&second);
        assert_eq!(game.components().unwrap(), layout::ranks(&second.inputs).iter().max().unwrap() + 1);
        let verdict = game.solve_compact().unwrap();
        match second::solve_in(&second, usize::MAX) {
            second::Answer::System(controller) => {
                let full = layout::full(&controller);
                assert_eq!((verdict.winner, full.len(), verdict.table.len()), (Winner::System, long, short));
                assert_eq!(Ok(verdict.table.clone()), layout::to_compact(&second, &full, short));
                assert_eq!(over(&game, &full, short), Ok(verdict.table.clone()));
                read_in_place(&game, &verdict.table, &full);
                written += 1;
            }
            second::Answer::Environment(_) => assert_eq!(verdict, game.solve().unwrap()),
            second::Answer::Refused(refusal) => panic!("{refusal:?}"),
        }
        beside(&second, &game, &mut draw, &mut seen);
    }
    assert!(written > 1_000 && [0, 9, 21, 22, 23].iter().all(|n| seen[*n] > 100), "{written} {seen:?}");
}

#[test]
fn rooms_are_tried_by_the_compact_layout() {
    // inputs {0, 1} and {2}, two components; one output: 3 + 3 + 2 entries, and 3 + 3 in the full layout
    let input = Graph::new(&[0], &[&[1, 2], &[0], &[2]]).unwrap();
    let output = Graph::new(&[0], &[&[0]]).unwrap();
    let game = Game::new(input, output, &[]).unwrap();
    let tried = |scratch: usize, controller: usize, panel: usize| {
        let before = (vec![5; scratch], vec![6; controller], vec![7; panel]);
        let mut lent = before.clone();
        let answer = game.solve_compact_into(&mut lent.0, &mut lent.1, &mut lent.2).map_err(|error| error.number);
        assert!(answer.is_ok() || lent == before);
        (answer, lent.1)
    };
    let words = game.scratch_words();
    assert_eq!(tried(words - 1, 0, 0).0, Err(8));
    assert_eq!(tried(words, 7, 0).0, Err(9));
    assert_eq!(tried(words, 8, 0).0, Err(10));
    assert_eq!(tried(words, 9, 4), (Ok((Winner::System, 8)), vec![0, NONE, NONE, 0, 0, 1, 0, 0, 6]));
    assert_eq!(game.to_compact_into(&[0; 6], &mut [0; 7]).map_err(|error| error.number), Err(9));
    assert_eq!(game.to_compact_into(&[0, 0, 0, 1, 2, 0], &mut []).map_err(|error| error.number), Err(21));
    assert_eq!(game.to_compact_into(&[0; 5], &mut []).map_err(|error| error.number), Err(23));
    assert_eq!(game.to_full_into(&[0, 0, 0, 0, 1, 1, 0, 0], &mut []).map_err(|error| error.number), Err(22));
    assert_eq!(game.to_full_into(&[0; 7], &mut []).map_err(|error| error.number), Err(23));
    assert_eq!(game.to_full_into(&[0, 0, 0, 0, 0, 1, 3, 4], &mut [9; 5]).map_err(|error| error.number), Err(9));
    assert_eq!(game.to_full(&[9, 8, 7, 0, 0, 1, 3, 4]), Ok(vec![9, 8, 7, 3, 3, 4]));
    assert_eq!(Game { k: 9, ..game }.to_full(&[]).map_err(|error| error.number), Err(5));
    assert_eq!(Game { k: 9, ..game }.components().map_err(|error| error.number), Err(5));
}

#[test]
fn the_largest_tables() {
    // 128 inputs that each keep to themselves: the compact layout is the longer one
    let rows: Vec<[usize; 1]> = (0..STATES).map(|s| [s]).collect();
    let rows: Vec<&[usize]> = rows.iter().map(|row| &row[..]).collect();
    let apart = Graph::new(&[0], &rows).unwrap();
    let all: Vec<usize> = (0..STATES).collect();
    let complete = Graph::new(&[0], &vec![&all[..]; STATES]).unwrap();
    let sets: Vec<[usize; 1]> = (0..SETS).map(|s| [s]).collect();
    let sets: Vec<&[usize]> = sets.iter().map(|set| &set[..]).collect();
    let requirements = [Requirement::new(&[], &sets).unwrap(); REQUIREMENTS];
    let game = Game::new(apart, complete, &requirements).unwrap();
    let full = game.solve().unwrap().table;
    let compact = game.solve_compact().unwrap().table;
    assert_eq!((full.len(), compact.len()), (CONTROLLER_MOST, COMPACT_MOST));
    assert_eq!(game.to_compact(&full).unwrap(), compact);
    assert_eq!(game.to_full(&compact).unwrap(), full);
    // one component: a row for each output and counter
    let game = Game::new(complete, complete, &requirements).unwrap();
    let full = game.solve().unwrap().table;
    let compact = game.solve_compact().unwrap().table;
    assert_eq!((full.len(), compact.len()), (CONTROLLER_MOST, 2 * STATES + STATES * REQUIREMENTS * SETS));
    assert_eq!(game.to_compact(&full).unwrap(), compact);
    assert_eq!(game.to_full(&compact).unwrap(), full);
}
