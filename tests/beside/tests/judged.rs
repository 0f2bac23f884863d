//! The checker of tables beside the second solver's judge of prints, on random, damaged and foreign tables. Every walk that is handed back is followed turn
//! by turn by the player's entries and by the records of the game, and its round is judged here.
use nanpuwiq::*;
use second::generate::{self, Draw, Family};
use second::walks;

/// The second solver's game as a record, by its text.
fn record(game: &second::game::Game) -> Game {
    Game::read(second::text::write(game).as_bytes()).expect("an accepted game")
}

fn counters(game: &Game) -> usize {
    game.requirements.iter().map(|q| q.guaranteed).sum::<usize>().max(1)
}

fn places(game: &Game) -> usize {
    game.input.states * game.output.states * counters(game)
}

/// The print of a controller's entries: what the second solver's judge reads. It has no counter in a start, so starts of other counters are not printed.
fn print(game: &Game, table: &[u16]) -> String {
    let (inputs, counters) = (game.input.states, counters(game));
    let mut text = String::from("(wins system)\n");
    for (row, &entry) in table.iter().enumerate().filter(|(_, entry)| **entry != NONE) {
        let (state, counter) = (usize::from(entry) % STATES, usize::from(entry) / STATES);
        if row < inputs {
            assert_eq!(counter, 0, "a start's counter");
            text += &format!("(start {row} {state})\n");
        } else {
            let (x, input) = ((row - inputs) / inputs, (row - inputs) % inputs);
            text += &format!("(step {} {} {input} {state} {counter})\n", x / counters, x % counters);
        }
    }
    text
}

/// Follows what was handed back; panics where it is not true of the table.
fn follow(game: &Game, table: &[u16], checked: Checked, walk: &[Position]) {
    if let Checked::BadStart(input) = checked {
        assert!(game.input.initial.has(input.0));
        assert_eq!(game.begin(table, input).map_err(|e| e.number), Err(15));
        return;
    }
    let mut at = game.begin(table, walk[0].input).expect("a first configuration");
    assert_eq!(at, walk[0]);
    for next in &walk[1..] {
        game.step(table, &mut at, next.input).expect("a turn");
        assert_eq!(at, *next);
    }
    match checked {
        Checked::BadRow { next, .. } => {
            assert!(game.input.moves[at.input.0].has(next.0));
            assert_eq!(game.step(table, &mut at, next).map_err(|e| e.number), Err(15));
        }
        Checked::BadRound { begins, requirement, .. } => {
            let round = &walk[begins..];
            assert!(round.len() > 1 && round[0] == round[round.len() - 1] && requirement < game.k);
            let q = game.requirements[requirement];
            let due = q.assumptions[..q.assumed].iter().all(|set| round.iter().any(|at| set.0.has(at.input.0)));
            let served = q.guarantees[..q.guaranteed].iter().all(|set| round.iter().any(|at| set.0.has(at.output.0)));
            assert!(due && !served, "the round does not break requirement {requirement}");
        }
        _ => unreachable!(),
    }
}

/// Checks a table: the room past the walk, the finding, and the judge's word. Says which answer it was.
fn judged(game: &Game, second: &second::game::Game, table: &[u16]) -> usize {
    let before: Vec<u16> = (0..WALK_ROOM + 3).map(|k| (k * 7919) as u16).collect();
    let mut room = before.clone();
    let checked = game.check_into(table, &mut room).expect("no number");
    assert_eq!(room[checked.walk()..], before[checked.walk()..]);
    let walk: Vec<Position> = room[..checked.walk()].iter().map(|place| game.position(*place)).collect();
    let wins = walks::check(second, &print(game, table)).is_ok();
    assert_eq!(checked == Checked::Wins, wins, "{checked:?}\n{}", print(game, table));
    if !wins {
        follow(game, table, checked, &walk);
    }
    match checked {
        Checked::Wins => 0,
        Checked::BadStart(_) => 1,
        Checked::BadRow { .. } => 2,
        Checked::BadRound { .. } => 3,
    }
}

/// A table with any legal reply in every row that has one, and any initial output: foreign to ours.
fn any_table(game: &Game, draw: &mut Draw) -> Vec<u16> {
    let (inputs, counters) = (game.input.states, counters(game));
    let members = |set: Set| set.states().collect::<Vec<usize>>();
    let first = members(game.output.initial);
    let mut table: Vec<u16> = (0..inputs).map(|_| draw.pick(&first) as u16).collect();
    for row in 0..places(game) {
        let moves = members(game.output.moves[row / inputs / counters]);
        table.push(match moves.is_empty() {
            true => NONE,
            false => (draw.pick(&moves) + STATES * draw.below(counters)) as u16,
        });
    }
    table
}

/// The table with some entries changed: to none, to another output, with another counter or one past the last, or to any state. Starts keep counter 0, which
/// prints have.
fn damaged(game: &Game, table: &[u16], draw: &mut Draw) -> Vec<u16> {
    let mut table = table.to_vec();
    for _ in 0..1 + draw.below(4) {
        let row = draw.below(table.len());
        table[row] = match draw.below(4) {
            0 => NONE,
            1 => draw.below(game.output.states) as u16,
            2 if row >= game.input.states => (draw.below(game.output.states) + STATES * draw.below(counters(game) + 1)) as u16,
            _ => draw.below(STATES) as u16,
        };
    }
    table
}

const FAMILIES: [Family; 9] = [
    Family::Tree,
    Family::Chain,
    Family::Lone,
    Family::Period,
    Family::Dense,
    Family::Sparse,
    Family::Copy,
    Family::Modes,
    Family::Edge,
];

#[test]
fn tables_are_judged_as_by_walks() {
    let mut draw = Draw::new(104);
    let mut seen = [[0; 4]; 3];
    for round in 0..6_000 {
        let family = draw.pick(&FAMILIES);
        let second = generate::game(family, &mut draw);
        let game = record(&second);
        if places(&game) > CHECKED_PLACES {
            continue;
        }
        let verdict = game.solve().expect("an accepted game");
        if verdict.winner == Winner::System {
            assert_eq!(judged(&game, &second, &verdict.table), 0, "a table of ours");
            seen[0][0] += 1;
            let bad = damaged(&game, &verdict.table, &mut draw);
            seen[1][judged(&game, &second, &bad)] += 1;
        }
        let foreign = any_table(&game, &mut draw);
        seen[2][judged(&game, &second, &foreign)] += 1;
        if round % 4 == 0 {
            let bad = damaged(&game, &foreign, &mut draw);
            judged(&game, &second, &bad);
        }
    }
    assert!(seen[0][0] > 100 && seen[1].iter().all(|n| *n > 3), "{seen:?}");
    assert!(seen[2][0] > 20 && seen[2][3] > 100, "{seen:?}");
}

/// A graph of n states, each with its own move or not, and up to `more` others.
fn graph(draw: &mut Draw, n: usize, more: usize) -> second::game::Graph {
    let moves = |s: usize, draw: &mut Draw| {
        let mut to: Vec<usize> = (0..1 + draw.below(more)).map(|_| draw.below(n)).collect();
        if draw.chance(50) {
            to.push(s);
        }
        to.sort();
        to.dedup();
        to
    };
    (0..n).map(|s| second::game::State { initial: s == 0 || draw.chance(5), moves: moves(s, draw) }).collect()
}

/// Tables with close to 4,096 places, of any legal replies, and some with replies that keep the output: their places are joined less.
#[test]
fn tables_at_the_limit_are_judged_as_by_walks() {
    let mut draw = Draw::new(4096);
    let mut seen = [0; 4];
    for round in 0..120 {
        let (inputs, outputs, sets) = draw.pick(&[(64, 64, 1), (32, 32, 4), (16, 16, 16), (8, 16, 32), (64, 2, 32), (40, 25, 4)]);
        let more = draw.pick(&[1, 2, 4, 12]);
        let set = |n: usize, draw: &mut Draw| (0..n).filter(|_| draw.chance(20)).collect::<Vec<usize>>();
        let requirements = (0..sets.min(8)).map(|_| second::game::Requirement {
            inputs: (0..draw.below(5)).map(|_| set(inputs, &mut draw)).collect(),
            outputs: (0..(sets / 8).max(1)).map(|_| set(outputs, &mut draw)).collect(),
        });
        let requirements = requirements.collect();
        let second = second::game::Game { inputs: graph(&mut draw, inputs, more), outputs: graph(&mut draw, outputs, more), requirements };
        let game = record(&second);
        assert!(places(&game) <= CHECKED_PLACES);
        let mut table = any_table(&game, &mut draw);
        if round % 2 == 0 {
            for row in 0..places(&game) {
                let (output, counter) = (row / inputs / counters(&game), row / inputs % counters(&game));
                if game.output.moves[output].has(output) && draw.chance(70) {
                    table[inputs + row] = (output + STATES * counter) as u16;
                }
            }
        }
        seen[judged(&game, &second, &table)] += 1;
    }
    assert!(seen[0] > 3 && seen[3] > 20, "{seen:?}");
}
