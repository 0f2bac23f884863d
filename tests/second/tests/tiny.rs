//! Every tiny game, dead ends or not, from every position: the table handed
//! over wins by walks alone. Since not both sides can win, the verdict is the
//! right one too.

use second::game::{Game, Graph, Requirement, Set, State};
use second::generate::Draw;
use second::walks::{check, Side};
use second::{print::print, solve};

/// The states of a set of bits.
fn states(bits: usize) -> Set {
    (0..3).filter(|state| bits >> state & 1 == 1).collect()
}

/// The graph whose rows of moves stand one after the other in the bits.
fn graph(count: usize, bits: usize) -> Graph {
    let row = |state: usize| states(bits >> (state * count) & ((1 << count) - 1));
    (0..count).map(|state| State { initial: false, moves: row(state) }).collect()
}

fn requirement(inputs: &[usize], outputs: &[usize]) -> Requirement {
    let sets = |list: &[usize]| list.iter().map(|&bits| states(bits)).collect();
    Requirement { inputs: sets(inputs), outputs: sets(outputs) }
}

/// Solves the game begun at each of its positions; counts the winners.
fn each_position(game: &mut Game, winners: &mut [usize; 2]) {
    for input in 0..game.inputs.len() {
        for output in 0..game.outputs.len() {
            game.inputs.iter_mut().enumerate().for_each(|(i, state)| state.initial = i == input);
            game.outputs.iter_mut().enumerate().for_each(|(o, state)| state.initial = o == output);
            let text = print(&solve(game));
            let side = check(game, &text).unwrap_or_else(|why| panic!("{why}\n{game:?}\n{text}"));
            winners[usize::from(side == Side::Environment)] += 1;
        }
    }
}

/// No requirement, or one of one set each side, or one without input sets.
#[test]
fn every_game_of_two_states_each() {
    let mut winners = [0; 2];
    for (inputs, outputs) in (0..16).flat_map(|inputs| (0..16).map(move |outputs| (inputs, outputs))) {
        let mut requirements = vec![vec![]];
        for set in 0..4 {
            requirements.push(vec![requirement(&[], &[set])]);
            requirements.extend((0..4).map(|first| vec![requirement(&[first], &[set])]));
        }
        for requirements in requirements {
            let mut game = Game { inputs: graph(2, inputs), outputs: graph(2, outputs), requirements };
            each_position(&mut game, &mut winners);
        }
    }
    assert!(winners.iter().all(|&count| count > 1_000), "{winners:?}");
}

/// Games of three states each with up to two requirements, drawn at random.
#[test]
fn many_games_of_three_states_each() {
    let mut draw = Draw::new(2);
    let mut winners = [0; 2];
    for _ in 0..20_000 {
        let sets = |draw: &mut Draw| (0..draw.below(3)).map(|_| draw.below(8)).collect::<Vec<usize>>();
        let one = |draw: &mut Draw| requirement(&sets(draw), &sets(draw));
        let requirements = (0..draw.below(3)).map(|_| one(&mut draw)).collect();
        let mut game = Game { inputs: graph(3, draw.below(512)), outputs: graph(3, draw.below(512)), requirements };
        each_position(&mut game, &mut winners);
    }
    assert!(winners.iter().all(|&count| count > 10_000), "{winners:?}");
}
