//! Seeded games and damaged texts. Each family is there because some wrong
//! reading of document 01 stays unseen without it. Drives that latch occur in
//! every family.

mod damage;
mod draw;
mod shapes;

use damage::damaged;
pub use draw::Draw;

use crate::game::{Game, Graph, Requirement, Set, State};
use crate::solve::{Solved, ROOM};
use shapes::{Shape, SHAPES};

#[derive(Clone, Copy, Debug, PartialEq, Eq, Hash)]
pub enum Family {
    /// Trees with self-moves on the leaves.
    Tree,
    /// Chains of components.
    Chain,
    /// Lone states without a self-move between components.
    Lone,
    /// Cycles of period 2, in chains.
    Period,
    Dense,
    Sparse,
    /// Outputs that are changed copies of the inputs; {s} then {s}.
    Copy,
    /// The multi-mode hardware of source document 000, also changed.
    Modes,
    /// Empty sets and empty lists of sets.
    Edge,
    /// Games refused with 2, 3 or 7.
    Faulty,
    /// 64 states each, rooms sufficient.
    Large,
    /// Rooms just sufficient, or too short: 9 and 10.
    Rooms,
    /// Texts that may have no shape.
    Damaged,
    /// 65 to 128 states in one graph at least.
    Wide,
}

/// The families of small accepted games, each as often as its share of twenty.
pub const SMALL: [(Family, usize); 9] = [
    (Family::Tree, 3),
    (Family::Chain, 3),
    (Family::Lone, 3),
    (Family::Period, 2),
    (Family::Dense, 1),
    (Family::Sparse, 2),
    (Family::Copy, 3),
    (Family::Modes, 1),
    (Family::Edge, 2),
];

/// Every family in the order of the report.
pub const FAMILIES: [Family; 14] = [
    Family::Tree,
    Family::Chain,
    Family::Lone,
    Family::Period,
    Family::Dense,
    Family::Sparse,
    Family::Copy,
    Family::Modes,
    Family::Edge,
    Family::Faulty,
    Family::Large,
    Family::Rooms,
    Family::Damaged,
    Family::Wide,
];

/// The text of one family member.
pub fn text(family: Family, draw: &mut Draw) -> Vec<u8> {
    match family {
        Family::Damaged => damaged(draw),
        _ => crate::text::write(&game(family, draw)).into_bytes(),
    }
}

/// A game of the family, which has to be another than the damaged texts.
pub fn game(family: Family, draw: &mut Draw) -> Game {
    match family {
        Family::Tree => balanced(draw, |draw| shaped(Shape::Tree, draw)),
        Family::Chain => balanced(draw, |draw| shaped(Shape::Chain, draw)),
        Family::Lone => balanced(draw, |draw| shaped(Shape::Lone, draw)),
        Family::Period => balanced(draw, |draw| shaped(Shape::Period, draw)),
        Family::Dense => balanced(draw, |draw| shaped(Shape::Dense, draw)),
        Family::Sparse => balanced(draw, |draw| shaped(Shape::Sparse, draw)),
        Family::Copy => balanced(draw, copy),
        Family::Modes => balanced(draw, modes),
        Family::Edge => balanced(draw, edge),
        Family::Large => balanced(draw, large),
        Family::Rooms => rooms(draw),
        Family::Wide => wide(draw),
        Family::Faulty | Family::Damaged => faulty(draw),
    }
}

/// Draws until a winner chosen beforehand wins, a few times at most, so that
/// both verdicts occur often in each family.
fn balanced(draw: &mut Draw, make: impl Fn(&mut Draw) -> Game) -> Game {
    let (system, latching) = (draw.chance(50), draw.pick(&LATCHING));
    let make = |draw: &mut Draw| latched(make(draw), latching, draw);
    let mut game = make(draw);
    for _ in 0..19 {
        if Solved::new(&game).panel_start().is_none() == system {
            break;
        }
        game = make(draw);
    }
    game
}

/// Whether inputs and outputs get dead ends.
const LATCHING: [(bool, bool); 4] = [(true, false), (false, true), (true, true), (false, false)];

fn latched(mut game: Game, (inputs, outputs): (bool, bool), draw: &mut Draw) -> Game {
    if inputs {
        latch(&mut game.inputs, draw);
    }
    if outputs {
        latch(&mut game.outputs, draw);
    }
    game
}

/// Takes the moves of one state, or a few. Often it is a state that a play can
/// keep off, and often another state gets a move there.
fn latch(graph: &mut Graph, draw: &mut Draw) {
    for _ in 0..1 + draw.below(1 + graph.len() / 4) {
        let avoidable: Vec<usize> = (0..graph.len()).filter(|&state| is_avoidable(graph, state)).collect();
        let stuck =
            if avoidable.is_empty() || draw.chance(40) { draw.below(graph.len()) } else { draw.pick(&avoidable) };
        graph[stuck].moves.clear();
        let before = draw.below(graph.len());
        if draw.chance(50) && before != stuck && !graph[before].moves.contains(&stuck) {
            graph[before].moves.push(stuck);
            graph[before].moves.sort_unstable();
        }
    }
}

/// No play has to begin here, and every other state with a move here has
/// another move.
fn is_avoidable(graph: &Graph, state: usize) -> bool {
    !graph[state].initial && (0..graph.len()).all(|s| s == state || graph[s].moves != [state])
}

fn small(draw: &mut Draw) -> usize {
    1 + draw.below(12)
}

/// Inputs of the shape, outputs mostly too, requirements of any style.
fn shaped(shape: Shape, draw: &mut Draw) -> Game {
    let other = if draw.chance(70) { shape } else { draw.pick(&SHAPES) };
    let (one, two) = if draw.chance(80) { (shape, other) } else { (other, shape) };
    let (inputs, outputs) = (one.graph(small(draw), draw), two.graph(small(draw), draw));
    let requirements = any_requirements(inputs.len(), outputs.len(), draw);
    Game { inputs, outputs, requirements }
}

fn any_requirements(inputs: usize, outputs: usize, draw: &mut Draw) -> Vec<Requirement> {
    match draw.below(10) {
        0..=3 => same_states(inputs.min(outputs), 8, draw),
        4..=7 => (0..1 + draw.below(4)).map(|_| plain_requirement(inputs, outputs, draw)).collect(),
        _ => (0..draw.below(9)).map(|_| wild_requirement(inputs, outputs, draw)).collect(),
    }
}

/// {s} then {s}, for some or all of the states.
fn same_states(count: usize, most: usize, draw: &mut Draw) -> Vec<Requirement> {
    let mut states: Vec<usize> = (0..count).collect();
    draw.shuffle(&mut states);
    states.truncate(most);
    if draw.chance(50) {
        states.truncate(1 + draw.below(count));
    }
    if draw.chance(50) {
        states.sort_unstable();
    }
    states.iter().map(|&s| Requirement { inputs: vec![vec![s]], outputs: vec![vec![s]] }).collect()
}

/// One or two small sets on each side.
fn plain_requirement(inputs: usize, outputs: usize, draw: &mut Draw) -> Requirement {
    let sets = |count: usize, draw: &mut Draw| (0..1 + draw.below(2)).map(|_| small_set(count, draw)).collect();
    Requirement { inputs: sets(inputs, draw), outputs: sets(outputs, draw) }
}

/// 0 to 4 sets on each side, of any size, also empty.
fn wild_requirement(inputs: usize, outputs: usize, draw: &mut Draw) -> Requirement {
    let sets = |count: usize, draw: &mut Draw| {
        let share = 10 + draw.below(60);
        (0..draw.below(5)).map(|_| (0..count).filter(|_| draw.chance(share)).collect()).collect()
    };
    Requirement { inputs: sets(inputs, draw), outputs: sets(outputs, draw) }
}

/// One to three states.
fn small_set(count: usize, draw: &mut Draw) -> Set {
    let mut set: Set = (0..1 + draw.below(3)).map(|_| draw.below(count)).collect();
    set.sort_unstable();
    set.dedup();
    set
}

fn copy(draw: &mut Draw) -> Game {
    let mut inputs = draw.pick(&SHAPES).graph(small(draw), draw);
    if draw.chance(25) {
        latch(&mut inputs, draw);
    }
    let mut outputs = inputs.clone();
    match draw.below(4) {
        0 => hurry(&mut outputs),
        1 => dawdle(&mut outputs, draw),
        _ => {}
    }
    for _ in 0..draw.below(4) {
        change(&mut outputs, draw);
    }
    let requirements = same_states(inputs.len(), 8, draw);
    Game { inputs, outputs, requirements }
}

/// No state waits that has another move: the output must commit early.
fn hurry(graph: &mut Graph) {
    for (number, state) in graph.iter_mut().enumerate() {
        if state.moves.len() > 1 {
            state.moves.retain(|&next| next != number);
        }
    }
}

/// More states can wait: the output may commit late. Stuck states stay stuck.
fn dawdle(graph: &mut Graph, draw: &mut Draw) {
    for (number, state) in graph.iter_mut().enumerate() {
        if !state.moves.is_empty() && !state.moves.contains(&number) && draw.chance(50) {
            state.moves.push(number);
            state.moves.sort_unstable();
        }
    }
}

/// One move more, or one less.
fn change(graph: &mut Graph, draw: &mut Draw) {
    let state = draw.below(graph.len());
    // A state's own number often, since waiting or not decides much.
    let next = if draw.chance(40) { state } else { draw.below(graph.len()) };
    let moves = &mut graph[state].moves;
    match moves.iter().position(|&m| m == next) {
        Some(place) => {
            moves.remove(place);
        }
        None => {
            moves.push(next);
            moves.sort_unstable();
        }
    }
}

/// The old drive moves from mode 0 to any mode and stays there; the new one
/// from mode 0 to odd modes only, and up and down between 2i and 2i + 1. Every
/// mode is asked for, so that the new one may have another for its faults.
fn modes(draw: &mut Draw) -> Game {
    let count = draw.pick(&[2, 4, 8]);
    let old = |mode: usize| if mode == 0 { (0..count).collect() } else { vec![mode] };
    let new = |mode: usize| if mode == 0 { (0..count).filter(|m| m % 2 == 1).collect() } else { vec![mode ^ 1] };
    let requirements = (0..count).map(|s| Requirement { inputs: vec![vec![s]], outputs: vec![vec![s]] }).collect();
    let mut game = Game { inputs: shapes::from_zero(count, old), outputs: shapes::from_zero(count, new), requirements };
    if draw.chance(40) {
        let from = draw.below(count);
        game.outputs[from].moves.push(count);
        game.outputs.push(State { initial: false, moves: vec![] });
    }
    for _ in 0..draw.below(3) {
        change(&mut game.inputs, draw);
        change(&mut game.outputs, draw);
    }
    game
}

/// Requirements in which lists or sets are empty.
fn edge(draw: &mut Draw) -> Game {
    let (one, two) = (draw.pick(&SHAPES), draw.pick(&SHAPES));
    let (inputs, outputs) = (one.graph(small(draw), draw), two.graph(small(draw), draw));
    let mut requirements: Vec<Requirement> =
        (0..1 + draw.below(3)).map(|_| edge_requirement(inputs.len(), outputs.len(), draw)).collect();
    if draw.chance(50) {
        requirements.push(plain_requirement(inputs.len(), outputs.len(), draw));
    }
    Game { inputs, outputs, requirements }
}

fn edge_requirement(inputs: usize, outputs: usize, draw: &mut Draw) -> Requirement {
    let in_sets = match draw.below(5) {
        0..=1 => vec![],
        2 => vec![vec![]],
        3 => vec![small_set(inputs, draw), vec![]],
        _ => vec![small_set(inputs, draw), small_set(inputs, draw)],
    };
    let out_sets = match draw.below(5) {
        0 => vec![],
        1 => vec![vec![]],
        2 => vec![small_set(outputs, draw), vec![]],
        _ => vec![small_set(outputs, draw)],
    };
    Requirement { inputs: in_sets, outputs: out_sets }
}

/// 64 states each: at most 7 sets a side, so that both rooms are sufficient.
fn large(draw: &mut Draw) -> Game {
    let inputs = draw.pick(&SHAPES).graph(64, draw);
    let mut outputs = draw.pick(&SHAPES).graph(64, draw);
    if draw.chance(50) {
        outputs.clone_from(&inputs);
        for _ in 0..draw.below(12) {
            change(&mut outputs, draw);
        }
    }
    let requirements = if draw.chance(60) {
        same_states(64, 7, draw)
    } else {
        (0..1 + draw.below(3)).map(|_| plain_requirement(64, 64, draw)).collect()
    };
    Game { inputs, outputs, requirements }
}

/// 65 to 128 states in one graph at least. Some dense ones have texts over the
/// longest that is read, and some have a set more than a room is sufficient for.
fn wide(draw: &mut Draw) -> Game {
    let large = |draw: &mut Draw| draw.pick(&[65, 66, 96, 127, 128]);
    let (inputs, outputs) = match draw.below(3) {
        0 => (large(draw), 1 + draw.below(64)),
        1 => (1 + draw.below(64), large(draw)),
        _ => (large(draw), large(draw)),
    };
    let most = |spare: usize, draw: &mut Draw| ((ROOM - spare) / (inputs * outputs)).min(7) + usize::from(draw.chance(10));
    let (g, h) = (most(inputs, draw), most(1, draw));
    let requirements = listed_sets(g, h, outputs, inputs, draw);
    let graph = |count: usize, draw: &mut Draw| match draw.chance(10) {
        true => Shape::Dense.graph(count, draw),
        false => draw.pick(&[Shape::Tree, Shape::Chain, Shape::Lone, Shape::Period, Shape::Sparse]).graph(count, draw),
    };
    let inputs = graph(inputs, draw);
    let outputs = graph(outputs, draw);
    latched(Game { inputs, outputs, requirements }, draw.pick(&LATCHING), draw)
}

/// Inputs, outputs, and the sets that are too many for the controller's and
/// for the panel's room. 64 by 64 and 32 by 32 then miss the panel's room by
/// one entry; 32 by 33 fills the controller's room to the last entry.
const BORDERS: [(usize, usize, usize, usize); 8] = [
    (64, 64, 0, 0),
    (64, 64, 0, 1),
    (64, 64, 1, 0),
    (63, 64, 0, 0),
    (60, 18, 1, 1),
    (32, 32, 0, 1),
    (32, 33, 0, 0),
    (32, 33, 0, 1),
];

/// Games on either side of the border of a room.
fn rooms(draw: &mut Draw) -> Game {
    let (inputs, outputs, more_g, more_h) = draw.pick(&BORDERS);
    let most = |spare: usize| (ROOM - spare) / (inputs * outputs);
    let (g, h) = (most(inputs) + more_g, most(1) + more_h);
    let requirements = listed_sets(g, h, outputs, inputs, draw);
    let inputs = draw.pick(&SHAPES).graph(inputs, draw);
    let outputs = draw.pick(&SHAPES).graph(outputs, draw);
    latched(Game { inputs, outputs, requirements }, draw.pick(&LATCHING), draw)
}

/// Eight requirements with g output sets and h input sets over all.
fn listed_sets(g: usize, h: usize, outputs: usize, inputs: usize, draw: &mut Draw) -> Vec<Requirement> {
    let mut requirements = vec![Requirement { inputs: vec![], outputs: vec![] }; 8];
    for number in 0..g {
        requirements[number % 8].outputs.push(small_set(outputs, draw));
    }
    for number in 0..h {
        requirements[number % 8].inputs.push(small_set(inputs, draw));
    }
    requirements
}

/// An accepted game with one to three faults, each causing 2, 3 or 7.
fn faulty(draw: &mut Draw) -> Game {
    let shape = draw.pick(&SHAPES);
    let mut game = latched(shaped(shape, draw), draw.pick(&LATCHING), draw);
    let past = game.inputs.len().max(game.outputs.len()) + draw.below(64 - 12);
    for _ in 0..1 + draw.below(3) {
        let graph = if draw.chance(50) { &mut game.inputs } else { &mut game.outputs };
        let state = draw.below(graph.len());
        match draw.below(3) {
            0 => graph[state].moves.push(past),
            1 => graph.iter_mut().for_each(|state| state.initial = false),
            _ => add_past(&mut game, past, draw),
        }
    }
    game.inputs.iter_mut().chain(&mut game.outputs).for_each(|state| state.moves.dedup());
    game
}

/// A set with a state past the count, in a requirement put first.
fn add_past(game: &mut Game, past: usize, draw: &mut Draw) {
    let mut requirement = Requirement { inputs: vec![vec![0]], outputs: vec![vec![0]] };
    let sets = if draw.chance(50) { &mut requirement.inputs } else { &mut requirement.outputs };
    sets[0].push(past);
    game.requirements.insert(0, requirement);
    game.requirements.truncate(8);
}
