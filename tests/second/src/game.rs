//! The game as plain vectors: one record a state, one list of states a set.

/// One state of a graph: whether it is initial, and its moves. A state without
/// a move is stuck: whoever has to move there loses.
#[derive(Clone, Debug, PartialEq, Eq)]
pub struct State {
    pub initial: bool,
    pub moves: Vec<usize>,
}

/// The states of one drive, numbered from 0; the count is the length.
pub type Graph = Vec<State>;

/// A set of states, as the list of its members.
pub type Set = Vec<usize>;

/// If every input set is visited, then every output set has to be.
#[derive(Clone, Debug, PartialEq, Eq)]
pub struct Requirement {
    pub inputs: Vec<Set>,
    pub outputs: Vec<Set>,
}

#[derive(Clone, Debug, PartialEq, Eq)]
pub struct Game {
    pub inputs: Graph,
    pub outputs: Graph,
    pub requirements: Vec<Requirement>,
}

/// Why there is no answer.
#[derive(Clone, Copy, Debug, PartialEq, Eq)]
pub enum Refusal {
    /// Any number but 11.
    Number(usize),
    /// Number 11 with its place.
    Shape(usize),
}

impl Game {
    /// The lowest of the numbers 1 to 7 whose condition holds; 4 has none.
    pub fn refusal(&self) -> Option<usize> {
        let graphs = [&self.inputs, &self.outputs];
        let conditions = [
            (1, graphs.iter().any(|graph| !(1..=128).contains(&graph.len()))),
            (2, graphs.iter().any(|graph| moves_past_count(graph))),
            (3, graphs.iter().any(|graph| !graph.iter().any(|state| state.initial))),
            (5, self.requirements.len() > 8),
            (6, self.requirements.iter().any(|r| r.inputs.len() > 4 || r.outputs.len() > 4)),
            (7, self.sets_past_count()),
        ];
        conditions.into_iter().find(|&(_, holds)| holds).map(|(number, _)| number)
    }

    /// Is there a stuck input, and a stuck output?
    pub fn dead_ends(&self) -> [bool; 2] {
        [&self.inputs, &self.outputs].map(|graph| graph.iter().any(|state| state.moves.is_empty()))
    }

    fn sets_past_count(&self) -> bool {
        any_past(&self.input_sets(), self.inputs.len()) || any_past(&self.output_sets(), self.outputs.len())
    }

    /// The input sets over all requirements, in file order: H of them.
    pub fn input_sets(&self) -> Vec<&Set> {
        self.requirements.iter().flat_map(|r| &r.inputs).collect()
    }

    /// The output sets over all requirements, in file order: G of them.
    pub fn output_sets(&self) -> Vec<&Set> {
        self.requirements.iter().flat_map(|r| &r.outputs).collect()
    }
}

fn moves_past_count(graph: &Graph) -> bool {
    graph.iter().any(|state| state.moves.iter().any(|&next| next >= graph.len()))
}

fn any_past(sets: &[&Set], count: usize) -> bool {
    sets.iter().any(|set| set.iter().any(|&state| state >= count))
}
