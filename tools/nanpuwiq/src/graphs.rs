//! Sets of states and what a graph's states reach, for pictures and hints.
use nanpuwiq::{Graph, Set};

/// The states of a set, rising.
pub fn members(set: Set) -> impl Iterator<Item = usize> {
    set.states()
}

pub fn has(set: Set, state: usize) -> bool {
    set.has(state)
}

/// The states that one move leads to.
pub fn moves(graph: &Graph, state: usize) -> Set {
    graph.moves.get(state).copied().unwrap_or_default()
}

/// The states that one move or more lead to.
pub fn reached(graph: &Graph, state: usize) -> Set {
    let mut reached = Set::default();
    let mut next = moves(graph, state);
    while next | reached != reached {
        reached |= next;
        next = members(reached).fold(Set::default(), |set, s| set | moves(graph, s));
    }
    reached
}

/// The component of a state: those that it reaches and that reach it, and itself.
pub fn component(graph: &Graph, state: usize) -> Set {
    let together = members(reached(graph, state)).filter(|s| has(reached(graph, *s), state));
    together.fold(Set::of(state), |set, s| set | Set::of(s))
}

/// The component of each state, all worked out at once.
pub fn components(graph: &Graph) -> Vec<Set> {
    let reached: Vec<Set> = (0..graph.states).map(|s| reached(graph, s)).collect();
    let together = |s: usize, t: usize| s == t || has(reached[s], t) && has(reached[t], s);
    let component =
        |s: usize| (0..graph.states).filter(|t| together(s, *t)).fold(Set::default(), |set, t| set | Set::of(t));
    (0..graph.states).map(component).collect()
}

/// Whether a play can come to the set again and again from this state on.
pub fn can_recur(graph: &Graph, state: usize, set: Set) -> bool {
    let ahead = reached(graph, state) | Set::of(state);
    members(ahead & set).any(|s| has(reached(graph, s), s))
}
