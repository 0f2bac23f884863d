//! Requirements in words, and what a round does to them.
use crate::graphs::{has, members};
use crate::names::Names;
use crate::said;
use crate::words::LISTED_MOST;
use nanpuwiq::{InSet, InState, OutSet, OutState, Position, Requirement, Set};

/// States of a set that a requirement's line names at most.
const NAMED_MOST: usize = 24;

/// What a round does to a requirement, and why.
pub struct Judgement {
    pub met: bool,
    pub words: String,
}

/// The input sets in use.
pub fn assumptions(q: &Requirement) -> &[InSet] {
    &q.assumptions[..q.assumed.min(q.assumptions.len())]
}

/// The output sets in use.
pub fn guarantees(q: &Requirement) -> &[OutSet] {
    &q.guarantees[..q.guaranteed.min(q.guarantees.len())]
}

/// An input set where it is told in passing: "low", "low or high"; of many states the first. The requirement's own line has all.
pub fn input_set(set: InSet, names: &Names) -> String {
    some_of(inputs(set, names))
}

pub fn output_set(set: OutSet, names: &Names) -> String {
    some_of(outputs(set, names))
}

fn inputs(set: InSet, names: &Names) -> Vec<String> {
    members(set.0).map(|s| names.input(InState(s))).collect()
}

fn outputs(set: OutSet, names: &Names) -> Vec<String> {
    members(set.0).map(|s| names.output(OutState(s))).collect()
}

/// A set of a requirement in full: its names; of more than a line holds the numbers, in ranges.
fn whole(set: Set, names: Vec<String>) -> String {
    match names.len() {
        0..=NAMED_MOST => any_of(names),
        _ => format!("one of {}", ranges(members(set))),
    }
}

/// "0 to 5, 7, 9 to 127", of rising numbers.
fn ranges(states: impl Iterator<Item = usize>) -> String {
    let mut found: Vec<(usize, usize)> = Vec::new();
    for state in states {
        match found.last_mut() {
            Some((_, last)) if *last + 1 == state => *last = state,
            _ => found.push((state, state)),
        }
    }
    let told = |(first, last): &(usize, usize)| match last - first {
        0 => first.to_string(),
        1 => format!("{first}, {last}"),
        _ => format!("{first} to {last}"),
    };
    found.iter().map(told).collect::<Vec<_>>().join(", ")
}

fn any_of(states: Vec<String>) -> String {
    match states.len() {
        0 => "a set without states".to_string(),
        1 | 2 => states.join(" or "),
        _ => format!("one of {}", states.join(", ")),
    }
}

fn some_of(states: Vec<String>) -> String {
    match states.len().checked_sub(LISTED_MOST) {
        Some(more @ 1..) => format!("one of {} or {more} more", states[..LISTED_MOST].join(", ")),
        _ => any_of(states),
    }
}

/// "if flush recurs in the old drive, then flush recurs in the new drive"
pub fn words(q: &Requirement, names: &Names) -> String {
    let when = recur(assumptions(q).iter().map(|set| whole(set.0, inputs(*set, names))).collect());
    let then = recur(guarantees(q).iter().map(|set| whole(set.0, outputs(*set, names))).collect());
    match (when, then) {
        (_, None) => "nothing is asked".to_string(),
        (None, Some(then)) => format!("always {then} in the new drive"),
        (Some(when), Some(then)) => format!("if {when} in the old drive, then {then} in the new drive"),
    }
}

fn recur(sets: Vec<String>) -> Option<String> {
    match sets.len() {
        0 => None,
        1 => Some(format!("{} recurs", sets.join(""))),
        _ => Some(format!("{} recur", sets.join(", and "))),
    }
}

/// A round meets a requirement when it misses some input set or visits every output set, else breaks it.
pub fn judge(q: &Requirement, round: &[Position], names: &Names) -> Judgement {
    let missed_input = assumptions(q).iter().find(|set| !round.iter().any(|at| has(set.0, at.input.0)));
    let missed_output = guarantees(q).iter().find(|set| !round.iter().any(|at| has(set.0, at.output.0)));
    match (missed_input, missed_output) {
        (Some(set), _) => Judgement { met: true, words: said::NOT_DUE.with(&[("set", &input_set(*set, names))]) },
        (None, None) => Judgement { met: true, words: said::SERVED.with(&[]) },
        (None, Some(set)) => Judgement { met: false, words: said::MISSED.with(&[("set", &output_set(*set, names))]) },
    }
}
