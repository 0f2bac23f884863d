//! A graph as people write it down: states by name or number, in any order, and arrows between them. `finish` makes the graph of it.
use crate::failure::Failure;
use crate::files::Source;
use crate::forms;
use crate::names::is_same;
use nanpuwiq::{words, Graph, Set, STATES};
use std::collections::HashMap;

/// A word of a file, and where it stands.
#[derive(Clone, Debug)]
pub struct Word {
    pub text: String,
    pub place: usize,
}

/// What is said of a graph, in the order in which it is said.
pub struct Sketch {
    /// What a state is called: "input", "output", "mode".
    pub what: &'static str,
    states: Vec<State>,
    numbers: HashMap<String, usize>,
    moves: Vec<(usize, usize)>,
}

/// A state: the word that it is first met by, whether it has a line of its own, and what else it is called.
struct State {
    word: Word,
    listed: bool,
    initial: bool,
    label: Option<String>,
}

/// A graph with what its states are called: their names, or their numbers.
#[derive(Clone, Debug)]
pub struct NamedGraph {
    pub names: Vec<String>,
    pub graph: Graph,
    /// Whether names alone were given, which are numbered in their order.
    pub by_name: bool,
}

impl NamedGraph {
    /// The state with this name or number.
    pub fn state(&self, word: &str) -> Option<usize> {
        let named = self.names.iter().position(|name| is_same(name, word));
        named.or_else(|| number(word).filter(|state| *state < self.names.len()))
    }

    /// "0 pump, 1 flush".
    pub fn listed(&self) -> String {
        let called = |(state, name): (usize, &String)| match name == &state.to_string() {
            true => name.clone(),
            false => format!("{state} {name}"),
        };
        self.names.iter().enumerate().map(called).collect::<Vec<_>>().join(", ")
    }
}

/// What was not said and is taken so, in words.
pub type Guesses = Vec<String>;

impl Sketch {
    pub fn new(what: &'static str) -> Sketch {
        Sketch { what, states: Vec::new(), numbers: HashMap::new(), moves: Vec::new() }
    }

    /// The state that a word means, which is new where no such word was met.
    pub fn state(&mut self, word: &Word) -> usize {
        let next = self.states.len();
        let found = *self.numbers.entry(word.text.to_lowercase()).or_insert(next);
        if found == next {
            self.states.push(State { word: word.clone(), listed: false, initial: false, label: None });
        }
        found
    }

    /// Marks a state as one that has a line of its own; false where it has one already.
    pub fn list(&mut self, state: usize) -> bool {
        !std::mem::replace(&mut self.states[state].listed, true)
    }

    pub fn begin(&mut self, state: usize) {
        self.states[state].initial = true;
    }

    pub fn call(&mut self, state: usize, label: String) {
        self.states[state].label = Some(label);
    }

    pub fn step(&mut self, from: usize, to: usize) {
        self.moves.push((from, to));
    }

    pub fn is_empty(&self) -> bool {
        self.states.is_empty()
    }

    /// The words of all states, in the order in which they were met.
    pub fn words(&self) -> impl Iterator<Item = &Word> {
        self.states.iter().map(|state| &state.word)
    }

    /// Puts another word in the place of each, which must keep them apart.
    pub fn rename(&mut self, word: impl Fn(&str) -> String) {
        for state in &mut self.states {
            state.word.text = word(&state.word.text);
        }
    }

    /// Refuses a state that is only moved to, in a file where each has a line.
    pub fn all_listed(&self, source: &Source) -> Result<(), Failure> {
        match self.states.iter().find(|state| !state.listed) {
            None => Ok(()),
            Some(State { word, .. }) => {
                let known: Vec<&str> =
                    self.states.iter().filter(|s| s.listed).take(20).map(|s| s.word.text.as_str()).collect();
                let told = format!("no {} '{}': lines are there for {}", self.what, word.text, known.join(", "));
                Err(forms::refused(source, word.place, &told))
            }
        }
    }

    /// The graph. Numbers are kept; names are numbered in the order in which they were met.
    pub fn finish(self, source: &Source, guesses: &mut Guesses) -> Result<NamedGraph, Failure> {
        let Sketch { what, mut states, moves, .. } = self;
        let Some(first) = states.first() else {
            return Err(forms::refused(source, source.text.len(), &format!("no {what} is there")));
        };
        let place = first.word.place;
        if states.len() > STATES {
            let told = format!("{} {what}s: {} (refused 1)", states.len(), words(1));
            return Err(forms::refused(source, states[STATES].word.place, &told));
        }
        let order = order(&states, what, source)?;
        let by_name = states.iter().all(|state| number(&state.word.text).is_none());
        if states.iter().all(|state| !state.initial) {
            let chosen = order.iter().position(|state| *state == 0).unwrap_or(0);
            states[chosen].initial = true;
            guesses.push(format!(
                "{}: no {what} is marked as initial: taken is {}, the first",
                source.name, states[chosen].word.text
            ));
        }
        let mut names = vec![String::new(); states.len()];
        let mut graph = Graph { states: states.len(), ..Graph::default() };
        for (state, number) in states.iter().zip(&order) {
            names[*number] = state.label.clone().unwrap_or_else(|| state.word.text.clone());
            if state.initial {
                graph.initial |= Set::of(*number);
            }
        }
        for (from, to) in moves {
            graph.moves[order[from]] |= Set::of(order[to]);
        }
        match twice(&names) {
            Some(name) => Err(forms::refused(source, place, &format!("two {what}s with the name {name}"))),
            None => Ok(NamedGraph { names, graph, by_name }),
        }
    }
}

/// The number of each state, in the order in which they were met.
fn order(states: &[State], what: &str, source: &Source) -> Result<Vec<usize>, Failure> {
    let numbers: Vec<Option<usize>> = states.iter().map(|state| number(&state.word.text)).collect();
    if numbers.iter().all(Option::is_none) {
        return Ok((0..states.len()).collect());
    }
    if let Some(named) = numbers.iter().position(Option::is_none) {
        let other = numbers.iter().position(Option::is_some).unwrap_or(named);
        let (name, number) = (&states[named].word, &states[other].word);
        let told = format!(
            "{what} '{}' is a name and {what} {} a number: which number the name has cannot be told",
            name.text, number.text
        );
        return Err(forms::refused(source, name.place.max(number.place), &told));
    }
    let numbers: Vec<usize> = numbers.into_iter().flatten().collect();
    match (0..numbers.len()).find(|number| !numbers.contains(number)) {
        None => Ok(numbers),
        Some(missing) => {
            let past = numbers.iter().position(|number| *number >= numbers.len()).unwrap_or(0);
            let told = format!(
                "{what} {} is here and {what} {missing} is not: numbers begin at 0 and leave none out",
                states[past].word.text
            );
            Err(forms::refused(source, states[past].word.place, &told))
        }
    }
}

fn twice(names: &[String]) -> Option<&String> {
    names
        .iter()
        .enumerate()
        .find(|(k, name)| names[..*k].iter().any(|other| is_same(other, name)))
        .map(|(_, name)| name)
}

/// A decimal without leading zeros.
pub fn number(word: &str) -> Option<usize> {
    let plain = word.bytes().all(|byte| byte.is_ascii_digit()) && (word == "0" || !word.starts_with('0'));
    word.parse().ok().filter(|_| plain)
}
