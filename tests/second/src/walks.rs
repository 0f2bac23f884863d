//! The judge of printed tables. It takes a game and any print and decides by
//! walks alone, that is by the sections "Controller" and "Demand 3" with the
//! request "Drives that latch", whether the table wins: its rounds are right,
//! and its side is never stopped first. Won positions and components have no
//! part in it.

use crate::game::{Game, Requirement, Set};
use std::collections::HashMap;

#[derive(Clone, Copy, Debug, PartialEq, Eq)]
pub enum Side {
    System,
    Environment,
}

/// Input, output and memory.
#[derive(Clone, Copy, Debug, PartialEq, Eq, Hash)]
pub struct Configuration {
    pub input: usize,
    pub output: usize,
    pub memory: usize,
}

/// The side whose table wins, or why the printed table does not.
pub fn check(game: &Game, print: &str) -> Result<Side, String> {
    let table = Table::read(game, print)?;
    let walks = Walks::new(&table)?;
    match table.side {
        Side::System => walks.no_round_breaks()?,
        Side::Environment => walks.no_round_meets_all()?,
    }
    Ok(table.side)
}

/// The reachable configurations of a printed table.
pub fn reachable(game: &Game, print: &str) -> Result<Vec<Configuration>, String> {
    let table = Table::read(game, print)?;
    Ok(Walks::new(&table)?.configurations)
}

/// A printed table, as it stands: starts and steps may be none or nonsense.
struct Table<'a> {
    game: &'a Game,
    side: Side,
    /// How many memory values the table has: its counters.
    memories: usize,
    /// The controller's starts, by input.
    starts: HashMap<usize, usize>,
    /// The panel's start.
    start: Option<usize>,
    /// By the first three numbers of a step line.
    steps: HashMap<[usize; 3], [usize; 2]>,
}

impl<'a> Table<'a> {
    fn read(game: &'a Game, print: &str) -> Result<Table<'a>, String> {
        let mut lines = print.lines();
        let (side, sets) = match lines.next() {
            Some("(wins system)") => (Side::System, game.output_sets().len()),
            Some("(wins environment)") => (Side::Environment, game.input_sets().len()),
            _ => return Err("the print names no winner".to_string()),
        };
        let (starts, steps) = (HashMap::new(), HashMap::new());
        let mut table = Table { game, side, memories: sets.max(1), starts, start: None, steps };
        for line in lines {
            if !table.take(line) {
                return Err(format!("\"{line}\" has no place in the print"));
            }
        }
        Ok(table)
    }

    /// Takes one line; false if it is none of a table's, or comes twice.
    fn take(&mut self, line: &str) -> bool {
        let Some((word, numbers)) = words(line) else {
            return false;
        };
        match (word, self.side, numbers.as_slice()) {
            ("start", Side::System, &[input, output]) => self.starts.insert(input, output).is_none(),
            ("start", Side::Environment, &[input]) => self.start.replace(input).is_none(),
            ("step", _, &[a, b, c, next, after]) => self.steps.insert([a, b, c], [next, after]).is_none(),
            _ => false,
        }
    }

    /// Each initial input with what its start gives, or the panel's start with
    /// any initial output.
    fn first(&self) -> Result<Vec<Configuration>, String> {
        match self.side {
            Side::System => self.initial_inputs().map(|input| self.first_with(input)).collect(),
            Side::Environment => {
                let input = self.start.filter(|&i| self.initial_inputs().any(|initial| initial == i));
                let input = input.ok_or("the start is none")?;
                Ok(self.initial_outputs().map(|output| Configuration { input, output, memory: 0 }).collect())
            }
        }
    }

    fn first_with(&self, input: usize) -> Result<Configuration, String> {
        let start = self.starts.get(&input).copied();
        let output = start.filter(|&o| self.initial_outputs().any(|initial| initial == o));
        let output = output.ok_or(format!("the start for input {input} is none"))?;
        Ok(Configuration { input, output, memory: 0 })
    }

    fn initial_inputs(&self) -> impl Iterator<Item = usize> + '_ {
        (0..self.game.inputs.len()).filter(|&i| self.game.inputs[i].initial)
    }

    fn initial_outputs(&self) -> impl Iterator<Item = usize> + '_ {
        (0..self.game.outputs.len()).filter(|&o| self.game.outputs[o].initial)
    }

    /// What one turn makes: one move by the table's step, the other any move.
    /// An error where the table's own side is stopped. Nothing where the other
    /// one is: no input move from a stuck input, no reply from a stuck output.
    fn turns(&self, at: Configuration) -> Result<Vec<Configuration>, String> {
        let (input_moves, output_moves) = (&self.game.inputs[at.input].moves, &self.game.outputs[at.output].moves);
        match self.side {
            Side::System => {
                let reply = |&input: &usize| {
                    let [output, memory] = self.step([at.output, at.memory, input], output_moves)?;
                    Ok(Configuration { input, output, memory })
                };
                input_moves.iter().map(reply).collect()
            }
            Side::Environment => {
                let [input, memory] = self.step([at.input, at.memory, at.output], input_moves)?;
                Ok(output_moves.iter().map(|&output| Configuration { input, output, memory }).collect())
            }
        }
    }

    /// A step that names no move, or no memory value, counts as none.
    fn step(&self, row: [usize; 3], moves: &[usize]) -> Result<[usize; 2], String> {
        let step = self.steps.get(&row).copied();
        let named = step.filter(|&[next, after]| moves.contains(&next) && after < self.memories);
        named.ok_or(format!("the step {} {} {} is none", row[0], row[1], row[2]))
    }
}

/// The word and the numbers of a line such as (start 0 1).
fn words(line: &str) -> Option<(&str, Vec<usize>)> {
    let mut items = line.strip_prefix('(')?.strip_suffix(')')?.split(' ');
    let word = items.next()?;
    let numbers = items.map(|item| item.parse().ok()).collect::<Option<_>>()?;
    Some((word, numbers))
}

/// The reachable configurations and the turns between them.
struct Walks<'a> {
    game: &'a Game,
    configurations: Vec<Configuration>,
    next: Vec<Vec<usize>>,
    before: Vec<Vec<usize>>,
}

impl<'a> Walks<'a> {
    /// All walks from the first configurations; an error where a start or a
    /// step that is needed is none.
    fn new(table: &Table<'a>) -> Result<Walks<'a>, String> {
        let mut walks = Walks { game: table.game, configurations: Vec::new(), next: Vec::new(), before: Vec::new() };
        let mut known = HashMap::new();
        for first in table.first()? {
            walks.place_of(first, &mut known);
        }
        let mut place = 0;
        while place < walks.configurations.len() {
            for made in table.turns(walks.configurations[place])? {
                let next = walks.place_of(made, &mut known);
                walks.next[place].push(next);
                walks.before[next].push(place);
            }
            place += 1;
        }
        Ok(walks)
    }

    fn place_of(&mut self, configuration: Configuration, known: &mut HashMap<Configuration, usize>) -> usize {
        *known.entry(configuration).or_insert_with(|| {
            self.configurations.push(configuration);
            self.next.push(Vec::new());
            self.before.push(Vec::new());
            self.configurations.len() - 1
        })
    }

    /// A round breaks a requirement when it visits every input set and misses
    /// some output set. So look at what is left without that output set.
    fn no_round_breaks(&self) -> Result<(), String> {
        for (number, requirement) in self.game.requirements.iter().enumerate() {
            for set in &requirement.outputs {
                let inside = self.places(|at| !set.contains(&at.output));
                let parts = self.parts(&inside);
                if let Some(part) = parts.iter().find(|part| self.due(part, requirement)) {
                    return Err(format!("a round at {} breaks requirement {number}", self.name(part[0])));
                }
            }
        }
        Ok(())
    }

    fn no_round_meets_all(&self) -> Result<(), String> {
        match self.met_round(&self.places(|_| true)) {
            None => Ok(()),
            Some(place) => Err(format!("a round at {} meets all requirements", self.name(place))),
        }
    }

    /// A place on some round, inside, that meets all requirements.
    fn met_round(&self, inside: &[bool]) -> Option<usize> {
        self.parts(inside).iter().find_map(|part| self.met_round_of(part))
    }

    /// The round through all of the part meets all requirements, or it breaks
    /// one. Every smaller round misses the same output set, so to meet that
    /// requirement it has to miss one of its input sets.
    fn met_round_of(&self, part: &[usize]) -> Option<usize> {
        let breaks = |r: &&Requirement| self.due(part, r) && !r.outputs.iter().all(|set| self.visits_output(part, set));
        match self.game.requirements.iter().find(breaks) {
            None => Some(part[0]),
            Some(broken) => broken.inputs.iter().find_map(|set| self.met_round(&self.without_input(part, set))),
        }
    }

    /// Does the round through all of the part visit every input set?
    fn due(&self, part: &[usize], requirement: &Requirement) -> bool {
        requirement.inputs.iter().all(|set| part.iter().any(|&p| set.contains(&self.configurations[p].input)))
    }

    fn visits_output(&self, part: &[usize], set: &Set) -> bool {
        part.iter().any(|&p| set.contains(&self.configurations[p].output))
    }

    fn without_input(&self, part: &[usize], set: &Set) -> Vec<bool> {
        let mut inside = vec![false; self.configurations.len()];
        for &place in part {
            inside[place] = !set.contains(&self.configurations[place].input);
        }
        inside
    }

    fn places(&self, fits: impl Fn(&Configuration) -> bool) -> Vec<bool> {
        self.configurations.iter().map(fits).collect()
    }

    fn name(&self, place: usize) -> String {
        let Configuration { input, output, memory } = self.configurations[place];
        format!("input {input}, output {output}, memory {memory}")
    }

    /// The strongly connected parts of the inside that have a move inside
    /// them: exactly these carry rounds. Each is found backwards from the
    /// configuration of it that was finished last.
    fn parts(&self, inside: &[bool]) -> Vec<Vec<usize>> {
        let mut open = inside.to_vec();
        let mut parts = Vec::new();
        for &place in self.finished(inside).iter().rev() {
            if open[place] {
                let part = self.gather(place, &mut open);
                if part.len() > 1 || self.next[place].contains(&place) {
                    parts.push(part);
                }
            }
        }
        parts
    }

    /// The places inside in the order in which a depth-first search ends them.
    fn finished(&self, inside: &[bool]) -> Vec<usize> {
        let mut open = inside.to_vec();
        let mut order = Vec::new();
        for root in 0..inside.len() {
            if !open[root] {
                continue;
            }
            open[root] = false;
            let mut path = vec![(root, 0)];
            while let Some((place, tried)) = path.pop() {
                let Some(&next) = self.next[place].get(tried) else {
                    order.push(place);
                    continue;
                };
                path.push((place, tried + 1));
                if open[next] {
                    open[next] = false;
                    path.push((next, 0));
                }
            }
        }
        order
    }

    /// All open places from which the root is reached; they are closed.
    fn gather(&self, root: usize, open: &mut [bool]) -> Vec<usize> {
        let mut part = vec![root];
        open[root] = false;
        let mut looked = 0;
        while looked < part.len() {
            for &earlier in &self.before[part[looked]] {
                if open[earlier] {
                    open[earlier] = false;
                    part.push(earlier);
                }
            }
            looked += 1;
        }
        part
    }
}

#[cfg(test)]
mod tests {
    use super::*;
    use crate::generate::{self, Draw, Family};

    /// A table with any step in every row, none of them wrong in itself; the
    /// rows of stuck states are none.
    fn any_print(game: &Game, side: Side, draw: &mut Draw) -> String {
        let (own, other, sets) = match side {
            Side::System => (&game.outputs, &game.inputs, game.output_sets().len()),
            Side::Environment => (&game.inputs, &game.outputs, game.input_sets().len()),
        };
        let first = own.iter().position(|state| state.initial).expect("some state is initial");
        let mut print = match side {
            Side::System => (0..other.len()).fold("(wins system)\n".into(), |p, i| format!("{p}(start {i} {first})\n")),
            Side::Environment => format!("(wins environment)\n(start {first})\n"),
        };
        for (state, memory) in (0..own.len()).flat_map(|s| (0..sets.max(1)).map(move |m| (s, m))) {
            for seen in 0..other.len() {
                if !own[state].moves.is_empty() {
                    let (next, after) = (draw.pick(&own[state].moves), draw.below(sets.max(1)));
                    print += &format!("(step {state} {memory} {seen} {next} {after})\n");
                }
            }
        }
        print
    }

    /// The same judgement from every round: the states of a round are any
    /// group of configurations that lead to one another inside the group.
    fn by_every_round(game: &Game, walks: &Walks, side: Side) -> bool {
        let count = walks.configurations.len();
        (1..1_u32 << count).all(|group| {
            let inside: Vec<bool> = (0..count).map(|place| group >> place & 1 == 1).collect();
            let round: Vec<usize> = (0..count).filter(|&place| inside[place]).collect();
            let is_round = round.iter().all(|&p| round.iter().all(|&q| leads(walks, &inside, p, q)));
            let breaks = game
                .requirements
                .iter()
                .any(|r| walks.due(&round, r) && !r.outputs.iter().all(|set| walks.visits_output(&round, set)));
            !is_round || breaks == (side == Side::Environment)
        })
    }

    /// Can the table's own side be the one that has no move? Its rows are none
    /// in stuck states only, so it is stopped where it is to move in one: the
    /// controller at a stuck output after an input move, the panel at a stuck
    /// input.
    fn stopped_first(game: &Game, table: &Table, side: Side) -> bool {
        let mut seen = table.first().expect("the starts are right");
        let mut looked = 0;
        while let Some(&at) = seen.get(looked) {
            let (inputs, outputs) = (&game.inputs[at.input].moves, &game.outputs[at.output].moves);
            match side {
                Side::System if outputs.is_empty() && !inputs.is_empty() => return true,
                Side::Environment if inputs.is_empty() => return true,
                _ => {}
            }
            for (&input, &output) in inputs.iter().flat_map(|i| outputs.iter().map(move |o| (i, o))) {
                let (row, next) = match side {
                    Side::System => ([at.output, at.memory, input], output),
                    Side::Environment => ([at.input, at.memory, at.output], input),
                };
                let [given, memory] = table.steps[&row];
                let made = Configuration { input, output, memory };
                if given == next && !seen.contains(&made) {
                    seen.push(made);
                }
            }
            looked += 1;
        }
        false
    }

    /// Does a walk of one move or more inside lead from one to the other?
    fn leads(walks: &Walks, inside: &[bool], from: usize, to: usize) -> bool {
        let mut seen = vec![false; inside.len()];
        let mut open = vec![from];
        while let Some(place) = open.pop() {
            for &next in walks.next[place].iter().filter(|&&next| inside[next]) {
                if !std::mem::replace(&mut seen[next], true) {
                    open.push(next);
                }
            }
        }
        seen[to]
    }

    /// Tables of any kind, most of which do not win, judged both ways.
    #[test]
    fn the_judgement_is_that_of_every_round() {
        let mut draw = Draw::new(1);
        let (mut judged, mut stopped) = ([[0; 2]; 2], [0; 2]);
        for round in 0..4_000 {
            let family = draw.pick(&[Family::Edge, Family::Dense, Family::Sparse, Family::Period, Family::Modes]);
            let game = generate::game(family, &mut draw);
            let side = if round % 2 == 0 { Side::System } else { Side::Environment };
            let print = any_print(&game, side, &mut draw);
            let table = Table::read(&game, &print).expect("a print");
            let stops = stopped_first(&game, &table, side);
            match Walks::new(&table) {
                Err(why) => {
                    assert!(stops, "{why}\n{print}");
                    assert_eq!(check(&game, &print), Err(why));
                    stopped[round % 2] += 1;
                }
                Ok(walks) => {
                    assert!(!stops, "{print}");
                    if walks.configurations.len() <= 9 {
                        let wins = check(&game, &print).is_ok();
                        assert_eq!(wins, by_every_round(&game, &walks, side), "{print}");
                        judged[round % 2][usize::from(wins)] += 1;
                    }
                }
            }
        }
        assert!(judged.iter().flatten().all(|&count| count > 15), "{judged:?}");
        assert!(stopped.iter().all(|&count| count > 15), "{stopped:?}");
    }
}
