//! The solver: won positions, the verdict, and the winner's table by the
//! section "Choices that fix both tables" with the requests "Hold the mode on a
//! tie" and "Drives that latch".

use crate::game::{Game, Graph, Refusal, Set};
use std::collections::VecDeque;

/// Entries the program lends a room.
pub const ROOM: usize = 32_768;

/// The next state and the next counter.
pub type Step = (usize, usize);

/// Rows by state, counter and the other side's state; none where no step is.
pub type Steps = Vec<Vec<Vec<Option<Step>>>>;

#[derive(Clone, Debug, PartialEq, Eq)]
pub struct Controller {
    /// One initial output for each initial input, none for other inputs.
    pub starts: Vec<Option<usize>>,
    /// By output, counter and new input.
    pub steps: Steps,
}

#[derive(Clone, Debug, PartialEq, Eq)]
pub struct Panel {
    pub start: usize,
    /// By input, counter and output.
    pub steps: Steps,
}

#[derive(Clone, Debug, PartialEq, Eq)]
pub enum Answer {
    System(Controller),
    Environment(Panel),
    Refused(Refusal),
}

/// What a row does, whatever its counter.
#[derive(Clone, Copy, Debug, PartialEq, Eq)]
pub enum Way {
    /// No step.
    None,
    /// The input's component is not stayable: go on to this state.
    Pass(usize),
    /// On the way to home, or to the state by which the panel leaves.
    Go(usize),
    /// Tour the sets inside the component of this number.
    Tour(usize),
    /// The output is stuck, so that the panel's next input stays unanswered.
    Unanswered(usize),
}

/// The answer to a game; the rooms are those that the program lends.
pub fn solve(game: &Game) -> Answer {
    solve_in(game, ROOM)
}

/// The same with rooms of another size.
pub fn solve_in(game: &Game, room: usize) -> Answer {
    if let Some(number) = game.refusal().or_else(|| short_room(game, room)) {
        return Answer::Refused(Refusal::Number(number));
    }
    let solved = Solved::new(game);
    match solved.panel_start() {
        None => Answer::System(solved.controller()),
        Some(start) => Answer::Environment(solved.panel(start)),
    }
}

/// Number 9 or 10, each tried whoever wins.
fn short_room(game: &Game, room: usize) -> Option<usize> {
    let (inputs, outputs) = (game.inputs.len(), game.outputs.len());
    let controller = inputs + outputs * counters(&game.output_sets()) * inputs;
    let panel = 1 + inputs * counters(&game.input_sets()) * outputs;
    match (controller > room, panel > room) {
        (true, _) => Some(9),
        (false, true) => Some(10),
        (false, false) => None,
    }
}

/// How many values the counter of these sets has.
fn counters(sets: &[&Set]) -> usize {
    sets.len().max(1)
}

/// The components of one graph. A component is known by its number, which is
/// its smallest state.
struct Components {
    /// By two states: does some list of moves, perhaps empty, lead from the
    /// first to the second?
    reaches: Vec<Vec<bool>>,
    /// By state: the number of its component.
    number: Vec<usize>,
    /// By number: the component's states, rising. Empty for other states.
    members: Vec<Vec<usize>>,
    /// By number: does a move lie inside?
    stayable: Vec<bool>,
    /// By number: the states entered by a move out of the component.
    entered: Vec<Vec<usize>>,
}

impl Components {
    fn new(graph: &Graph) -> Components {
        let states = 0..graph.len();
        let reaches: Vec<Vec<bool>> = states.clone().map(|state| depth_first(graph, state)).collect();
        let together = |s: usize, t: usize| reaches[s][t] && reaches[t][s];
        let smallest = |s: usize| states.clone().find(|&t| together(s, t)).unwrap_or(s);
        let number: Vec<usize> = states.clone().map(smallest).collect();
        let members = states.clone().map(|n| states.clone().filter(|&s| number[s] == n).collect()).collect();
        let mut stayable = vec![false; graph.len()];
        let mut entered = vec![Vec::new(); graph.len()];
        for (state, next) in all_moves(graph) {
            if number[state] == number[next] {
                stayable[number[state]] = true;
            } else if !entered[number[state]].contains(&next) {
                entered[number[state]].push(next);
            }
        }
        Components { reaches, number, members, stayable, entered }
    }

    /// The numbers of all components, each after those that it reaches: what
    /// reaches more states cannot be reached from what reaches fewer.
    fn last_first(&self) -> Vec<usize> {
        let mut numbers: Vec<usize> = (0..self.number.len()).filter(|&s| self.number[s] == s).collect();
        numbers.sort_by_key(|&n| self.reaches[n].iter().filter(|&&reached| reached).count());
        numbers
    }

    fn inside(&self, number: usize) -> Vec<bool> {
        self.number.iter().map(|&n| n == number).collect()
    }

    fn meets(&self, number: usize, set: &Set) -> bool {
        set.iter().any(|&state| self.number[state] == number)
    }
}

fn all_moves(graph: &Graph) -> impl Iterator<Item = (usize, usize)> + '_ {
    graph.iter().enumerate().flat_map(|(s, state)| state.moves.iter().map(move |&next| (s, next)))
}

fn depth_first(graph: &Graph, from: usize) -> Vec<bool> {
    let mut reached = vec![false; graph.len()];
    let mut open = vec![from];
    while let Some(state) = open.pop() {
        if !reached[state] {
            reached[state] = true;
            open.extend(&graph[state].moves);
        }
    }
    reached
}

/// By state: the moves of its shortest way to a target, never leaving the
/// inside. None where no such way is. Breadth-first, back from the targets.
fn shortest_ways(graph: &Graph, inside: &[bool], targets: &[bool]) -> Vec<Option<usize>> {
    let mut before = vec![Vec::new(); graph.len()];
    for (state, next) in all_moves(graph).filter(|&(state, next)| inside[state] && inside[next]) {
        before[next].push(state);
    }
    let mut ways = vec![None; graph.len()];
    let mut open = VecDeque::new();
    for state in (0..graph.len()).filter(|&s| inside[s] && targets[s]) {
        ways[state] = Some(0);
        open.push_back((state, 0));
    }
    while let Some((state, way)) = open.pop_front() {
        for &earlier in &before[state] {
            if ways[earlier].is_none() {
                ways[earlier] = Some(way + 1);
                open.push_back((earlier, way + 1));
            }
        }
    }
    ways
}

/// The move with the shortest way. On ties a move to the present state goes
/// first, then the lowest.
fn nearest(graph: &Graph, present: usize, ways: &[Option<usize>]) -> Option<usize> {
    let moves = graph[present].moves.iter();
    moves.copied().filter(|&next| ways[next].is_some()).min_by_key(|&next| (ways[next], next != present, next))
}

fn lowest(moves: &[usize], fits: impl Fn(usize) -> bool) -> Option<usize> {
    moves.iter().copied().filter(|&next| fits(next)).min()
}

/// The tour of the sets inside a component, for one counter: the same for the
/// controller at home and for the panel.
struct Tour {
    /// The first set from the counter on, going round, that meets the component.
    aim: Option<usize>,
    /// By state: its shortest way to the aim, inside. With no aim every state
    /// inside will do, so that all moves inside tie.
    ways: Vec<Option<usize>>,
}

impl Tour {
    fn new(graph: &Graph, inside: &[bool], sets: &[&Set], counter: usize) -> Tour {
        let going_round = (0..sets.len()).map(|n| (counter + n) % sets.len());
        let aim = going_round.into_iter().find(|&n| sets[n].iter().any(|&s| inside[s]));
        let targets = match aim {
            None => inside.to_vec(),
            Some(aim) => (0..graph.len()).map(|s| sets[aim].contains(&s)).collect(),
        };
        Tour { aim, ways: shortest_ways(graph, inside, &targets) }
    }

    fn step(&self, graph: &Graph, present: usize, counter: usize, counters: usize) -> Option<Step> {
        let next = nearest(graph, present, &self.ways)?;
        // Only the state the move lands on counts, never the one it began in.
        let after = match self.aim {
            None => counter,
            Some(aim) if self.ways[next] == Some(0) => (aim + 1) % counters,
            Some(aim) => aim,
        };
        Some((next, after))
    }
}

/// Fills the rows of one side's table. What a row does is told by its way,
/// and only a tour looks at the counter; else it stays.
fn fill(
    graph: &Graph,
    components: &Components,
    sets: &[&Set],
    seen: usize,
    way: impl Fn(usize, usize) -> Way,
) -> Steps {
    let tour = |number, counter| Tour::new(graph, &components.inside(number), sets, counter);
    let tours: Vec<Vec<Tour>> =
        (0..graph.len()).map(|number| (0..counters(sets)).map(|counter| tour(number, counter)).collect()).collect();
    let mut steps = vec![vec![vec![None; seen]; counters(sets)]; graph.len()];
    for (state, rows) in steps.iter_mut().enumerate() {
        for other in 0..seen {
            let way = way(state, other);
            for (counter, row) in rows.iter_mut().enumerate() {
                row[other] = match way {
                    Way::None => None,
                    Way::Pass(next) | Way::Go(next) | Way::Unanswered(next) => Some((next, counter)),
                    Way::Tour(number) => tours[number][counter].step(graph, state, counter, counters(sets)),
                };
            }
        }
    }
    steps
}

/// A game with its components and won positions.
pub struct Solved<'a> {
    game: &'a Game,
    inputs: Components,
    outputs: Components,
    /// By input and output.
    won: Vec<Vec<bool>>,
}

impl<'a> Solved<'a> {
    /// The game has to be an accepted one.
    pub fn new(game: &'a Game) -> Solved<'a> {
        let won = vec![vec![false; game.outputs.len()]; game.inputs.len()];
        let (inputs, outputs) = (Components::new(&game.inputs), Components::new(&game.outputs));
        let mut solved = Solved { game, inputs, outputs, won };
        solved.find_won();
        solved
    }

    /// How many positions are won, and how many there are.
    pub fn count(&self) -> (usize, usize) {
        let won = self.won.iter().flatten().filter(|&&won| won).count();
        (won, self.game.inputs.len() * self.game.outputs.len())
    }

    /// A play ends up in one component of either graph. There the panel can
    /// visit all of its component, and the system all of its own, so a play
    /// that stays is good for the system exactly when the two components suit.
    /// Hence pairs of components are settled one after the other, those that
    /// play can go on to first: in a pair that suits the system may stay (the
    /// greatest solution), in any other it must get out (the least). A stuck
    /// state is a component by itself: with a stuck input there is no next
    /// input to answer, with a stuck output there is no reply.
    fn find_won(&mut self) {
        for input in self.inputs.last_first() {
            for output in self.outputs.last_first() {
                self.settle(input, output);
            }
        }
    }

    fn settle(&mut self, input: usize, output: usize) {
        let mut positions = Vec::new();
        for &i in &self.inputs.members[input] {
            positions.extend(self.outputs.members[output].iter().map(|&o| (i, o)));
        }
        let suits = self.suits(input, output);
        for &(i, o) in &positions {
            self.won[i][o] = suits;
        }
        loop {
            let changes: Vec<(usize, usize)> =
                positions.iter().copied().filter(|&(i, o)| self.won[i][o] != self.has_replies(i, o)).collect();
            if changes.is_empty() {
                return;
            }
            for (i, o) in changes {
                self.won[i][o] = !suits;
            }
        }
    }

    /// No requirement has all its input sets meeting the input component
    /// while one of its output sets misses the output component.
    fn suits(&self, input: usize, output: usize) -> bool {
        self.game.requirements.iter().all(|requirement| {
            let due = requirement.inputs.iter().all(|set| self.inputs.meets(input, set));
            !due || requirement.outputs.iter().all(|set| self.outputs.meets(output, set))
        })
    }

    /// Is there a reply to every next input, each making a won position?
    fn has_replies(&self, input: usize, output: usize) -> bool {
        self.game.inputs[input].moves.iter().all(|&next| self.has_reply(next, output))
    }

    fn has_reply(&self, next_input: usize, output: usize) -> bool {
        self.game.outputs[output].moves.iter().any(|&next| self.won[next_input][next])
    }

    /// The lowest initial output making a won position.
    fn first_reply(&self, input: usize) -> Option<usize> {
        (0..self.game.outputs.len()).find(|&o| self.game.outputs[o].initial && self.won[input][o])
    }

    /// The lowest initial input with no won reply; none when the system wins.
    pub fn panel_start(&self) -> Option<usize> {
        (0..self.game.inputs.len()).find(|&i| self.game.inputs[i].initial && self.first_reply(i).is_none())
    }

    fn controller(&self) -> Controller {
        let game = self.game;
        let start = |i: usize| if game.inputs[i].initial { self.first_reply(i) } else { None };
        let way = |output, input| self.controller_way(output, input);
        let steps = fill(&game.outputs, &self.outputs, &game.output_sets(), game.inputs.len(), way);
        Controller { starts: (0..game.inputs.len()).map(start).collect(), steps }
    }

    fn panel(&self, start: usize) -> Panel {
        let game = self.game;
        let way = |input, output| self.panel_way(input, output);
        Panel { start, steps: fill(&game.inputs, &self.inputs, &game.input_sets(), game.outputs.len(), way) }
    }

    /// What the controller does at this output on seeing the new input.
    pub fn controller_way(&self, output: usize, new_input: usize) -> Way {
        let moves = &self.game.outputs[output].moves;
        let Some(won_move) = lowest(moves, |next| self.won[new_input][next]) else {
            return Way::None;
        };
        let component = self.inputs.number[new_input];
        if !self.inputs.stayable[component] {
            return Way::Pass(won_move);
        }
        match self.home(output, component) {
            None => Way::None, // never so: a won position has a home
            Some(home) if self.outputs.number[output] == home => Way::Tour(home),
            Some(home) => self.go_home(output, home),
        }
    }

    /// The lowest-numbered component that can be home for this input component.
    fn home(&self, output: usize, input: usize) -> Option<usize> {
        (0..self.game.outputs.len()).find(|&number| {
            self.outputs.stayable[number]
                && self.outputs.reaches[output][number]
                && self.suits(input, number)
                && self.exits_won(input, number)
        })
    }

    /// Every state entered by a move out of the input component makes won
    /// positions with all states of the output component.
    fn exits_won(&self, input: usize, output: usize) -> bool {
        let members = &self.outputs.members[output];
        self.inputs.entered[input].iter().all(|&i| members.iter().all(|&o| self.won[i][o]))
    }

    fn go_home(&self, output: usize, home: usize) -> Way {
        let graph = &self.game.outputs;
        let ways = shortest_ways(graph, &vec![true; graph.len()], &self.outputs.inside(home));
        nearest(graph, output, &ways).map_or(Way::None, Way::Go)
    }

    /// What the panel does at this position.
    pub fn panel_way(&self, input: usize, output: usize) -> Way {
        if self.won[input][output] {
            return Way::None; // so with every stuck input
        }
        if self.game.outputs[output].moves.is_empty() {
            let next = lowest(&self.game.inputs[input].moves, |_| true);
            return next.map_or(Way::None, Way::Unanswered);
        }
        let component = self.inputs.number[input];
        if !self.inputs.stayable[component] {
            let next = lowest(&self.game.inputs[input].moves, |j| !self.has_reply(j, output));
            return next.map_or(Way::None, Way::Pass);
        }
        let doors: Vec<bool> = (0..self.game.inputs.len()).map(|s| self.door(component, s, output).is_some()).collect();
        if !doors.contains(&true) {
            return Way::Tour(component);
        }
        let out = self.door(component, input, output);
        let nearer = || {
            let ways = shortest_ways(&self.game.inputs, &self.inputs.inside(component), &doors);
            nearest(&self.game.inputs, input, &ways)
        };
        out.or_else(nearer).map_or(Way::None, Way::Go)
    }

    /// The lowest move by which this state of the component leaves it to a
    /// position that is not won with the output.
    fn door(&self, component: usize, state: usize, output: usize) -> Option<usize> {
        if self.inputs.number[state] != component {
            return None;
        }
        let leaves = |next: usize| self.inputs.number[next] != component && !self.won[next][output];
        lowest(&self.game.inputs[state].moves, leaves)
    }
}
