//! What made a position won or lost: the grounds of a game by hand, every position of games at random against grounds told again from the documents,
//! and each refusal.
mod made;

use made::*;
use nanpuwiq::Ground::*;
use nanpuwiq::*;

// A graph by lists of moves, and which states reach which.
struct Drawn {
    moves: Vec<Vec<usize>>,
    reach: Vec<Vec<bool>>,
}

impl Drawn {
    fn new(moves: Vec<Vec<usize>>) -> Drawn {
        let reach = (0..moves.len()).map(|s| reached(&moves, s)).collect();
        Drawn { moves, reach }
    }

    fn states(&self) -> usize {
        self.moves.len()
    }

    fn together(&self, s: usize, t: usize) -> bool {
        self.reach[s][t] && self.reach[t][s]
    }

    fn component(&self, s: usize) -> Vec<usize> {
        (0..self.states()).filter(|&t| self.together(s, t)).collect()
    }

    fn is_stayable(&self, s: usize) -> bool {
        self.component(s).iter().any(|&u| self.moves[u].iter().any(|&v| self.together(s, v)))
    }

    fn meets(&self, s: usize, set: &[usize]) -> bool {
        set.iter().any(|&t| self.together(s, t))
    }

    // The states that moves out of the component of s enter.
    fn exits(&self, s: usize) -> Vec<usize> {
        let enters = |t: usize| self.component(s).iter().any(|&u| self.moves[u].contains(&t));
        (0..self.states()).filter(|&t| !self.together(s, t) && enters(t)).collect()
    }

    fn graph(&self) -> Graph {
        let all: Vec<usize> = (0..self.states()).collect();
        let rows: Vec<&[usize]> = self.moves.iter().map(|row| &row[..]).collect();
        graph(&all, &rows)
    }
}

fn reached(moves: &[Vec<usize>], from: usize) -> Vec<bool> {
    let mut seen = vec![false; moves.len()];
    let mut open = vec![from];
    while let Some(s) = open.pop() {
        if !seen[s] {
            seen[s] = true;
            open.extend(&moves[s]);
        }
    }
    seen
}

struct Sets {
    inputs: Vec<Vec<usize>>,
    outputs: Vec<Vec<usize>>,
}

// A game, and its won positions by the rules of document 01.
struct Model {
    input: Drawn,
    output: Drawn,
    requirements: Vec<Sets>,
    won: Vec<Vec<bool>>,
}

impl Model {
    fn new(input: Drawn, output: Drawn, requirements: Vec<Sets>) -> Model {
        let won = vec![vec![false; output.states()]; input.states()];
        let mut model = Model { input, output, requirements, won };
        // what a position's rule looks at has fewer inputs ahead
        let mut order: Vec<usize> = (0..model.input.states()).collect();
        order.sort_by_key(|&i| model.input.reach[i].iter().filter(|&&r| r).count());
        for i in order {
            model.won[i] = (0..model.output.states()).map(|o| model.is_won(i, o)).collect();
        }
        model
    }

    fn is_won(&self, i: usize, o: usize) -> bool {
        if self.input.is_stayable(i) {
            return (0..self.output.states()).any(|d| self.output.reach[o][d] && self.is_home(i, d));
        }
        self.input.moves[i].iter().all(|&j| self.has_reply(j, o))
    }

    fn has_reply(&self, j: usize, o: usize) -> bool {
        self.output.moves[o].iter().any(|&p| self.won[j][p])
    }

    fn is_due(&self, i: usize, sets: &Sets) -> bool {
        sets.inputs.iter().all(|set| self.input.meets(i, set))
    }

    fn is_home(&self, i: usize, d: usize) -> bool {
        let serves = |sets: &Sets| !self.is_due(i, sets) || sets.outputs.iter().all(|set| self.output.meets(d, set));
        let safe = |j: &usize| self.output.component(d).iter().all(|&e| self.won[*j][e]);
        self.output.is_stayable(d) && self.requirements.iter().all(serves) && self.input.exits(i).iter().all(safe)
    }

    // All grounds that fit, in the order of the request, each with its lowest numbers first.
    fn grounds(&self, i: usize, o: usize) -> Vec<Ground> {
        if self.won[i][o] {
            self.won_grounds(i, o)
        } else {
            self.lost_grounds(i, o)
        }
    }

    fn won_grounds(&self, i: usize, o: usize) -> Vec<Ground> {
        let mut fit = Vec::new();
        if self.input.moves[i].is_empty() {
            fit.push(InputStuck);
        }
        if !self.input.is_stayable(i) {
            fit.push(ByReplies);
            return fit;
        }
        for d in 0..self.output.states() {
            if self.output.component(d)[0] == d && self.output.reach[o][d] && self.is_home(i, d) {
                fit.push(AtHome(OutState(d)));
            }
        }
        fit
    }

    fn lost_grounds(&self, i: usize, o: usize) -> Vec<Ground> {
        let mut fit = Vec::new();
        if self.output.moves[o].is_empty() {
            fit.push(OutputStuck);
        }
        if !self.input.is_stayable(i) {
            let unanswered = self.input.moves[i].iter().filter(|&&j| !self.has_reply(j, o));
            fit.extend(unanswered.map(|&j| Unanswered(InState(j))));
        }
        fit.extend(self.input.exits(i).iter().filter(|&&j| !self.won[j][o]).map(|&j| ByWayOut(InState(j))));
        if !self.output.is_stayable(o) {
            fit.push(PushedOn);
            return fit;
        }
        for (k, sets) in self.requirements.iter().enumerate() {
            let missed = sets.outputs.iter().position(|set| !self.output.meets(o, set));
            if let (true, Some(n)) = (self.is_due(i, sets), missed) {
                fit.push(Unserved(k, n));
            }
        }
        fit
    }

    fn game(&self) -> Game {
        let requirements: Vec<Requirement> = self.requirements.iter().map(|sets| requirement(&rows(&sets.inputs), &rows(&sets.outputs))).collect();
        made(self.input.graph(), self.output.graph(), &requirements)
    }
}

fn rows(lists: &[Vec<usize>]) -> Vec<&[usize]> {
    lists.iter().map(|list| &list[..]).collect()
}

// Numbers at random: xorshift.
struct Draw(u64);

impl Draw {
    fn below(&mut self, n: usize) -> usize {
        self.0 ^= self.0 << 13;
        self.0 ^= self.0 >> 7;
        self.0 ^= self.0 << 17;
        (self.0 >> 11) as usize % n
    }

    fn set(&mut self, states: usize, one_in: usize) -> Vec<usize> {
        (0..states).filter(|_| self.below(one_in) == 0).collect()
    }

    // One state in five has no move.
    fn graph(&mut self) -> Drawn {
        let states = 1 + self.below(6);
        let one_in = 2 + self.below(3);
        Drawn::new((0..states).map(|_| if self.below(5) == 0 { vec![] } else { self.set(states, one_in) }).collect())
    }

    fn sets(&mut self, states: usize) -> Vec<Vec<usize>> {
        (0..self.below(3)).map(|_| self.set(states, 3)).collect()
    }

    fn model(&mut self) -> Model {
        let (input, output) = (self.graph(), self.graph());
        let requirements = (0..self.below(4)).map(|_| Sets { inputs: self.sets(input.states()), outputs: self.sets(output.states()) }).collect();
        Model::new(input, output, requirements)
    }
}

fn place(ground: Ground) -> usize {
    match ground {
        InputStuck => 0,
        ByReplies => 1,
        AtHome(_) => 2,
        OutputStuck => 3,
        Unanswered(_) => 4,
        ByWayOut(_) => 5,
        Unserved(..) => 6,
        PushedOn => 7,
    }
}

// Every ground occurs in it; its table is proved too.
fn eight() -> Game {
    made(
        graph(&[0], &[&[], &[0, 2], &[2], &[2, 3]]),
        graph(&[0], &[&[0], &[], &[0], &[3], &[1, 3]]),
        &[requirement(&[&[3]], &[&[0]]), requirement(&[&[2]], &[&[0, 3], &[0]])],
    )
}

#[test]
fn every_ground() {
    let home = AtHome(OutState(0));
    let table = [
        [InputStuck; 5],
        [ByReplies, OutputStuck, ByReplies, Unanswered(InState(2)), Unanswered(InState(2))],
        [home, OutputStuck, home, Unserved(1, 1), PushedOn],
        [home, OutputStuck, home, ByWayOut(InState(2)), ByWayOut(InState(2))],
    ];
    for (i, row) in table.iter().enumerate() {
        for (o, ground) in row.iter().enumerate() {
            assert_eq!(eight().explain(InState(i), OutState(o)), Ok(*ground), "input {i}, output {o}");
        }
    }
}

#[test]
fn games_at_random() {
    let mut draw = Draw(20_109);
    let mut given = [0; 8];
    let mut several = 0;
    for turn in 0..20_000 {
        let model = draw.model();
        let game = model.game();
        let map = game.won_map().unwrap();
        let all = game.explain_all().unwrap();
        assert_eq!(all.len(), model.input.states() * model.output.states());
        for i in 0..model.input.states() {
            for o in 0..model.output.states() {
                let fit = model.grounds(i, o);
                let got = game.explain(InState(i), OutState(o)).unwrap();
                assert_eq!(got, fit[0], "game {turn}, input {i}, output {o}");
                assert_eq!(got, all[i * model.output.states() + o], "all of game {turn}, input {i}, output {o}");
                assert_eq!(got.is_won(), model.won[i][o]);
                assert_eq!(got.is_won(), map[i].has(o));
                given[place(got)] += 1;
                several += usize::from(fit.len() > 1);
            }
        }
    }
    assert!(given.iter().all(|&n| n > 500), "{given:?}");
    assert!(several > 5_000, "{several}");
}

#[test]
fn refusals_in_order() {
    let game = eight();
    let words = SET_WORDS * (2 * 4 + 5);
    let refused = |number| Err(Error { number, place: 0 });
    let mut scratch = [7; 29];
    let mut no_initial = game;
    no_initial.output.initial = Set::from_bits(0);
    assert_eq!(no_initial.explain_into(&mut [], InState(4), OutState(5)), refused(3));
    assert_eq!(game.explain_into(&mut scratch[..words - 1], InState(4), OutState(0)), refused(25));
    assert_eq!(game.explain_into(&mut scratch[..words - 1], InState(0), OutState(5)), refused(25));
    assert_eq!(game.explain_into(&mut scratch, InState(usize::MAX), OutState(0)), refused(25));
    assert_eq!(game.explain_into(&mut scratch[..words - 1], InState(3), OutState(4)), refused(8));
    assert_eq!(scratch, [7; 29]);
    assert_eq!(game.explain_into(&mut scratch, InState(3), OutState(4)), Ok(ByWayOut(InState(2))));
    assert_eq!(scratch[..words], [0; 26]);
    assert_eq!(scratch[words..], [7; 3]);
}

#[test]
fn all_positions_refused_in_order() {
    let game = eight();
    let (words, positions) = (SET_WORDS * (2 * 4 + 5), 4 * 5);
    let refused = |number| Err(Error { number, place: 0 });
    let (mut scratch, mut grounds) = ([7; 29], [7; 23]);
    let mut no_initial = game;
    no_initial.output.initial = Set::from_bits(0);
    assert_eq!(no_initial.explain_all_into(&mut [], &mut []), refused(3));
    assert_eq!(no_initial.explain_all(), Err(Error { number: 3, place: 0 }));
    assert_eq!(Game { k: 9, ..game }.explain_all_into(&mut scratch, &mut grounds), refused(5));
    assert_eq!(game.explain_all_into(&mut scratch[..words - 1], &mut grounds), refused(8));
    assert_eq!(game.explain_all_into(&mut scratch, &mut grounds[..positions - 1]), refused(8));
    assert_eq!((scratch, grounds), ([7; 29], [7; 23]));
    assert_eq!(game.explain_all_into(&mut scratch[..words], &mut grounds[..positions]), Ok(()));
    assert_eq!((&scratch[..words], &scratch[words..]), (&[0; 26][..], &[7; 3][..]));
    let told: Vec<Ground> = grounds[..positions].iter().map(|entry| Ground::of_entry(*entry)).collect();
    assert_eq!((told, &grounds[positions..]), (game.explain_all().unwrap(), &[7; 3][..]));
    let mut huge = game;
    huge.input.states = usize::MAX;
    assert_eq!(huge.explain_all(), Err(Error { number: 1, place: 0 }));
}

// Rings of 32 states, each with moves on to the next ring; outputs of the last ring are too far for what the first two rings of inputs ask for.
#[test]
fn all_positions_of_a_large_game() {
    let moves: Vec<Vec<usize>> = (0..STATES).map(|s| [s / 32 * 32 + (s + 1) % 32, s + 32].into_iter().filter(|t| *t < STATES).collect()).collect();
    let drawn = Drawn::new(moves).graph();
    let game = made(drawn, drawn, &[requirement(&[&[0, 32]], &[&[70]])]);
    let all = game.explain_all().unwrap();
    assert_eq!(all.len(), STATES * STATES);
    for (p, ground) in all.iter().enumerate() {
        assert_eq!(Ok(*ground), game.explain(InState(p / STATES), OutState(p % STATES)), "position {p}");
    }
    for ground in [AtHome(OutState(64)), ByWayOut(InState(32)), Unserved(0, 0)] {
        assert!(all.contains(&ground), "{ground}");
    }
}

#[test]
fn in_words() {
    assert_eq!(AtHome(OutState(3)).to_string(), "won: the outputs of component 3 serve all that is due");
    assert_eq!(
        Unserved(1, 0).to_string(),
        "lost: requirement 1 is due, and the outputs here never visit its output set 0"
    );
}
