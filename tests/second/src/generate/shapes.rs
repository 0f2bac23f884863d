//! The shapes of graphs. Every state has a move here, before some are latched,
//! and some state is initial.

use super::Draw;
use crate::game::{Graph, State};
use std::ops::Range;

#[derive(Clone, Copy, Debug)]
pub enum Shape {
    Tree,
    Chain,
    Lone,
    Period,
    Dense,
    Sparse,
}

pub const SHAPES: [Shape; 6] = [Shape::Tree, Shape::Chain, Shape::Lone, Shape::Period, Shape::Dense, Shape::Sparse];

impl Shape {
    pub fn graph(self, count: usize, draw: &mut Draw) -> Graph {
        let mut sketch = Sketch { has: vec![vec![false; count]; count] };
        match self {
            Shape::Tree => sketch.tree(draw),
            Shape::Chain => sketch.chain(draw),
            Shape::Lone => sketch.lone(draw),
            Shape::Period => sketch.period(draw),
            Shape::Dense => sketch.dense(draw),
            Shape::Sparse => sketch.sparse(draw),
        }
        sketch.close_dead_ends(draw);
        sketch.numbered(draw)
    }
}

/// A graph with these moves whose one initial state is 0.
pub fn from_zero(count: usize, moves: impl Fn(usize) -> Vec<usize>) -> Graph {
    (0..count).map(|s| State { initial: s == 0, moves: moves(s) }).collect()
}

/// Which moves there are, by two states.
struct Sketch {
    has: Vec<Vec<bool>>,
}

impl Sketch {
    fn count(&self) -> usize {
        self.has.len()
    }

    fn link(&mut self, from: usize, to: usize) {
        self.has[from][to] = true;
    }

    /// A few states may wait on the way: then replies can be put off.
    fn tree(&mut self, draw: &mut Draw) {
        let (wide, waiting) = (1 + draw.below(4), draw.pick(&[0, 20, 50]));
        for state in 1..self.count() {
            let parent = state - 1 - draw.below(state.min(wide));
            self.link(parent, state);
        }
        for state in 0..self.count() {
            if !self.has[state].contains(&true) || draw.chance(waiting) {
                self.link(state, state);
            }
        }
    }

    fn chain(&mut self, draw: &mut Draw) {
        let blocks = self.blocks(|draw| 1 + draw.below(4), draw);
        for block in &blocks {
            self.ring(block, draw);
        }
        self.join(&blocks, draw);
    }

    /// Blocks of one state get no self-move, unless nothing comes after.
    fn lone(&mut self, draw: &mut Draw) {
        let blocks = self.blocks(|draw| draw.pick(&[1, 1, 2, 3]), draw);
        let share = draw.pick(&[50, 80, 100]);
        for (number, block) in blocks.iter().enumerate() {
            if block.len() > 1 || number + 1 == blocks.len() || draw.chance(100 - share) {
                self.ring(block, draw);
            }
        }
        self.join(&blocks, draw);
    }

    /// Moves only between the even and the odd states of a block.
    fn period(&mut self, draw: &mut Draw) {
        let blocks = self.blocks(|draw| draw.pick(&[2, 2, 4, 6]), draw);
        for block in &blocks {
            for state in block.clone() {
                let next = if state + 1 < block.end { state + 1 } else { block.start };
                self.link(state, next);
                self.link(next, state);
            }
        }
        self.join(&blocks, draw);
    }

    fn dense(&mut self, draw: &mut Draw) {
        let share = 40 + draw.below(55);
        for from in 0..self.count() {
            for to in 0..self.count() {
                if draw.chance(share) {
                    self.link(from, to);
                }
            }
        }
    }

    fn sparse(&mut self, draw: &mut Draw) {
        for from in 0..self.count() {
            for _ in 0..1 + draw.below(2) {
                let to = draw.below(self.count());
                self.link(from, to);
            }
        }
    }

    /// The states cut into blocks, each of a drawn length.
    fn blocks(&self, length: impl Fn(&mut Draw) -> usize, draw: &mut Draw) -> Vec<Range<usize>> {
        let mut blocks = Vec::new();
        let mut start = 0;
        while start < self.count() {
            let end = (start + length(draw)).min(self.count());
            blocks.push(start..end);
            start = end;
        }
        blocks
    }

    /// A ring through the block, with a few more moves inside.
    fn ring(&mut self, block: &Range<usize>, draw: &mut Draw) {
        for state in block.clone() {
            let next = if state + 1 < block.end { state + 1 } else { block.start };
            self.link(state, next);
            if draw.chance(30) {
                let chord = block.start + draw.below(block.len());
                self.link(state, chord);
            }
        }
    }

    /// One or more moves from each block to later ones, mostly the next.
    fn join(&mut self, blocks: &[Range<usize>], draw: &mut Draw) {
        for number in 0..blocks.len().saturating_sub(1) {
            for _ in 0..1 + draw.below(3) {
                let skip = if draw.chance(30) { draw.below(blocks.len() - number - 1) } else { 0 };
                let (here, later) = (&blocks[number], &blocks[number + 1 + skip]);
                let (from, to) = (here.start + draw.below(here.len()), later.start + draw.below(later.len()));
                self.link(from, to);
            }
        }
    }

    fn close_dead_ends(&mut self, draw: &mut Draw) {
        for state in 0..self.count() {
            if !self.has[state].contains(&true) {
                let next = if draw.chance(70) { state } else { draw.below(self.count()) };
                self.link(state, next);
            }
        }
    }

    /// The graph, half the time with shuffled numbers, so that the lowest
    /// number is not always the first on the way. Mostly the first state of
    /// the sketch is initial, since all the others come after it.
    fn numbered(&self, draw: &mut Draw) -> Graph {
        let mut name: Vec<usize> = (0..self.count()).collect();
        if draw.chance(50) {
            draw.shuffle(&mut name);
        }
        let mut graph = vec![State { initial: false, moves: Vec::new() }; self.count()];
        for (from, row) in self.has.iter().enumerate() {
            let moves = &mut graph[name[from]].moves;
            moves.extend((0..row.len()).filter(|&to| row[to]).map(|to| name[to]));
            moves.sort_unstable();
        }
        let first = if draw.chance(70) { 0 } else { draw.below(self.count()) };
        graph[name[first]].initial = true;
        if draw.chance(35) {
            graph[draw.below(self.count())].initial = true;
        }
        graph
    }
}
