//! Where the states of a graph are drawn. The same graph always gets the same drawing.
//!
//! Components are blocks in rows from top to bottom, each below all that lead to it. In a block of a few states these stand on an ellipse, else in rows by their
//! distance from where the component is entered; both orders are improved by exchanging states as long as that takes crossings away.
use crate::graphs::{has, members, moves};
use nanpuwiq::{Graph, Set};

#[derive(Clone, Copy, Default, PartialEq)]
pub struct Point {
    pub x: f64,
    pub y: f64,
}

/// A box around the states of a component.
pub struct Frame {
    pub x: f64,
    pub y: f64,
    pub width: f64,
    pub height: f64,
}

pub struct Layout {
    pub width: f64,
    pub height: f64,
    /// The middle of each state.
    pub places: Vec<Point>,
    pub frames: Vec<Frame>,
}

/// How large a state is drawn.
#[derive(Clone, Copy)]
pub struct Size {
    pub width: f64,
    pub height: f64,
}

/// Room beside a state for the arrow of an initial state, above it for its self-move, and between states for arrows.
const BESIDE: f64 = 34.0;
const ABOVE: f64 = 16.0;
const BETWEEN: f64 = 44.0;
/// States on an ellipse at most.
const ON_ELLIPSE: usize = 8;
/// A row is broken where it gets wider.
const ROW: f64 = 760.0;

/// A component, laid out by itself around its own corner.
struct Block {
    states: Vec<usize>,
    places: Vec<Point>,
    size: Size,
}

pub fn layout(graph: &Graph, components: &[Set], state: Size) -> Layout {
    let firsts = (0..graph.states).filter(|s| members(components[*s]).next() == Some(*s));
    let mut blocks: Vec<Block> = firsts.map(|s| block(graph, components[s], state)).collect();
    let rows = rows(graph, &mut blocks);
    placed(graph, &blocks, &rows)
}

/// The blocks by rows: a block is a row below the last of those that lead to it.
fn rows(graph: &Graph, blocks: &mut [Block]) -> Vec<Vec<usize>> {
    let leads = |a: &Block, b: &Block| a.states.iter().any(|s| b.states.iter().any(|t| has(moves(graph, *s), *t)));
    let count = blocks.len();
    let before: Vec<Vec<usize>> =
        (0..count).map(|b| (0..count).filter(|a| *a != b && leads(&blocks[*a], &blocks[b])).collect()).collect();
    let mut depth = vec![0; count];
    // each pass settles at least the next depth
    for _ in 0..count {
        for b in 0..count {
            depth[b] = before[b].iter().map(|a| depth[*a] + 1).max().unwrap_or(0);
        }
    }
    let mut rows: Vec<Vec<usize>> = vec![Vec::new(); depth.iter().max().map_or(0, |most| most + 1)];
    for b in 0..count {
        rows[depth[b]].push(b);
    }
    // by the middle of those that lead here, so that few lines cross
    let mut middle = vec![0.0; count];
    for row in &mut rows {
        row.sort_by(|a, b| middle_of(&before[*a], &middle).total_cmp(&middle_of(&before[*b], &middle)).then(a.cmp(b)));
        for (place, b) in row.iter().enumerate() {
            middle[*b] = (place as f64 + 0.5) / row.len() as f64;
        }
    }
    rows.into_iter().flat_map(|row| broken(&row, blocks)).collect()
}

fn middle_of(before: &[usize], middle: &[f64]) -> f64 {
    match before.len() {
        0 => 0.5,
        count => before.iter().map(|a| middle[*a]).sum::<f64>() / count as f64,
    }
}

/// A row of blocks, broken where it gets too wide.
fn broken(row: &[usize], blocks: &[Block]) -> Vec<Vec<usize>> {
    let mut rows: Vec<Vec<usize>> = vec![Vec::new()];
    let mut width = 0.0;
    for b in row {
        width += blocks[*b].size.width;
        if width > ROW && rows.last().is_some_and(|last| !last.is_empty()) {
            rows.push(Vec::new());
            width = blocks[*b].size.width;
        }
        if let Some(last) = rows.last_mut() {
            last.push(*b);
        }
    }
    rows
}

/// The rows below one another, each in the middle.
fn placed(graph: &Graph, blocks: &[Block], rows: &[Vec<usize>]) -> Layout {
    let width_of = |row: &Vec<usize>| row.iter().map(|b| blocks[*b].size.width).sum::<f64>();
    let width = rows.iter().map(width_of).fold(0.0, f64::max);
    let mut drawn = Layout { width, height: 0.0, places: vec![Point::default(); graph.states], frames: Vec::new() };
    for row in rows {
        let mut left = (width - width_of(row)) / 2.0;
        let height = row.iter().map(|b| blocks[*b].size.height).fold(0.0, f64::max);
        for b in row {
            let Block { states, places, size } = &blocks[*b];
            let top = drawn.height + (height - size.height) / 2.0;
            for (s, at) in states.iter().zip(places) {
                drawn.places[*s] = Point { x: left + at.x, y: top + at.y };
            }
            if states.len() > 1 {
                let (x, y, width, height) = (left + 6.0, top + 4.0, size.width - 12.0, size.height - 8.0);
                drawn.frames.push(Frame { x, y, width, height });
            }
            left += size.width;
        }
        drawn.height += height + 22.0;
    }
    drawn.height -= 22.0;
    drawn
}

fn block(graph: &Graph, component: Set, state: Size) -> Block {
    let states: Vec<usize> = members(component).collect();
    let (states, places) = match states.len() {
        1 => (states, vec![Point::default()]),
        2 => (states, vec![Point::default(), Point { x: state.width + BETWEEN + 20.0, y: 0.0 }]),
        3..=ON_ELLIPSE => on_ellipse(graph, states, state),
        _ => in_rows(graph, component, states, state),
    };
    let many = states.len() > 1;
    let stays = states.iter().any(|s| has(moves(graph, *s), *s));
    bounded(states, places, state, if many { 14.0 } else { 6.0 }, if stays { ABOVE } else { 0.0 })
}

/// Moves the places so that all is right and below of the corner, with room around.
fn bounded(states: Vec<usize>, mut places: Vec<Point>, state: Size, around: f64, above: f64) -> Block {
    let least = |of: fn(&Point) -> f64| places.iter().map(of).fold(f64::INFINITY, f64::min);
    let most = |of: fn(&Point) -> f64| places.iter().map(of).fold(f64::NEG_INFINITY, f64::max);
    let (left, right, top, bottom) = (least(|p| p.x), most(|p| p.x), least(|p| p.y), most(|p| p.y));
    for at in &mut places {
        at.x += state.width / 2.0 + BESIDE - left;
        at.y += state.height / 2.0 + around + above - top;
    }
    let size = Size {
        width: right - left + state.width + 2.0 * BESIDE,
        height: bottom - top + state.height + 2.0 * around + above,
    };
    Block { states, places, size }
}

/// The lines between states, each pair once.
fn lines(graph: &Graph, states: &[usize]) -> Vec<(usize, usize)> {
    let mut lines = Vec::new();
    for (a, s) in states.iter().enumerate() {
        for (b, t) in states.iter().enumerate().skip(a + 1) {
            if has(moves(graph, *s), *t) || has(moves(graph, *t), *s) {
                lines.push((a, b));
            }
        }
    }
    lines
}

/// Crossings count most, then how long the lines are.
fn cost(lines: &[(usize, usize)], places: &[Point]) -> f64 {
    let mut cost = 0.0;
    for (n, (a, b)) in lines.iter().enumerate() {
        cost += distance(places[*a], places[*b]) / 1e4;
        for (c, d) in &lines[n + 1..] {
            cost += f64::from(u8::from(crosses([places[*a], places[*b]], [places[*c], places[*d]])));
        }
    }
    cost
}

/// By the root of the squares: C's hypot would ask for a newer glibc than the rest does.
pub fn distance(a: Point, b: Point) -> f64 {
    let (x, y) = (a.x - b.x, a.y - b.y);
    (x * x + y * y).sqrt()
}

/// Whether two lines cross other than at an end.
fn crosses([a, b]: [Point; 2], [c, d]: [Point; 2]) -> bool {
    let side = |p: Point, q: Point, r: Point| (q.x - p.x) * (r.y - p.y) - (q.y - p.y) * (r.x - p.x);
    let apart = |p: f64, q: f64| p.abs() > 1e-6 && q.abs() > 1e-6 && (p > 0.0) != (q > 0.0);
    apart(side(a, b, c), side(a, b, d)) && apart(side(c, d, a), side(c, d, b))
}

/// Exchanges two states of equal standing as long as that makes the drawing better.
fn improved(lines: &[(usize, usize)], places: &mut [Point], equal: impl Fn(usize, usize) -> bool) {
    let mut best = cost(lines, places);
    for _ in 0..12 {
        let before = best;
        for a in 0..places.len() {
            for b in a + 1..places.len() {
                if !equal(a, b) {
                    continue;
                }
                places.swap(a, b);
                let now = cost(lines, places);
                if now + 1e-9 < best {
                    best = now;
                } else {
                    places.swap(a, b);
                }
            }
        }
        if best >= before {
            break;
        }
    }
}

fn on_ellipse(graph: &Graph, states: Vec<usize>, state: Size) -> (Vec<usize>, Vec<Point>) {
    let count = states.len();
    let at = |n: usize, scale: f64| {
        let turn = std::f64::consts::TAU * (n as f64 / count as f64) - std::f64::consts::FRAC_PI_2;
        Point { x: turn.cos() * (state.width + BETWEEN) * scale, y: turn.sin() * (state.height + BETWEEN) * scale }
    };
    let mut scale = 0.5;
    let apart = |a: Point, b: Point| {
        (a.x - b.x).abs() >= state.width + BETWEEN || (a.y - b.y).abs() >= state.height + BETWEEN * 0.8
    };
    while (0..count).any(|a| (0..a).any(|b| !apart(at(a, scale), at(b, scale)))) {
        scale *= 1.06;
    }
    let mut places: Vec<Point> = (0..count).map(|n| at(n, scale)).collect();
    improved(&lines(graph, &states), &mut places, |_, _| true);
    (states, places)
}

fn in_rows(graph: &Graph, component: Set, states: Vec<usize>, state: Size) -> (Vec<usize>, Vec<Point>) {
    let entered = members(component).find(|s| has(graph.initial, *s));
    let outside = (0..graph.states).filter(|s| !has(component, *s));
    let led_to = outside.flat_map(|s| members(moves(graph, s) & component)).min();
    let first = entered.or(led_to).unwrap_or(states[0]);
    let distance = distances(graph, component, first);
    let per_row = ((states.len() as f64).sqrt() * 1.1).ceil().max(3.0) as usize;
    let mut order: Vec<usize> = (0..states.len()).collect();
    order.sort_by_key(|n| (distance[states[*n]], *n));
    // a row has states of one distance, and no more than fit
    let mut rows: Vec<Vec<usize>> = Vec::new();
    for n in order {
        match rows.last_mut() {
            Some(row) if row.len() < per_row && distance[states[row[0]]] == distance[states[n]] => row.push(n),
            _ => rows.push(vec![n]),
        }
    }
    let mut places = vec![Point::default(); states.len()];
    let mut row_of = vec![0; states.len()];
    for (number, row) in rows.iter().enumerate() {
        for (column, n) in row.iter().enumerate() {
            // every other row is moved a little, so that lines do not run through states
            let x = column as f64 - (row.len() as f64 - 1.0) / 2.0 + 0.25 * (number % 2) as f64;
            places[*n] = Point { x: x * (state.width + BETWEEN), y: number as f64 * (state.height + BETWEEN * 1.3) };
            row_of[*n] = number;
        }
    }
    improved(&lines(graph, &states), &mut places, |_, _| true);
    (states, places)
}

/// How many moves inside the component lead to each state.
fn distances(graph: &Graph, component: Set, first: usize) -> Vec<usize> {
    let mut distance = vec![usize::MAX; graph.states];
    let mut ring = Set::of(first);
    let mut seen = ring;
    let mut turn = 0;
    while ring != Set::default() {
        let mut next = Set::default();
        for s in members(ring) {
            distance[s] = turn;
            next |= moves(graph, s) & component;
        }
        ring = Set::from_bits(next.bits() & !seen.bits());
        seen |= ring;
        turn += 1;
    }
    distance
}
