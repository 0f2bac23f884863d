//! A graph as a picture: SVG, with a class and numbers at each state and move, by which the page's script marks them.
use crate::graphs::{has, members, moves};
use crate::page::layout::{self, Layout, Point, Size};
use crate::page::pack::escaped;
use crate::play::table::Match;
use crate::requirements::{assumptions, guarantees};
use nanpuwiq::{Graph, InState, OutState, Set};
use std::fmt::Write;

/// A graph with more states is drawn as a grid of its moves, and the script shows the neighbours of the present state.
const WHOLE: usize = 40;

/// One of the two graphs, and what is told of its states.
pub struct Side<'a> {
    pub id: &'static str,
    pub title: &'static str,
    pub graph: &'a Graph,
    pub called: Vec<String>,
    pub components: Vec<Set>,
    sets: Vec<(Tag, Set)>,
}

/// A requirement's set at a state: "if 0", "then 1.2", and the requirement's pattern.
#[derive(Clone)]
pub struct Tag {
    pub label: String,
    pub pattern: usize,
}

impl Side<'_> {
    pub fn old(game: &Match) -> Side<'_> {
        let graph = &game.game.input;
        let used = game.game.requirements.iter().take(game.game.k).enumerate();
        Side {
            id: "old",
            title: "Old drive (the panel picks)",
            graph,
            called: (0..graph.states).map(|s| game.input_called(InState(s))).collect(),
            components: (0..graph.states).map(|s| game.old_component(InState(s))).collect(),
            sets: used.flat_map(|(n, q)| tagged("if", n, assumptions(q).iter().map(|set| set.0).collect())).collect(),
        }
    }

    pub fn new(game: &Match) -> Side<'_> {
        let graph = &game.game.output;
        let used = game.game.requirements.iter().take(game.game.k).enumerate();
        Side {
            id: "new",
            title: "New drive (answers)",
            graph,
            called: (0..graph.states).map(|s| game.output_called(OutState(s))).collect(),
            components: (0..graph.states).map(|s| game.new_component(OutState(s))).collect(),
            sets: used.flat_map(|(n, q)| tagged("then", n, guarantees(q).iter().map(|set| set.0).collect())).collect(),
        }
    }

    /// The sets that a state belongs to.
    pub fn tags(&self, state: usize) -> Vec<Tag> {
        self.sets.iter().filter(|(_, set)| has(*set, state)).map(|(tag, _)| tag.clone()).collect()
    }

    /// Whether all of it is drawn.
    pub fn is_whole(&self) -> bool {
        self.graph.states <= WHOLE
    }
}

/// The labels of a requirement's sets; a lone set needs no number of its own.
fn tagged(word: &str, number: usize, sets: Vec<Set>) -> Vec<(Tag, Set)> {
    let lone = sets.len() == 1;
    let label = |n: usize| if lone { format!("{word} {number}") } else { format!("{word} {number}.{n}") };
    sets.into_iter().enumerate().map(|(n, set)| (Tag { label: label(n), pattern: number }, set)).collect()
}

/// Pictures that are wider do not stand beside one another.
const BESIDE: f64 = 420.0;

/// The figure of a side: its picture, or the grid of its moves.
pub fn figure(side: &Side) -> String {
    let (picture, width) = if side.is_whole() { picture(side) } else { (neighbours(side) + &moves_grid(side), BESIDE) };
    let class = if width > BESIDE { " class=\"wide\"" } else { "" };
    format!("<figure id=\"{}\"{class}><figcaption>{}</figcaption>{picture}</figure>", side.id, side.title)
}

/// How wide a text is, in Latin letters.
pub fn wide(text: &str) -> f64 {
    let letter = |c: char| match u32::from(c) {
        0..=0x7f => 1.0,
        0x80..=0x10ff => 1.15,
        _ => 1.75,
    };
    text.chars().map(letter).sum()
}

const LETTER: f64 = 8.0;
const TAG_LETTER: f64 = 6.6;
/// Tags of a state that are drawn; more are told in its title.
const TAGS: usize = 3;

fn tag_width(tag: &Tag) -> f64 {
    16.0 + TAG_LETTER * tag.label.chars().count() as f64 + 6.0
}

/// The picture, and how wide it is.
fn picture(side: &Side) -> (String, f64) {
    let letters = side.called.iter().map(|name| wide(name)).fold(1.0, f64::max);
    let tags = |s: usize| {
        side.tags(s).iter().take(TAGS).map(tag_width).sum::<f64>() + if side.tags(s).len() > TAGS { 22.0 } else { 0.0 }
    };
    let tags = (0..side.graph.states).map(tags).fold(0.0, f64::max);
    let width = (LETTER * letters + 24.0).max(tags + 12.0).max(56.0);
    let size = Size { width, height: if tags > 0.0 { 48.0 } else { 34.0 } };
    let drawn = layout::layout(side.graph, &side.components, size);
    let (width, height) = (drawn.width.ceil(), drawn.height.ceil());
    let mut text = format!(
        "<div class=\"picture\"><svg viewBox=\"0 0 {width} {height}\" width=\"{width}\" height=\"{height}\" role=\"img\" aria-label=\"{}\"><desc>{}</desc>",
        escaped(side.title),
        escaped(&described(side))
    );
    for frame in &drawn.frames {
        let _ = write!(
            text,
            "<rect class=\"frame\" x=\"{:.0}\" y=\"{:.0}\" width=\"{:.0}\" height=\"{:.0}\" rx=\"14\"/>",
            frame.x, frame.y, frame.width, frame.height
        );
    }
    for from in 0..side.graph.states {
        for to in members(moves(side.graph, from)) {
            text += &edge(side, &drawn, size, from, to);
        }
    }
    for state in 0..side.graph.states {
        text += &node(side, drawn.places[state], size, state);
    }
    (text + "</svg></div>", width)
}

/// The moves in words, for those who cannot see the picture.
fn described(side: &Side) -> String {
    let to = |s: usize| {
        let to: Vec<&str> = members(moves(side.graph, s)).map(|t| side.called[t].as_str()).collect();
        match to.is_empty() {
            true => format!("{} has no move.", side.called[s]),
            false => format!("{} goes to {}.", side.called[s], to.join(", ")),
        }
    };
    (0..side.graph.states).map(to).collect::<Vec<_>>().join(" ")
}

fn node(side: &Side, at: Point, size: Size, state: usize) -> String {
    let (x, y) = (at.x - size.width / 2.0, at.y - size.height / 2.0);
    let tags = side.tags(state);
    let mut text = String::new();
    if has(side.graph.initial, state) {
        let (from, to) = (x - 20.0, x - 2.0);
        let _ = write!(
            text,
            "<g class=\"initial\"><circle cx=\"{from:.1}\" cy=\"{y:.1}\" r=\"3.5\"/><path d=\"M{from:.1} {0:.1}L{to:.1} {0:.1}\"/>{1}</g>",
            at.y,
            head(Point { x: to + 1.0, y: at.y }, Point { x: 1.0, y: 0.0 }),
            y = at.y
        );
    }
    let name = &side.called[state];
    let all: Vec<&str> = tags.iter().map(|tag| tag.label.as_str()).collect();
    let title = if all.is_empty() { name.clone() } else { format!("{name} ({})", all.join(", ")) };
    let _ = write!(
        text,
        "<g class=\"state\" data-state=\"{state}\"><title>{}</title><rect x=\"{x:.1}\" y=\"{y:.1}\" width=\"{:.1}\" height=\"{:.1}\" rx=\"9\"/>",
        escaped(&title),
        size.width,
        size.height
    );
    let line = if tags.is_empty() { at.y + 5.0 } else { y + 20.0 };
    let _ = write!(text, "<text x=\"{:.1}\" y=\"{line:.1}\">{}</text>", at.x, escaped(name));
    text += &tag_row(&tags, at.x, y + 28.0);
    text + "</g>"
}

/// The tags below a state's name: a pattern and a label each.
fn tag_row(tags: &[Tag], middle: f64, top: f64) -> String {
    let more = tags.len().saturating_sub(TAGS);
    let width = tags.iter().take(TAGS).map(tag_width).sum::<f64>() - 6.0 + if more > 0 { 22.0 } else { 0.0 };
    let (mut x, mut text) = (middle - width / 2.0, String::new());
    for tag in tags.iter().take(TAGS) {
        let _ = write!(
            text,
            "<rect class=\"swatch\" x=\"{x:.1}\" y=\"{top:.1}\" width=\"12\" height=\"12\" fill=\"url(#pattern{})\"/><text class=\"tag\" x=\"{:.1}\" y=\"{:.1}\">{}</text>",
            tag.pattern,
            x + 16.0,
            top + 10.0,
            escaped(&tag.label)
        );
        x += tag_width(tag);
    }
    if more > 0 {
        let _ = write!(text, "<text class=\"tag\" x=\"{x:.1}\" y=\"{:.1}\">+{more}</text>", top + 10.0);
    }
    text
}

/// An arrow's head at a point, in a direction of length 1.
fn head(tip: Point, to: Point) -> String {
    let back = |across: f64| Point { x: tip.x - 8.0 * to.x + across * to.y, y: tip.y - 8.0 * to.y - across * to.x };
    let (left, right) = (back(4.0), back(-4.0));
    format!(
        "<path class=\"head\" d=\"M{:.1} {:.1}L{:.1} {:.1}L{:.1} {:.1}z\"/>",
        tip.x, tip.y, left.x, left.y, right.x, right.y
    )
}

/// Whether more lines come to a state from above on the right than on the left.
fn busy_right(graph: &Graph, drawn: &Layout, state: usize) -> bool {
    let here = drawn.places[state];
    let beside = |s: usize| s != state && (has(moves(graph, s), state) || has(moves(graph, state), s));
    let above = |right: bool| {
        let there = (0..graph.states).filter(|s| beside(*s)).map(|s| drawn.places[s]);
        there.filter(|at| at.y < here.y - 1.0 && (at.x >= here.x) == right).count()
    };
    above(true) > above(false)
}

/// A move of a state to itself: a loop on its upper side, at the right end for 1, at the left for -1.
fn own_loop(at: Point, size: Size, end: f64) -> String {
    let (x, y) = (at.x + end * (size.width / 2.0 - 20.0), at.y - size.height / 2.0);
    let tip = Point { x: x + end * 11.0, y: y - 1.5 };
    format!(
        "<path d=\"M{x:.1} {y:.1}C{:.1} {:.1} {:.1} {:.1} {:.1} {:.1}\"/>{}",
        x - end * 10.0,
        y - 25.0,
        x + end * 25.0,
        y - 25.0,
        tip.x + end * 2.2,
        tip.y - 6.0,
        head(tip, Point { x: -0.34 * end, y: 0.94 })
    )
}

fn edge(side: &Side, drawn: &Layout, size: Size, from: usize, to: usize) -> String {
    let (a, b) = (drawn.places[from], drawn.places[to]);
    let open = format!("<g class=\"move\" data-from=\"{from}\" data-to=\"{to}\">");
    if from == to {
        return format!(
            "{open}{}</g>",
            own_loop(a, size, if busy_right(side.graph, drawn, from) { -1.0 } else { 1.0 })
        );
    }
    let bend = bend(drawn, size, from, to);
    let control = bent(a, b, bend);
    let start = leaving(a, control, b, size, a, false);
    let end = leaving(a, control, b, size, b, true);
    let (tip, before) = (on_curve(a, control, b, end), on_curve(a, control, b, end - 0.02));
    let length = layout::distance(tip, before).max(1e-6);
    let way = Point { x: (tip.x - before.x) / length, y: (tip.y - before.y) / length };
    let points: Vec<String> = part(a, control, b, start, end);
    format!("{open}<path d=\"{}\"/>{}</g>", points.join(""), head(tip, way))
}

/// The part of a curve between two of its places, as a curve.
fn part(a: Point, control: Point, b: Point, start: f64, end: f64) -> Vec<String> {
    let (first, last) = (on_curve(a, control, b, start), on_curve(a, control, b, end));
    // the control point of the part: the blossom of the curve at its two ends
    let mix = |u: f64, v: f64, p: f64, q: f64, r: f64| {
        (1.0 - u) * (1.0 - v) * p + (u * (1.0 - v) + v * (1.0 - u)) * q + u * v * r
    };
    let middle = Point { x: mix(start, end, a.x, control.x, b.x), y: mix(start, end, a.y, control.y, b.y) };
    vec![format!("M{:.1} {:.1}Q{:.1} {:.1} {:.1} {:.1}", first.x, first.y, middle.x, middle.y, last.x, last.y)]
}

fn on_curve(a: Point, control: Point, b: Point, t: f64) -> Point {
    let mix = |p: f64, q: f64, r: f64| (1.0 - t) * (1.0 - t) * p + 2.0 * t * (1.0 - t) * q + t * t * r;
    Point { x: mix(a.x, control.x, b.x), y: mix(a.y, control.y, b.y) }
}

/// The control point of a line that is bent to its left by a part of its length.
fn bent(a: Point, b: Point, bend: f64) -> Point {
    let (dx, dy) = (b.x - a.x, b.y - a.y);
    Point { x: (a.x + b.x) / 2.0 + dy * bend * 2.0, y: (a.y + b.y) / 2.0 - dx * bend * 2.0 }
}

/// Where a curve leaves the box around a state, with a little room before an arrow's head.
fn leaving(a: Point, control: Point, b: Point, size: Size, middle: Point, end: bool) -> f64 {
    let room = if end { 2.0 } else { 0.0 };
    let inside = |p: Point| {
        (p.x - middle.x).abs() <= size.width / 2.0 + room && (p.y - middle.y).abs() <= size.height / 2.0 + room
    };
    let (mut within, mut without) = if end { (1.0, 0.5) } else { (0.0, 0.5) };
    for _ in 0..24 {
        let t = (within + without) / 2.0;
        match inside(on_curve(a, control, b, t)) {
            true => within = t,
            false => without = t,
        }
    }
    without
}

/// How far a line is bent: the least that runs through the fewest other states. Moves there and back are bent apart.
fn bend(drawn: &Layout, size: Size, from: usize, to: usize) -> f64 {
    let (a, b) = (drawn.places[from], drawn.places[to]);
    let through = |bend: f64| {
        let control = bent(a, b, bend);
        let hit = |s: usize| {
            let middle = drawn.places[s];
            (1..24).map(|n| on_curve(a, control, b, f64::from(n) / 24.0)).any(|p| {
                (p.x - middle.x).abs() < size.width / 2.0 + 5.0 && (p.y - middle.y).abs() < size.height / 2.0 + 5.0
            })
        };
        let outside = (1..24)
            .map(|n| on_curve(a, control, b, f64::from(n) / 24.0))
            .filter(|p| p.x < 2.0 || p.y < 2.0 || p.x > drawn.width - 2.0 || p.y > drawn.height - 2.0)
            .count();
        (0..drawn.places.len()).filter(|s| *s != from && *s != to && hit(*s)).count() * 4 + outside
    };
    let length = layout::distance(a, b).max(1.0);
    // short lines are bent more, so that there and back can be told apart
    let least = (10.0 / length).clamp(0.05, 0.16);
    let tried = [least, 0.2, -0.2, 0.3, -0.3, 0.42, -0.42, 0.55, -0.55];
    tried.into_iter().min_by_key(|bend| through(*bend)).unwrap_or(least)
}

/// The place where the script draws the neighbours of a state.
fn neighbours(side: &Side) -> String {
    format!(
        "<div class=\"search needs-script\"><label>Find a state <input type=\"search\" list=\"{0}-states\" data-side=\"{0}\" autocomplete=\"off\"></label>\
         <datalist id=\"{0}-states\">{1}</datalist></div><div class=\"picture near needs-script\" data-side=\"{0}\"></div>",
        side.id,
        side.called.iter().map(|name| format!("<option value=\"{}\"></option>", escaped(name))).collect::<String>()
    )
}

/// All moves of a large graph: a row for where a move begins, a column for where it leads.
fn moves_grid(side: &Side) -> String {
    const CELL: f64 = 10.0;
    let letters = side.called.iter().map(|name| wide(name)).fold(1.0, f64::max);
    let (left, top) = (letters * 5.6 + 10.0, 26.0);
    let mut order: Vec<usize> = (0..side.graph.states).collect();
    order.sort_by_key(|s| (members(side.components[*s]).next(), *s));
    let length = CELL * order.len() as f64;
    let (width, height) = ((left + length + 4.0).ceil(), (top + length + 4.0).ceil());
    let mut text = format!(
        "<details class=\"all-moves\"><summary>All moves: a row for each state, a mark where it can go</summary><div class=\"picture\"><svg class=\"moves\" viewBox=\"0 0 {width} {height}\" width=\"{width}\" height=\"{height}\" role=\"img\" aria-label=\"{}\">",
        escaped(side.title)
    );
    let mut marks = String::new();
    for (row, from) in order.iter().enumerate() {
        let y = top + CELL * row as f64;
        let _ =
            write!(text, "<text x=\"{:.0}\" y=\"{:.1}\">{}</text>", left - 4.0, y + 8.0, escaped(&side.called[*from]));
        if row % 2 == 0 {
            let _ =
                write!(text, "<rect class=\"stripe\" x=\"{left}\" y=\"{y}\" width=\"{length}\" height=\"{CELL}\"/>");
        }
        for (column, to) in order.iter().enumerate() {
            if has(moves(side.graph, *from), *to) {
                let _ = write!(marks, "M{:.0} {:.0}h6v6h-6z", left + CELL * column as f64 + 2.0, y + 2.0);
            }
        }
    }
    for (column, to) in order.iter().enumerate() {
        if column % 5 == 0 {
            let _ = write!(
                text,
                "<text class=\"column\" x=\"{:.0}\" y=\"20\">{to}</text>",
                left + CELL * column as f64 + 5.0
            );
        }
    }
    let _ = write!(text, "<rect class=\"edge\" x=\"{left}\" y=\"{top}\" width=\"{length}\" height=\"{length}\"/><path class=\"marks\" d=\"{marks}\"/>");
    text + "</svg></div></details>"
}
