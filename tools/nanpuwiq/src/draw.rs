//! `nanpuwiq draw`: both graphs in graphviz's language.
use crate::arguments::Arguments;
use crate::failure::{Failure, Status};
use crate::files::{self, GameFile};
use crate::graphs::{component, has, members, moves};
use crate::names::Names;
use crate::requirements::{self, assumptions, guarantees};
use crate::standard;
use crate::subcommand::Subcommand;
use nanpuwiq::{Error, Game, Graph, InState, OutState, Requirement, Set};
use std::fmt::Write;

pub const SUBCOMMAND: Subcommand = Subcommand {
    name: "draw",
    form: "FILE",
    words: "print both graphs for graphviz",
    options: &[("--names", 1), ("--position", 2)],
    help: HELP,
    run,
};

const HELP: &str = "\
nanpuwiq draw [--names NAMES] [--position I O] FILE

Prints both graphs in graphviz's language, the old drive above the new one: 'nanpuwiq draw FILE | dot -Tsvg'. Components are boxes, initial states
have an arrow from a dot, and a state tells the requirements whose sets it belongs to; a legend says so. 'nanpuwiq format' makes the game of it again.

  --names NAMES     names for the states, as for play
  --position I O    mark input I and output O: every input shows whether it is won or lost with O, every output whether it is with I
";

fn run(arguments: Arguments) -> Result<Status, Failure> {
    let GameFile { name, game, names } = files::read_game(arguments.file()?, arguments.value("--names"))?;
    let refused = |error: Error| Failure::Refused(format!("{name}: {error}"));
    let position = position(&arguments, &game, &names)?;
    let won = game.won_map().map_err(refused)?;
    let picture = Picture { game: &game, names: &names, position, won };
    standard::write(picture.text(&name).map_err(refused)?.as_bytes())?;
    Ok(Status::Fine)
}

/// The position that is asked for, by numbers or names.
fn position(arguments: &Arguments, game: &Game, names: &Names) -> Result<Option<(InState, OutState)>, Failure> {
    let Some([input, output]) = arguments.values("--position") else {
        return Ok(None);
    };
    let (input, output) = (input.to_string_lossy(), output.to_string_lossy());
    let i = names.input_of(&input, game.input.states).ok_or_else(|| arguments.wrong(&format!("no input '{input}'")))?;
    let o = names
        .output_of(&output, game.output.states)
        .ok_or_else(|| arguments.wrong(&format!("no output '{output}'")))?;
    Ok(Some((i, o)))
}

struct Picture<'a> {
    game: &'a Game,
    names: &'a Names,
    position: Option<(InState, OutState)>,
    won: Vec<Set>,
}

/// A state as it is drawn.
struct Node {
    name: String,
    sets: Vec<String>,
    won: Option<bool>,
    here: bool,
}

/// One colour for each requirement: a state has that of the first whose set it belongs to.
const COLOURS: [&str; 8] = ["#fde8c8", "#cfe3f6", "#d8efd3", "#f6d5d5", "#e6dcf3", "#fff3b0", "#d5f0ee", "#e8e0d8"];

impl Picture<'_> {
    /// Graphviz draws the first part lowest: the old drive stands above the new one, and the legend under both.
    fn text(&self, title: &str) -> Result<String, Error> {
        let mut text = String::from("digraph game {\n    rankdir=LR;\n");
        text += "    node [shape=box, style=\"rounded,filled\", fillcolor=white];\n";
        let _ = writeln!(text, "    label=\"{}\";\n    labelloc=t;", quoted(&self.heading(title)));
        text += &self.asked()?;
        text += &self.legend();
        text += &side("out", "new drive (outputs)", &self.game.output, |s| self.output(OutState(s)));
        text += &side("in", "old drive (inputs)", &self.game.input, |s| self.input(InState(s)));
        Ok(text + "}\n")
    }

    /// The lines of the requirements as comments, which `format` reads.
    fn asked(&self) -> Result<String, Error> {
        let text = self.game.write()?;
        let text = String::from_utf8_lossy(&text);
        let lines = text.lines().filter(|line| line.starts_with("(if "));
        Ok(lines.map(|line| format!("    // {line}\n")).collect())
    }

    /// What the signs mean, and the colour of each requirement that a state can have.
    fn legend(&self) -> String {
        let mut signs = vec![
            "dashed box: states that reach one another",
            "arrow from a dot: an initial state",
            "if 0.1: belongs to input set 1 of requirement 0",
            "then 0.1: belongs to output set 1 of requirement 0",
        ];
        if self.position.is_some() {
            signs.push("thick border: the position");
            signs.push("won (green) or lost (red): with the other state of the position");
        }
        let signs: String = signs.iter().map(|sign| format!("{sign}\\l")).collect();
        let mut text =
            String::from("    subgraph cluster_legend {\n        label=\"legend\";\n        style=dotted;\n");
        let _ = writeln!(text, "        legend [shape=plaintext, style=solid, label=\"{signs}\"];");
        for (number, colour) in COLOURS.iter().enumerate().take(self.game.k) {
            let _ = writeln!(text, "        legend{number} [label=\"requirement {number}\", fillcolor=\"{colour}\"];");
        }
        text + "    }\n"
    }

    /// The title, the requirements, and who wins at the position.
    fn heading(&self, title: &str) -> String {
        let mut lines = vec![title.to_string()];
        for (number, q) in self.game.requirements.iter().take(self.game.k).enumerate() {
            lines.push(format!("requirement {number}: {}", requirements::words(q, self.names)));
        }
        if let Some((i, o)) = self.position {
            let word = if self.is_won(i, o) { "won" } else { "lost" };
            lines.push(format!("position: old {}, new {}: {word}", self.names.input(i), self.names.output(o)));
        }
        lines.join("\n")
    }

    fn is_won(&self, i: InState, o: OutState) -> bool {
        self.won.get(i.0).is_some_and(|row| has(*row, o.0))
    }

    fn input(&self, state: InState) -> Node {
        Node {
            name: self.names.input(state),
            sets: self.sets("if", |q| assumptions(q).iter().map(|set| has(set.0, state.0)).collect()),
            won: self.position.map(|(_, o)| self.is_won(state, o)),
            here: self.position.is_some_and(|(i, _)| i == state),
        }
    }

    fn output(&self, state: OutState) -> Node {
        Node {
            name: self.names.output(state),
            sets: self.sets("then", |q| guarantees(q).iter().map(|set| has(set.0, state.0)).collect()),
            won: self.position.map(|(i, _)| self.is_won(i, state)),
            here: self.position.is_some_and(|(_, o)| o == state),
        }
    }

    /// "if 0.1": set 1 of the requirement 0.
    fn sets(&self, word: &str, member: impl Fn(&Requirement) -> Vec<bool>) -> Vec<String> {
        let used = self.game.requirements.iter().take(self.game.k).enumerate();
        used.flat_map(|(number, q)| {
            let found = member(q).into_iter().enumerate().filter(|(_, belongs)| *belongs);
            found.map(|(set, _)| format!("{word} {number}.{set}")).collect::<Vec<_>>()
        })
        .collect()
    }
}

/// One graph: its components as clusters, then its moves.
fn side(prefix: &str, title: &str, graph: &Graph, node: impl Fn(usize) -> Node) -> String {
    let mut text = format!("    subgraph cluster_{prefix} {{\n        label=\"{title}\";\n");
    let mut drawn = Set::default();
    for first in 0..graph.states {
        if has(drawn, first) {
            continue;
        }
        let states = component(graph, first);
        drawn |= states;
        let _ = writeln!(text, "        subgraph cluster_{prefix}_{first} {{\n            label=\"component {first}\";\n            style=dashed;");
        for state in members(states) {
            let _ = writeln!(text, "            {prefix}{state} [{}];", attributes(state, &node(state)));
        }
        text += "        }\n";
    }
    for state in members(graph.initial) {
        let _ = writeln!(
            text,
            "        {prefix}_start{state} [shape=point];\n        {prefix}_start{state} -> {prefix}{state};"
        );
    }
    for from in 0..graph.states {
        for to in members(moves(graph, from)) {
            let _ = writeln!(text, "        {prefix}{from} -> {prefix}{to};");
        }
    }
    text + "    }\n"
}

fn attributes(state: usize, node: &Node) -> String {
    let mut lines =
        vec![if node.name == state.to_string() { node.name.clone() } else { format!("{state} {}", node.name) }];
    lines.extend(node.sets.iter().cloned());
    if let Some(won) = node.won {
        lines.push(if won { "won" } else { "lost" }.to_string());
    }
    let mut text = format!("label=\"{}\"", quoted(&lines.join("\n")));
    if let Some(colour) = node.sets.first().and_then(|set| colour_of(set)) {
        let _ = write!(text, ", fillcolor=\"{colour}\"");
    }
    match node.won {
        Some(true) => text += ", color=darkgreen",
        Some(false) => text += ", color=red",
        None => {}
    }
    if node.here {
        text += ", penwidth=3";
    }
    text
}

/// The colour of the requirement that a set's label names.
fn colour_of(set: &str) -> Option<&'static str> {
    let number: usize = set.split([' ', '.']).nth(1)?.parse().ok()?;
    COLOURS.get(number).copied()
}

/// Text inside quotes of graphviz's language.
fn quoted(text: &str) -> String {
    let plain = text.chars().map(|c| if c.is_control() && c != '\n' { '?' } else { c }).collect::<String>();
    plain.replace('\\', "\\\\").replace('"', "\\\"").replace('\n', "\\n")
}
