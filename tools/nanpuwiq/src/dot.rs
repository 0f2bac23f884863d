//! Graphs in graphviz's language: as `nanpuwiq draw` writes them, and as people do. A node is a state and an arrow a move; an arrow from a point or from a node
//! that is not to be seen marks an initial state, and so does the attribute initial. A comment `// (if ..)` is a requirement.
use crate::drive_file::Side;
use crate::failure::Failure;
use crate::files::Source;
use crate::forms::{self, BYTE_ORDER_MARK};
use crate::sketch::{number, Guesses, NamedGraph, Sketch, Word};
use std::collections::{BTreeMap, HashMap};

/// Subgraphs inside subgraphs at most.
const DEPTH_MOST: usize = 64;

/// A drawing taken apart.
pub struct Drawing {
    groups: Vec<Group>,
    nodes: Vec<Node>,
    edges: Vec<(usize, usize)>,
    /// The bytes of the file with blanks for all but the requirements in its comments, each at its place.
    pub requirements: Source,
}

/// An outermost subgraph, or a graph beside others: its name, its label, and where it begins.
struct Group {
    name: String,
    label: String,
    place: usize,
}

struct Node {
    word: Word,
    group: Option<usize>,
    /// Another group that it stands in, and where.
    other: Option<(usize, usize)>,
    attributes: BTreeMap<String, String>,
}

impl Group {
    /// The side that its name tells, or else its label.
    fn side(&self) -> Option<Side> {
        side_of(&self.name).or_else(|| side_of(&self.label))
    }
}

/// The side that a word of a name tells, where only one is told.
fn side_of(text: &str) -> Option<Side> {
    let lower = text.to_lowercase();
    let words: Vec<&str> = lower.split(|c: char| !c.is_alphabetic()).collect();
    let told = |names: &[&str]| words.iter().any(|word| names.contains(word));
    match (told(&["old", "in", "input", "inputs"]), told(&["new", "out", "output", "outputs"])) {
        (true, false) => Some(Side::Old),
        (false, true) => Some(Side::New),
        _ => None,
    }
}

impl Node {
    /// No state: a point or a node that is not to be seen, which an arrow to an initial state begins at.
    fn is_point(&self) -> bool {
        let has = |name: &str, values: &[&str]| self.attributes.get(name).is_some_and(|v| values.contains(&v.as_str()));
        has("shape", &["point"])
            || has("style", &["invis", "invisible"])
            || has("label", &[""]) && has("shape", &["none", "plaintext"])
    }

    fn is_initial(&self) -> bool {
        self.attributes.get("initial").is_some_and(|value| matches!(value.as_str(), "1" | "true" | "yes"))
    }
}

impl Drawing {
    /// The graph of one side: that side's group where the drawing has both, else all of it.
    pub fn one(
        &self,
        source: &Source,
        side: Side,
        what: &'static str,
        guesses: &mut Guesses,
    ) -> Result<NamedGraph, Failure> {
        let group = self.groups.iter().position(|group| group.side() == Some(side));
        let other = self.groups.iter().any(|group| group.side().is_some_and(|found| found != side));
        let group = if other { group } else { None };
        if group.is_some() {
            self.apart(source)?;
        }
        self.graph(source, group, what, guesses)
    }

    /// Both graphs.
    pub fn both(&self, source: &Source, guesses: &mut Guesses) -> Result<(NamedGraph, NamedGraph), Failure> {
        let group = |side: Side| {
            let found: Vec<usize> =
                (0..self.groups.len()).filter(|group| self.groups[*group].side() == Some(side)).collect();
            match found[..] {
                [group] => Ok(group),
                [] => {
                    let place = self.groups.first().map_or(0, |group| group.place);
                    Err(forms::refused(source, place, NO_SIDES))
                }
                [_, second, ..] => {
                    let told = format!("a second graph for the {}s: which is meant cannot be told", side.state());
                    Err(forms::refused(source, self.groups[second].place, &told))
                }
            }
        };
        let (old, new) = (group(Side::Old)?, group(Side::New)?);
        self.apart(source)?;
        self.one_side(source, old, new)?;
        Ok((self.graph(source, Some(old), "input", guesses)?, self.graph(source, Some(new), "output", guesses)?))
    }

    /// A node of a legend is no state.
    fn is_legend(&self, node: &Node) -> bool {
        let words = ["legend", "key"];
        let named =
            |text: &str| text.to_lowercase().split(|c: char| !c.is_alphabetic()).any(|word| words.contains(&word));
        node.group.is_some_and(|group| named(&self.groups[group].name) || named(&self.groups[group].label))
    }

    /// No node stands in both drives: in a drawing one name is one node.
    fn apart(&self, source: &Source) -> Result<(), Failure> {
        for node in &self.nodes {
            let side = node.group.and_then(|group| self.groups[group].side());
            if let (Some(side), Some((other, place))) = (side, node.other) {
                if self.groups[other].side().is_some_and(|found| found != side) {
                    let told = format!(
                        "node '{}' stands in both drives, and is one node: write a digraph for each drive, or two nodes with one label",
                        node.word.text
                    );
                    return Err(forms::refused(source, place, &told));
                }
            }
        }
        Ok(())
    }

    /// No arrow goes from one drive to the other, and every node belongs to one of them.
    fn one_side(&self, source: &Source, old: usize, new: usize) -> Result<(), Failure> {
        for node in self.nodes.iter().filter(|node| !node.is_point() && !self.is_legend(node)) {
            if node.group != Some(old) && node.group != Some(new) {
                let told =
                    format!("node '{}' stands outside both drives: which it belongs to cannot be told", node.word.text);
                return Err(forms::refused(source, node.word.place, &told));
            }
        }
        match self
            .edges
            .iter()
            .find(|(from, to)| !self.nodes[*from].is_point() && self.nodes[*from].group != self.nodes[*to].group)
        {
            Some((from, to)) => {
                let told = format!(
                    "an arrow from one drive to the other, {} to {}: a move stays in its drive",
                    self.nodes[*from].word.text, self.nodes[*to].word.text
                );
                Err(forms::refused(source, self.nodes[*to].word.place, &told))
            }
            None => Ok(()),
        }
    }

    fn graph(
        &self,
        source: &Source,
        group: Option<usize>,
        what: &'static str,
        guesses: &mut Guesses,
    ) -> Result<NamedGraph, Failure> {
        let mut sketch = Sketch::new(what);
        let within =
            |node: &Node| (group.is_none() && !self.is_legend(node)) || (group.is_some() && node.group == group);
        let mut states: HashMap<usize, usize> = HashMap::new();
        for (index, node) in self.nodes.iter().enumerate().filter(|(_, node)| within(node) && !node.is_point()) {
            let state = sketch.state(&node.word);
            states.insert(index, state);
            if node.is_initial() {
                sketch.begin(state);
            }
        }
        for (from, to) in &self.edges {
            match (states.get(from), states.get(to)) {
                (Some(from), Some(to)) => sketch.step(*from, *to),
                (None, Some(to)) if self.nodes[*from].is_point() => sketch.begin(*to),
                _ => {}
            }
        }
        by_prefix(&mut sketch);
        self.labels(&mut sketch, &states);
        sketch.finish(source, guesses)
    }

    /// A label is what its state is called; `draw` puts the state's number before it and the sets after it.
    fn labels(&self, sketch: &mut Sketch, states: &HashMap<usize, usize>) {
        let words: Vec<String> = sketch.words().map(|word| word.text.clone()).collect();
        for (node, state) in states {
            let Some(label) = self.nodes[*node].attributes.get("label") else {
                continue;
            };
            // graphviz ends a line by \n, \l or \r, to the middle, left or right
            let line = ["\\n", "\\l", "\\r"]
                .iter()
                .fold(label.as_str(), |text, end| text.split(end).next().unwrap_or_default());
            let first = line.trim();
            let name = match first.split_once(' ') {
                Some((before, name)) if before == words[*state] => name,
                _ => first,
            };
            if !name.is_empty() && name != "\\N" && name != words[*state] && number(name).is_none() {
                sketch.call(*state, name.to_string());
            }
        }
    }
}

const NO_SIDES: &str =
    "which graph is the old drive and which the new one cannot be told: put each into a subgraph named old or new, \
                        or each into a file of its own, with --old and --new";

/// States called s0, s1, .. of one letter or word before the numbers from 0 on are those numbers.
fn by_prefix(sketch: &mut Sketch) {
    let split = |word: &str| -> Option<(String, usize)> {
        let prefix = word.trim_end_matches(|c: char| c.is_ascii_digit());
        number(&word[prefix.len()..]).map(|number| (prefix.to_string(), number))
    };
    let found: Option<Vec<(String, usize)>> = sketch.words().map(|word| split(&word.text)).collect();
    let Some(found) = found else { return };
    let mut numbers: Vec<usize> = found.iter().map(|(_, number)| *number).collect();
    numbers.sort_unstable();
    let same = found.windows(2).all(|pair| pair[0].0 == pair[1].0);
    if same && numbers.iter().enumerate().all(|(k, number)| k == *number) {
        sketch.rename(|word| split(word).map_or_else(|| word.to_string(), |(_, number)| number.to_string()));
    }
}

/// A drawing from its text.
pub fn read(source: &Source) -> Result<Drawing, Failure> {
    let (tokens, requirements) = tokens(source)?;
    let drawing = Drawing { groups: Vec::new(), nodes: Vec::new(), edges: Vec::new(), requirements };
    let graphs = tokens.iter().filter(|token| token.is_word("digraph")).count();
    let mut reader = Reader { source, tokens, at: 0, drawing, known: HashMap::new(), several: graphs > 1 };
    while reader.at < reader.tokens.len() {
        reader.top()?;
    }
    Ok(reader.drawing)
}

/// A token and where it stands: a word, which may have been quoted, or a sign.
#[derive(Clone)]
struct Token {
    place: usize,
    text: String,
    sign: bool,
    quoted: bool,
}

impl Token {
    fn is_word(&self, word: &str) -> bool {
        !self.sign && !self.quoted && self.text.eq_ignore_ascii_case(word)
    }
}

/// The tokens of a drawing, and its text with blanks for all but the requirements in comments.
fn tokens(source: &Source) -> Result<(Vec<Token>, Source), Failure> {
    let text = &source.text;
    if let Err(error) = std::str::from_utf8(text) {
        return Err(forms::refused(source, error.valid_up_to(), "a byte that is no text in UTF-8"));
    }
    let mut blanked: Vec<u8> = text.iter().map(|byte| if *byte == b'\n' { b'\n' } else { b' ' }).collect();
    let mut tokens = Vec::new();
    let mut at = if text.starts_with(BYTE_ORDER_MARK) { BYTE_ORDER_MARK.len() } else { 0 };
    while let Some(byte) = text.get(at).copied() {
        let place = at;
        let line_end = || text[place..].iter().position(|byte| *byte == b'\n').map_or(text.len(), |end| place + end);
        let mut sign = |length: usize, at: &mut usize| {
            *at += length;
            let told = String::from_utf8_lossy(&text[place..*at]).into_owned();
            tokens.push(Token { place, text: told, sign: true, quoted: false });
        };
        match byte {
            _ if byte.is_ascii_whitespace() => at += 1,
            b'#' => at = line_end(),
            b'/' if text.get(at + 1) == Some(&b'/') => {
                at = line_end();
                let comment = &text[place + 2..at];
                if comment.trim_ascii_start().starts_with(b"(if") {
                    blanked[place + 2..at].copy_from_slice(comment);
                }
            }
            b'/' if text.get(at + 1) == Some(&b'*') => match text[at + 2..].windows(2).position(|pair| pair == b"*/") {
                Some(end) => at += end + 4,
                None => return Err(forms::refused(source, place, "a comment without its end")),
            },
            b'-' if matches!(text.get(at + 1), Some(b'>' | b'-')) => sign(2, &mut at),
            b'{' | b'}' | b'[' | b']' | b';' | b',' | b'=' | b':' | b'+' => sign(1, &mut at),
            b'"' => {
                let (told, end) = quoted(source, at)?;
                at = end;
                tokens.push(Token { place, text: told, sign: false, quoted: true });
            }
            b'<' => {
                let (told, end) = marked(source, at)?;
                at = end;
                tokens.push(Token { place, text: told, sign: false, quoted: true });
            }
            _ if byte.is_ascii_alphanumeric() || byte == b'_' || byte == b'.' || byte == b'-' || !byte.is_ascii() => {
                let of_word = |b: &u8| b.is_ascii_alphanumeric() || *b == b'_' || *b == b'.' || !b.is_ascii();
                at += 1 + text[at + 1..].iter().take_while(|byte| of_word(byte)).count();
                let told = String::from_utf8_lossy(&text[place..at]).into_owned();
                tokens.push(Token { place, text: told, sign: false, quoted: false });
            }
            _ => {
                let shown = char::from(byte).escape_default();
                return Err(forms::refused(source, place, &format!("a '{shown}' has no meaning here")));
            }
        }
    }
    Ok((tokens, Source { name: source.name.clone(), text: blanked }))
}

/// A quoted string, its \" made plain, and where it ends.
fn quoted(source: &Source, place: usize) -> Result<(String, usize), Failure> {
    let (text, mut at, mut bytes) = (&source.text, place + 1, Vec::new());
    loop {
        match (text.get(at), text.get(at + 1)) {
            (None, _) => return Err(forms::refused(source, place, "a quote without its end")),
            (Some(b'"'), _) => return Ok((String::from_utf8_lossy(&bytes).into_owned(), at + 1)),
            (Some(b'\\'), Some(b'"')) => {
                bytes.push(b'"');
                at += 2;
            }
            (Some(b'\\'), Some(b'\n')) => at += 2,
            // a line's end or another sign that is not to be seen
            (Some(byte), _) if byte.is_ascii_control() => {
                bytes.push(b' ');
                at += 1;
            }
            (Some(byte), _) => {
                bytes.push(*byte);
                at += 1;
            }
        }
    }
}

/// A label in angle brackets, without its marks.
fn marked(source: &Source, place: usize) -> Result<(String, usize), Failure> {
    let (mut depth, mut bytes) = (0, Vec::new());
    for (offset, byte) in source.text[place..].iter().enumerate() {
        match byte {
            b'<' => depth += 1,
            b'>' => depth -= 1,
            _ if depth == 1 => bytes.push(if byte.is_ascii_control() { b' ' } else { *byte }),
            _ => {}
        }
        if depth == 0 {
            return Ok((String::from_utf8_lossy(&bytes).into_owned(), place + offset + 1));
        }
    }
    Err(forms::refused(source, place, "a '<' without its '>'"))
}

struct Reader<'a> {
    source: &'a Source,
    tokens: Vec<Token>,
    at: usize,
    drawing: Drawing,
    /// Nodes by the graph that they stand in and their names.
    known: HashMap<(usize, String), usize>,
    several: bool,
}

/// Where statements stand: the graph's number, its group if any, how deep, and what nodes have here unless they say otherwise.
#[derive(Clone)]
struct Scope {
    graph: usize,
    group: Option<usize>,
    depth: usize,
    defaults: BTreeMap<String, String>,
}

impl Reader<'_> {
    fn wrong<T>(&self, told: &str) -> Result<T, Failure> {
        let place = self.tokens.get(self.at).map_or(self.source.text.len(), |token| token.place);
        Err(forms::refused(self.source, place, told))
    }

    fn peek(&self) -> Option<&Token> {
        self.tokens.get(self.at)
    }

    fn is_sign(&self, sign: &str) -> bool {
        self.peek().is_some_and(|token| token.sign && token.text == sign)
    }

    fn is_word(&self, word: &str) -> bool {
        self.peek().is_some_and(|token| token.is_word(word))
    }

    fn pass(&mut self, sign: &str) -> bool {
        let found = self.is_sign(sign);
        self.at += usize::from(found);
        found
    }

    fn expect(&mut self, sign: &str) -> Result<(), Failure> {
        match self.pass(sign) {
            true => Ok(()),
            false => self.wrong(&format!("expected '{sign}', found {}", self.found())),
        }
    }

    fn found(&self) -> String {
        self.peek().map_or("the end of the file".to_string(), |token| format!("'{}'", token.text))
    }

    /// A word, quoted strings joined by '+'.
    fn word(&mut self) -> Result<Word, Failure> {
        let Some(token) = self.peek().filter(|token| !token.sign).cloned() else {
            return self.wrong(&format!("expected a name, found {}", self.found()));
        };
        self.at += 1;
        let mut word = Word { text: token.text, place: token.place };
        while token.quoted && self.is_sign("+") {
            self.at += 1;
            word.text += &self.word()?.text;
        }
        Ok(word)
    }

    /// `digraph NAME { .. }`
    fn top(&mut self) -> Result<(), Failure> {
        if self.is_word("strict") {
            self.at += 1;
        }
        let place = self.peek().map_or(0, |token| token.place);
        match self.peek() {
            Some(token) if token.is_word("digraph") => self.at += 1,
            Some(token) if token.is_word("graph") => {
                return self.wrong("a graph without directions: moves have one: write digraph, and -> between states")
            }
            _ => return self.wrong(&format!("expected digraph, found {}", self.found())),
        }
        let name = if self.is_sign("{") { String::new() } else { self.word()?.text };
        let group = self.several.then_some(self.drawing.groups.len());
        if self.several {
            self.drawing.groups.push(Group { name, label: String::new(), place });
        }
        self.expect("{")?;
        // graphs beside one another have nodes of their own
        let scope = Scope { graph: place, group, depth: 0, defaults: BTreeMap::new() };
        self.statements(scope).map(|_| ())
    }

    /// The statements up to the closing bracket; gives the nodes that they name.
    fn statements(&mut self, mut scope: Scope) -> Result<Vec<usize>, Failure> {
        if scope.depth == DEPTH_MOST {
            return self.wrong("brackets too deep");
        }
        let mut named = Vec::new();
        loop {
            if self.pass("}") {
                return Ok(named);
            }
            if self.pass(";") || self.pass(",") {
                continue;
            }
            if self.peek().is_none() {
                return self.wrong("a '{' without its '}'");
            }
            named.extend(self.statement(&mut scope)?);
        }
    }

    fn statement(&mut self, scope: &mut Scope) -> Result<Vec<usize>, Failure> {
        for (word, of_nodes) in [("node", true), ("edge", false), ("graph", false)] {
            let attributes = self.tokens.get(self.at + 1).is_some_and(|token| token.sign && token.text == "[");
            if self.is_word(word) && attributes {
                self.at += 1;
                let given = self.attributes()?;
                if of_nodes {
                    scope.defaults.extend(given);
                } else if word == "graph" {
                    self.label(scope, &given);
                }
                return Ok(Vec::new());
            }
        }
        if self.tokens.get(self.at + 1).is_some_and(|token| token.sign && token.text == "=") {
            let name = self.word()?;
            self.at += 1;
            let value = self.word()?;
            self.label(scope, &BTreeMap::from([(name.text.to_lowercase(), value.text)]));
            return Ok(Vec::new());
        }
        let mut from = self.operand(scope)?;
        let mut all = from.clone();
        let mut arrows = false;
        while self.is_sign("->") || self.is_sign("--") {
            if self.is_sign("--") {
                return self.wrong("a line without a direction: moves have one: write -> between states");
            }
            self.at += 1;
            arrows = true;
            let to = self.operand(scope)?;
            self.drawing.edges.extend(from.iter().flat_map(|from| to.iter().map(move |to| (*from, *to))));
            all.extend(&to);
            from = to;
        }
        if self.is_sign("[") {
            let given = self.attributes()?;
            // the attributes of arrows say nothing about their nodes
            if let (false, [node]) = (arrows, &all[..]) {
                self.drawing.nodes[*node].attributes.extend(given);
            }
        }
        Ok(all)
    }

    /// The label of the group that the scope is in.
    fn label(&mut self, scope: &Scope, given: &BTreeMap<String, String>) {
        let outermost = scope.depth == if self.several { 0 } else { 1 };
        if let (Some(group), Some(label), true) = (scope.group, given.get("label"), outermost) {
            self.drawing.groups[group].label.clone_from(label);
        }
    }

    /// A node, or the nodes of a subgraph.
    fn operand(&mut self, scope: &Scope) -> Result<Vec<usize>, Failure> {
        if self.is_word("subgraph") || self.is_sign("{") {
            return self.subgraph(scope);
        }
        let word = self.word()?;
        let place = word.place;
        // a port, as in pump:n
        while self.pass(":") {
            self.word()?;
        }
        let key = (scope.graph, word.text.clone());
        let index = match self.known.get(&key) {
            Some(index) => *index,
            None => {
                let index = self.drawing.nodes.len();
                self.known.insert(key, index);
                self.drawing.nodes.push(Node { word, group: None, other: None, attributes: scope.defaults.clone() });
                index
            }
        };
        let node = &mut self.drawing.nodes[index];
        match (node.group, scope.group) {
            (Some(group), Some(here)) if group != here && node.other.is_none() => node.other = Some((here, place)),
            _ => node.group = node.group.or(scope.group),
        }
        Ok(vec![index])
    }

    fn subgraph(&mut self, scope: &Scope) -> Result<Vec<usize>, Failure> {
        let place = self.peek().map_or(0, |token| token.place);
        let mut name = None;
        if self.is_word("subgraph") {
            self.at += 1;
            if !self.is_sign("{") {
                name = Some(self.word()?.text);
            }
        }
        self.expect("{")?;
        let mut inner = Scope { depth: scope.depth + 1, ..scope.clone() };
        if let (None, Some(name)) = (scope.group, name) {
            inner.group = Some(self.drawing.groups.len());
            self.drawing.groups.push(Group { name, label: String::new(), place });
        }
        self.statements(inner)
    }

    /// `[name=value, ..]`, once or more.
    fn attributes(&mut self) -> Result<BTreeMap<String, String>, Failure> {
        let mut found = BTreeMap::new();
        while self.pass("[") {
            while !self.pass("]") {
                if self.pass(",") || self.pass(";") {
                    continue;
                }
                let name = self.word()?.text.to_lowercase();
                let value = if self.pass("=") { self.word()?.text } else { "true".to_string() };
                found.insert(name, value);
            }
        }
        Ok(found)
    }
}
