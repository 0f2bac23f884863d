//! A game's lines as people type them: brackets, and in them words with blanks, commas and line ends where one likes.
//!
//!     (game)                    counts may be left out, and the whole line too
//!     (in pump 1 (pump flush))  a name or a number; 1 where it is initial, which may be left out; the states that it moves to
//!     (out 0 pump 1 (0 1))      a number with a name
//!     (if (flush) (flush))      sets of names or numbers; brackets may be left out where that can be read in one way only
use crate::drive_file::Side;
use crate::failure::Failure;
use crate::files::Source;
use crate::forms::{self, Form};
use crate::kinds;
use crate::names::is_same;
use crate::sketch::{number, Guesses, NamedGraph, Sketch, Word};
use crate::template::Template;

/// Both graphs and the requirements.
pub fn read(
    source: &Source,
    names: Option<&Source>,
    guesses: &mut Guesses,
) -> Result<(NamedGraph, NamedGraph, Template), Failure> {
    let forms = forms::read(source)?;
    let known = names.map(known_names).transpose()?.unwrap_or_default();
    let input = graph(source, &forms, Side::Old, &known, guesses)?;
    let output = graph(source, &forms, Side::New, &known, guesses)?;
    let asked: Vec<Form> = forms.iter().filter(|form| head(form) == Some("if")).cloned().collect();
    if let Some(form) = forms.iter().find(|form| !head(form).is_some_and(is_head)) {
        let told = format!("expected a line in brackets with game, in, out or if: {}", kinds::of(&source.text).words());
        return Err(forms::refused(source, form.place, &told));
    }
    counts(source, &forms, [input.names.len(), output.names.len(), asked.len()])?;
    let template = Template::of(source, &asked)?;
    Ok((input, output, template))
}

fn is_head(word: &str) -> bool {
    ["game", "if"].contains(&word) || side_of(word).is_some()
}

fn side_of(word: &str) -> Option<Side> {
    match word {
        "in" | "input" => Some(Side::Old),
        "out" | "output" => Some(Side::New),
        _ => None,
    }
}

/// The word that a line begins with.
fn head(form: &Form) -> Option<&str> {
    form.list()?.first()?.word()
}

/// A side, a state's number and its name.
type Known = Vec<(Side, usize, String)>;

/// The lines `(in S NAME)` and `(out S NAME)` of a file of names.
fn known_names(source: &Source) -> Result<Known, Failure> {
    let line = |form: &Form| match form.list() {
        Some([head, state, name]) => match (head.word().and_then(side_of), state.number(), name.word()) {
            (Some(side), Some(number), Some(name)) => Ok((side, number, name.to_string())),
            _ => Err(forms::refused(source, form.place, "expected (in STATE NAME) or (out STATE NAME)")),
        },
        _ => Err(forms::refused(source, form.place, "expected (in STATE NAME) or (out STATE NAME)")),
    };
    forms::read(source)?.iter().map(line).collect()
}

/// The graph of one side.
fn graph(
    source: &Source,
    forms: &[Form],
    side: Side,
    known: &Known,
    guesses: &mut Guesses,
) -> Result<NamedGraph, Failure> {
    let mut reader = Reader { source, side, known, sketch: Sketch::new(side.state()) };
    let lines: Vec<&Form> = forms.iter().filter(|form| head(form).and_then(side_of) == Some(side)).collect();
    // states are numbered in the order of their lines, wherever they are moved to before
    for form in &lines {
        reader.state(form)?;
    }
    for form in &lines {
        reader.moves(form)?;
    }
    for (_, state, name) in known.iter().filter(|(of, _, _)| *of == side) {
        reader.name(&state.to_string(), name);
    }
    if reader.sketch.is_empty() {
        let word = if side == Side::Old { "in" } else { "out" };
        let told = format!("no line ({word} STATE 0-OR-1 (MOVES)): the {}s are missing", side.state());
        return Err(forms::refused(source, source.text.len(), &told));
    }
    reader.sketch.all_listed(source)?;
    let graph = reader.sketch.finish(source, guesses)?;
    if graph.by_name {
        let told = format!("{}s are numbered in the order of their lines: {}", side.state(), graph.listed());
        guesses.push(format!("{}: {told}", source.name));
    }
    Ok(graph)
}

struct Reader<'a> {
    source: &'a Source,
    side: Side,
    known: &'a Known,
    sketch: Sketch,
}

impl Reader<'_> {
    fn wrong<T>(&self, place: usize, told: &str) -> Result<T, Failure> {
        Err(forms::refused(self.source, place, told))
    }

    /// The word for a state: its number, where a file of names tells that.
    fn word(&self, form: &Form) -> Result<Word, Failure> {
        let Some(text) = form.word() else {
            return self.wrong(form.place, &format!("expected an {}'s name or number", self.side.state()));
        };
        let known = self.known.iter().find(|(side, _, name)| *side == self.side && is_same(name, text));
        let text = known.map_or_else(|| text.to_string(), |(_, state, _)| state.to_string());
        Ok(Word { text, place: form.place })
    }

    /// Calls a state that was met by this word so.
    fn name(&mut self, word: &str, name: &str) {
        let met = self.sketch.words().position(|other| other.text == word);
        if let Some(state) = met {
            self.sketch.call(state, name.to_string());
        }
    }

    /// The state of a line `(in STATE NAME MARK (MOVES))`, of which name and mark may be left out.
    fn state(&mut self, form: &Form) -> Result<(), Failure> {
        let (state, between, _) = self.parts(form)?;
        let word = self.word(state)?;
        let from = self.sketch.state(&word);
        if !self.sketch.list(from) {
            return self.wrong(state.place, &format!("a second line for {} {}", self.side.state(), word.text));
        }
        let (mut marked, mut named) = (false, false);
        for item in between {
            match item.word() {
                Some("0" | "1" | "initial") if !marked => {
                    marked = true;
                    if item.word() != Some("0") {
                        self.sketch.begin(from);
                    }
                }
                Some(name) if !named && number(name).is_none() && number(&word.text).is_some() => {
                    named = true;
                    self.sketch.call(from, name.to_string());
                }
                _ => return self.wrong(item.place, SHAPE),
            }
        }
        Ok(())
    }

    /// The moves of such a line.
    fn moves(&mut self, form: &Form) -> Result<(), Failure> {
        let (state, _, moves) = self.parts(form)?;
        let from = self.sketch.state(&self.word(state)?);
        for item in moves {
            let to = self.sketch.state(&self.word(item)?);
            self.sketch.step(from, to);
        }
        Ok(())
    }

    /// The state, what stands between it and its moves, and the moves.
    fn parts<'b>(&self, form: &'b Form) -> Result<(&'b Form, &'b [Form], &'b [Form]), Failure> {
        let [_, state, between @ .., moves] = form.list().unwrap_or_default() else {
            return self.wrong(form.place, SHAPE);
        };
        match moves.list() {
            Some(list) => Ok((state, between, list)),
            None => self.wrong(moves.place, "expected the states that it moves to in brackets, () for none"),
        }
    }
}

const SHAPE: &str = "expected (in STATE 0-OR-1 (MOVES)): a state, 1 if it is initial, and the states that it moves to";

/// The first line's counts, where it has some, are those of the lines.
fn counts(source: &Source, forms: &[Form], found: [usize; 3]) -> Result<(), Failure> {
    let lines: Vec<&Form> = forms.iter().filter(|form| head(form) == Some("game")).collect();
    if let Some(second) = lines.get(1) {
        return Err(forms::refused(source, second.place, "a second line (game ..)"));
    }
    let Some(items) = lines.first().and_then(|line| line.list()) else {
        return Ok(());
    };
    for ((item, count), what) in items.iter().skip(1).zip(found).zip(["inputs", "outputs", "requirements"]) {
        if item.number() != Some(count) {
            let told = format!("the lines have {count} {what}: which is meant cannot be told");
            return Err(forms::refused(source, item.place, &told));
        }
    }
    match items.get(4) {
        Some(more) => Err(forms::refused(source, more.place, "expected (game INPUTS OUTPUTS REQUIREMENTS)")),
        None => Ok(()),
    }
}
