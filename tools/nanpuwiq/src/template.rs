//! Requirements by the names of modes: lines `(if (SETS) (SETS))` for any pair of drives. A name stands for the modes that are called so, and a drive that
//! has none has an empty set there, which never recurs.
use crate::drive_file::Side;
use crate::failure::Failure;
use crate::files::Source;
use crate::forms::{self, Form, Kind};
use crate::sketch::{NamedGraph, Word};
use nanpuwiq::{words, InSet, OutSet, Requirement, Set, REQUIREMENTS, SETS};

pub struct Template {
    lines: Vec<Line>,
    /// The words around which brackets are left out.
    pub bare: Vec<Word>,
}

/// The sets of a requirement, by words.
struct Line {
    assumptions: Vec<Vec<Word>>,
    guarantees: Vec<Vec<Word>>,
}

impl Line {
    fn sets(&self, side: Side) -> &[Vec<Word>] {
        match side {
            Side::Old => &self.assumptions,
            Side::New => &self.guarantees,
        }
    }
}

/// For each requirement the sets of one drive.
pub type SideSets = Vec<Vec<Set>>;

impl Template {
    /// The lines of a file that has nothing else.
    pub fn read(source: &Source) -> Result<Template, Failure> {
        Template::of(source, &forms::read(source)?)
    }

    /// The lines among these forms, all of which begin with `if`.
    pub fn of(source: &Source, forms: &[Form]) -> Result<Template, Failure> {
        if let Some(ninth) = forms.get(REQUIREMENTS) {
            return Err(forms::refused(source, ninth.place, &format!("{} (refused 5)", words(5))));
        }
        let mut bare = Vec::new();
        let lines = forms.iter().map(|form| line(source, form, &mut bare)).collect::<Result<Vec<_>, _>>()?;
        Ok(Template { lines, bare })
    }

    pub fn is_empty(&self) -> bool {
        self.lines.is_empty()
    }

    /// The words for the modes of one side.
    pub fn words(&self, side: Side) -> impl Iterator<Item = &Word> {
        self.lines.iter().flat_map(move |line| line.sets(side)).flatten()
    }

    /// The sets of a drive; a word that is none of its modes is left out.
    pub fn sets(&self, side: Side, drive: &NamedGraph) -> SideSets {
        let set = |words: &Vec<Word>| {
            let states = words.iter().filter_map(|word| drive.state(&word.text));
            states.fold(Set::default(), |set, state| set | Set::of(state))
        };
        self.lines.iter().map(|line| line.sets(side).iter().map(set).collect()).collect()
    }
}

/// The requirements on a pair of drives.
pub fn requirements(old: &SideSets, new: &SideSets) -> Vec<Requirement> {
    let requirement = |(assumptions, guarantees): (&Vec<Set>, &Vec<Set>)| {
        let mut q = Requirement { assumed: assumptions.len(), guaranteed: guarantees.len(), ..Requirement::default() };
        for (place, set) in q.assumptions.iter_mut().zip(assumptions) {
            *place = InSet(*set);
        }
        for (place, set) in q.guarantees.iter_mut().zip(guarantees) {
            *place = OutSet(*set);
        }
        q
    };
    old.iter().zip(new).map(requirement).collect()
}

/// `(if (SETS) (SETS))`.
fn line(source: &Source, form: &Form, bare: &mut Vec<Word>) -> Result<Line, Failure> {
    match form.list() {
        Some([head, when, then]) if head.word() == Some("if") => {
            Ok(Line { assumptions: sets(source, when, bare)?, guarantees: sets(source, then, bare)? })
        }
        _ => Err(forms::refused(source, form.place, "expected (if (SETS) (SETS))")),
    }
}

/// A list of sets. Brackets may be left out around a set, or around a state, where that can be read in one way only.
fn sets(source: &Source, form: &Form, bare: &mut Vec<Word>) -> Result<Vec<Vec<Word>>, Failure> {
    let wrong = |place, told: &str| Err(forms::refused(source, place, told));
    let items = match &form.kind {
        Kind::Word(_) => {
            bare.push(word(source, form)?);
            return Ok(vec![vec![word(source, form)?]]);
        }
        Kind::List(items) => items,
    };
    if let Some(fifth) = items.get(SETS).filter(|_| items.iter().all(|item| item.list().is_some())) {
        return wrong(fifth.place, &format!("{} (refused 6)", words(6)));
    }
    match (items.iter().find(|item| item.list().is_none()), &items[..]) {
        (None, _) => items.iter().map(|item| set(source, item)).collect(),
        (Some(_), [one]) => {
            bare.push(word(source, one)?);
            Ok(vec![vec![word(source, one)?]])
        }
        (Some(first), _) => wrong(
            first.place,
            "one set of these states, or a set for each? write ((a b)) for one set and ((a) (b)) for two",
        ),
    }
}

fn set(source: &Source, form: &Form) -> Result<Vec<Word>, Failure> {
    form.list().unwrap_or_default().iter().map(|item| word(source, item)).collect()
}

fn word(source: &Source, form: &Form) -> Result<Word, Failure> {
    match form.word() {
        Some(text) => Ok(Word { text: text.to_string(), place: form.place }),
        None => Err(forms::refused(source, form.place, "expected a state's name or number")),
    }
}
