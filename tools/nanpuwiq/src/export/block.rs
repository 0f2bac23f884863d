//! A function block of IEC 61131-3, as Structured Text. The same block is written as PLCopen XML in `plcopen`.
use super::identifiers::Symbol;
use super::rows::{labelled, plain};

pub const COMMENT: (&str, &str) = ("(*", "*)");

/// An enumeration: its values, the first of them perhaps for none.
pub struct Enumeration {
    pub name: String,
    pub title: &'static str,
    /// The identifier of each value, with the name that it was made from.
    pub values: Vec<(String, String)>,
}

impl Enumeration {
    /// The type `NAME_KIND` with a value `NAME_KIND_x` for each symbol.
    pub fn new(block: &str, kind: &str, title: &'static str, symbols: &[Symbol]) -> Enumeration {
        let name = format!("{block}_{kind}");
        let values = symbols.iter().map(|s| (format!("{name}_{}", s.word), s.name.clone())).collect();
        Enumeration { name, title, values }
    }

    /// The same with a first value for none.
    pub fn with_none(mut self, block: &str, none: &str) -> Enumeration {
        self.values.insert(0, (format!("{block}_{none}"), "none".to_string()));
        self
    }
}

pub enum Kind {
    Plain(&'static str),
    Enumeration(String),
    /// An array of a plain type.
    Array(&'static str),
}

/// The values of an array in rows, each with its comment where it has one.
pub struct List {
    pub values: Vec<String>,
    pub width: usize,
    pub labels: Vec<String>,
}

pub enum Value {
    None,
    One(String),
    List(List),
}

pub struct Variable {
    pub name: &'static str,
    pub kind: Kind,
    pub value: Value,
    /// What it is, in a comment after it; before it where it is an array.
    pub note: String,
}

impl Variable {
    pub fn plain(name: &'static str, kind: &'static str, note: &str) -> Variable {
        Variable { name, kind: Kind::Plain(kind), value: Value::None, note: note.to_string() }
    }

    pub fn set(name: &'static str, kind: &'static str, value: usize, note: &str) -> Variable {
        Variable { value: Value::One(value.to_string()), ..Variable::plain(name, kind, note) }
    }

    pub fn of(name: &'static str, enumeration: &Enumeration, note: &str) -> Variable {
        Variable { kind: Kind::Enumeration(enumeration.name.clone()), ..Variable::plain(name, "", note) }
    }

    pub fn array(name: &'static str, kind: &'static str, list: List, note: &str) -> Variable {
        Variable { name, kind: Kind::Array(kind), value: Value::List(list), note: note.to_string() }
    }
}

pub struct Block {
    pub name: String,
    /// What stands on top of the export, a line each.
    pub top: Vec<String>,
    pub types: Vec<Enumeration>,
    pub inputs: Vec<Variable>,
    pub outputs: Vec<Variable>,
    pub locals: Vec<Variable>,
    pub constants: Vec<Variable>,
    pub body: String,
}

/// The block as plain text.
pub fn text(block: &Block) -> String {
    let mut text = format!("(* {} *)\n", block.top.join("\n   ")).replace("\n   \n", "\n\n");
    for enumeration in &block.types {
        text += &type_text(enumeration);
    }
    text += &format!("\nFUNCTION_BLOCK {}\n", block.name);
    for (section, variables) in [
        ("VAR_INPUT", &block.inputs),
        ("VAR_OUTPUT", &block.outputs),
        ("VAR", &block.locals),
        ("VAR CONSTANT", &block.constants),
    ] {
        text += &format!("{section}\n{}END_VAR\n", variables_text(variables));
    }
    text + "\n" + &block.body + "END_FUNCTION_BLOCK\n"
}

fn type_text(enumeration: &Enumeration) -> String {
    let last = enumeration.values.len().saturating_sub(1);
    let mut text = format!("\n(* {} *)\nTYPE {} : (\n", enumeration.title, enumeration.name);
    for (number, (value, name)) in enumeration.values.iter().enumerate() {
        let comma = if number == last { "" } else { "," };
        let note = if value.ends_with(&format!("_{name}")) { String::new() } else { format!(" (* {name} *)") };
        text += &format!("    {value}{comma}{note}\n");
    }
    text + ");\nEND_TYPE\n"
}

/// A section's variables, their comments below each other.
fn variables_text(variables: &[Variable]) -> String {
    let declared: Vec<String> = variables.iter().map(declaration).collect();
    let width = declared.iter().map(String::len).max().unwrap_or(0);
    variables.iter().zip(&declared).map(|(variable, declared)| variable_text(variable, declared, width)).collect()
}

/// The declaration without its comment; nothing for an array.
fn declaration(variable: &Variable) -> String {
    let Variable { name, kind, value, .. } = variable;
    match (kind, value) {
        (Kind::Plain(kind), Value::One(value)) => format!("{name} : {kind} := {value};"),
        (Kind::Plain(kind), _) => format!("{name} : {kind};"),
        (Kind::Enumeration(kind), _) => format!("{name} : {kind};"),
        (Kind::Array(_), _) => String::new(),
    }
}

fn variable_text(variable: &Variable, declared: &str, width: usize) -> String {
    let Variable { name, kind, value, note } = variable;
    match (kind, value) {
        (Kind::Array(kind), Value::List(list)) => {
            let last = list.values.len().saturating_sub(1);
            format!("    (* {note} *)\n    {name} : ARRAY [0..{last}] OF {kind} := [\n{}    ];\n", list_text(list))
        }
        _ if note.is_empty() => format!("    {declared}\n"),
        _ => format!("    {declared:width$} (* {note} *)\n"),
    }
}

fn list_text(list: &List) -> String {
    match list.labels.is_empty() {
        true => plain(&list.values),
        false => labelled(&list.values, list.width, COMMENT, |row| list.labels[row].clone()),
    }
}
