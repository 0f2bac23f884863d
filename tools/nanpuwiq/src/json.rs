//! JSON, as the option --json writes it: one value on one line. An object's fields keep the order in which they are given, so that one answer always has
//! the same bytes.
use std::fmt::{self, Display, Formatter, Write};

/// A value of JSON.
#[derive(Clone, Debug, PartialEq, Eq)]
pub enum Json {
    Null,
    Bool(bool),
    Number(u64),
    Text(String),
    List(Vec<Json>),
    Object(Vec<(&'static str, Json)>),
}

impl Json {
    /// An object with these fields.
    pub fn object<const FIELDS: usize>(fields: [(&'static str, Json); FIELDS]) -> Json {
        Json::Object(fields.into())
    }

    /// A list of what each item is.
    pub fn list<T: Into<Json>>(items: impl IntoIterator<Item = T>) -> Json {
        Json::List(items.into_iter().map(Into::into).collect())
    }

    /// The value on a line of its own.
    pub fn line(&self) -> String {
        format!("{self}\n")
    }
}

impl From<bool> for Json {
    fn from(value: bool) -> Json {
        Json::Bool(value)
    }
}

impl From<usize> for Json {
    fn from(value: usize) -> Json {
        // a count or a number of a state: 64 bits hold each
        Json::Number(value as u64)
    }
}

impl From<u16> for Json {
    fn from(value: u16) -> Json {
        Json::Number(u64::from(value))
    }
}

impl From<u8> for Json {
    fn from(value: u8) -> Json {
        Json::Number(u64::from(value))
    }
}

impl From<&str> for Json {
    fn from(value: &str) -> Json {
        Json::Text(value.to_string())
    }
}

impl From<String> for Json {
    fn from(value: String) -> Json {
        Json::Text(value)
    }
}

impl<T: Into<Json>> From<Vec<T>> for Json {
    fn from(values: Vec<T>) -> Json {
        Json::list(values)
    }
}

/// Null where there is none.
impl<T: Into<Json>> From<Option<T>> for Json {
    fn from(value: Option<T>) -> Json {
        value.map_or(Json::Null, Into::into)
    }
}

impl Display for Json {
    fn fmt(&self, f: &mut Formatter<'_>) -> fmt::Result {
        match self {
            Json::Null => f.write_str("null"),
            Json::Bool(value) => write!(f, "{value}"),
            Json::Number(value) => write!(f, "{value}"),
            Json::Text(text) => quoted(f, text),
            Json::List(items) => joined(f, '[', ']', items, |f, item| write!(f, "{item}")),
            Json::Object(fields) => joined(f, '{', '}', fields, |f, (name, value)| {
                quoted(f, name)?;
                write!(f, ": {value}")
            }),
        }
    }
}

/// Items between two brackets, with commas between them.
fn joined<T>(
    f: &mut Formatter<'_>,
    open: char,
    close: char,
    items: &[T],
    item: impl Fn(&mut Formatter<'_>, &T) -> fmt::Result,
) -> fmt::Result {
    f.write_char(open)?;
    for (place, value) in items.iter().enumerate() {
        if place > 0 {
            f.write_str(", ")?;
        }
        item(f, value)?;
    }
    f.write_char(close)
}

/// Text in quotes; quotes, backslashes and control characters are escaped.
fn quoted(f: &mut Formatter<'_>, text: &str) -> fmt::Result {
    f.write_char('"')?;
    for c in text.chars() {
        match c {
            '"' | '\\' => write!(f, "\\{c}")?,
            '\n' => f.write_str("\\n")?,
            '\r' => f.write_str("\\r")?,
            '\t' => f.write_str("\\t")?,
            c if c.is_control() => write!(f, "\\u{:04x}", u32::from(c))?,
            c => f.write_char(c)?,
        }
    }
    f.write_char('"')
}
