//! A game's text taken apart with the places of its numbers, to say in words what is at fault and where. Whether a text is a game, and how far it could be one,
//! the library decides; this reader is asked only about texts that were refused.

/// A number of the text and where it begins.
#[derive(Clone, Copy)]
pub struct Number {
    pub value: usize,
    pub place: usize,
}

/// A line of a state: where it begins, whether the state is initial, and its moves.
pub struct Row {
    pub place: usize,
    pub initial: bool,
    pub moves: Vec<Number>,
}

/// A line of a requirement.
pub struct Requirement {
    pub input_sets: Vec<Vec<Number>>,
    pub output_sets: Vec<Vec<Number>>,
}

/// All lines after the first.
pub struct Shape {
    pub inputs: Vec<Row>,
    pub outputs: Vec<Row>,
    pub requirements: Vec<Requirement>,
}

/// States and numbers in sets are below this.
const STATES: usize = 128;
const REQUIREMENTS: usize = 8;
const SETS: usize = 4;

/// The lines of a text, or in words why it has not their shape.
pub fn read(text: &[u8]) -> Result<Shape, String> {
    let mut reader = Reader { text, at: 0 };
    reader.word("(game ")?;
    let inputs = reader.count("the number of inputs", 1, STATES)?;
    reader.word(" ")?;
    let outputs = reader.count("the number of outputs", 1, STATES)?;
    reader.word(" ")?;
    let requirements = reader.count("the number of requirements", 0, REQUIREMENTS)?;
    reader.word(")\n")?;
    let inputs = (0..inputs).map(|s| reader.row("(in ", s)).collect::<Result<_, _>>()?;
    let outputs = (0..outputs).map(|s| reader.row("(out ", s)).collect::<Result<_, _>>()?;
    let requirements = (0..requirements).map(|_| reader.requirement()).collect::<Result<_, _>>()?;
    match reader.text.get(reader.at) {
        None => Ok(Shape { inputs, outputs, requirements }),
        Some(_) => {
            Err(format!("the game ends before this: nothing may follow its last line, found {}", reader.found()))
        }
    }
}

/// What is left of a text to be read: after an error `at` is the place that it is about.
pub struct Reader<'a> {
    pub text: &'a [u8],
    pub at: usize,
}

impl Reader<'_> {
    /// The fixed bytes of a word.
    pub fn word(&mut self, word: &str) -> Result<(), String> {
        for byte in word.bytes() {
            if self.text.get(self.at) != Some(&byte) {
                return Err(format!("expected {}, found {}", wanted(word), self.found()));
            }
            self.at += 1;
        }
        Ok(())
    }

    /// What stands at the present place.
    fn found(&self) -> String {
        match self.text.get(self.at) {
            None => "the end of the file".to_string(),
            Some(b'\n') => "the end of the line".to_string(),
            Some(b' ') => "a blank".to_string(),
            Some(b'\t') => "a tab".to_string(),
            Some(byte) if byte.is_ascii_graphic() => format!("'{}'", char::from(*byte)),
            Some(byte) => format!("the byte {byte}"),
        }
    }

    /// The digits at the present place.
    pub fn digits(&mut self, what: &str) -> Result<Number, String> {
        let place = self.at;
        let digits: String =
            self.text[place..].iter().take_while(|b| b.is_ascii_digit()).map(|b| char::from(*b)).collect();
        if digits.is_empty() {
            return Err(format!("expected {what}, found {}", self.found()));
        }
        if digits.len() > 1 && digits.starts_with('0') {
            return Err(format!("{}: a number has no leading zeros", shortened(&digits)));
        }
        self.at += digits.len();
        // more digits than a number can have are past every limit
        Ok(Number { value: digits.parse().unwrap_or(usize::MAX), place })
    }

    /// A number from `low` to `high`.
    fn count(&mut self, what: &str, low: usize, high: usize) -> Result<usize, String> {
        let value = self.digits(what)?.value;
        if (low..=high).contains(&value) {
            return Ok(value);
        }
        Err(format!("{what} is {low} to {high}, not {}", number(value)))
    }

    /// The line of state `state`.
    fn row(&mut self, word: &str, state: usize) -> Result<Row, String> {
        let place = self.at;
        self.word(word)?;
        let value = self.digits("the number of the state")?.value;
        if value != state {
            return Err(format!("states are listed in order: expected {state}, found {}", number(value)));
        }
        self.word(" ")?;
        let initial = self.count("the mark of an initial state", 0, 1)? == 1;
        self.word(" ")?;
        let moves = self.set("a move")?;
        self.word(")\n")?;
        Ok(Row { place, initial, moves })
    }

    fn requirement(&mut self) -> Result<Requirement, String> {
        self.word("(if ")?;
        let input_sets = self.sets()?;
        self.word(" ")?;
        let output_sets = self.sets()?;
        self.word(")\n")?;
        Ok(Requirement { input_sets, output_sets })
    }

    /// A list of sets in brackets.
    fn sets(&mut self) -> Result<Vec<Vec<Number>>, String> {
        self.word("(")?;
        let mut sets = Vec::new();
        while !self.closes(sets.is_empty())? {
            if sets.len() == SETS {
                return Err(format!("a list has {SETS} sets at most"));
            }
            sets.push(self.set("a state")?);
        }
        Ok(sets)
    }

    /// Rising numbers in brackets.
    fn set(&mut self, what: &str) -> Result<Vec<Number>, String> {
        self.word("(")?;
        let mut members: Vec<Number> = Vec::new();
        while !self.closes(members.is_empty())? {
            let member = self.digits(what)?;
            if member.value >= STATES {
                return Err(format!("{what} is 0 to {}, not {}", STATES - 1, number(member.value)));
            }
            match members.last() {
                Some(last) if member.value == last.value => {
                    return Err(format!("numbers do not rise: {} stands twice", last.value))
                }
                Some(last) if member.value < last.value => {
                    return Err(format!("numbers do not rise: {} after {}", member.value, last.value));
                }
                _ => members.push(member),
            }
        }
        Ok(members)
    }

    /// Whether the list ends here; passes over the bracket, or over the blank before the next item.
    fn closes(&mut self, empty: bool) -> Result<bool, String> {
        match self.text.get(self.at) {
            Some(b')') => {
                self.at += 1;
                Ok(true)
            }
            Some(b' ') if !empty => {
                self.at += 1;
                Ok(false)
            }
            _ if empty => Ok(false),
            _ => Err(format!("expected a blank or ')', found {}", self.found())),
        }
    }
}

/// A fixed word for people.
fn wanted(word: &str) -> String {
    match word {
        " " => "one blank".to_string(),
        ")\n" => "')' and the end of the line".to_string(),
        _ => format!("'{word}'"),
    }
}

pub fn number(value: usize) -> String {
    match value {
        usize::MAX => "a number with so many digits".to_string(),
        _ => value.to_string(),
    }
}

fn shortened(digits: &str) -> &str {
    &digits[..digits.len().min(20)]
}
