//! `nanpuwiq compare`: whether a drive's recording is what a controller's table gives for the panel's.
use crate::arguments::Arguments;
use crate::failure::{Failure, Fault, Status};
use crate::fields::{self, Fields};
use crate::files::{self, GameFile};
use crate::json::Json;
use crate::recordings::{self, Recording};
use crate::report::{self, Report};
use crate::subcommand::Subcommand;
use crate::tables::{self, Stored};
use crate::words::{count, counted};
use nanpuwiq::{Comparison, Error, InRecording, InState, OutRecording, OutState, Position};
use std::fmt::Write;

pub const SUBCOMMAND: Subcommand = Subcommand {
    name: "compare",
    form: "FILE TABLE INPUTS OUTPUTS",
    words: "say whether two recordings of a run are what a table does",
    options: &[("--names", 1), ("--form", 1), ("--layout", 1), ("--json", 0)],
    help: HELP,
    run,
};

const HELP: &str = "\
nanpuwiq compare [--names NAMES] [--form FORM] [--layout LAYOUT] [--json]
                 FILE TABLE INPUTS OUTPUTS

Says whether the outputs that the drive recorded in OUTPUTS are those that the controller's table in
TABLE gives for the inputs that the panel recorded in INPUTS; else the first step that shows it, from
0, the start: what the table gives there and what was recorded, or which recording has ended.
A recording is text: states by number or name, one or more a line. The rest of a line after ; # or //
is a comment. TABLE is as for check.
Status: 0 they agree, 1 they differ or one has ended, 2 refused or used wrongly, 3 input or output
failed.

  --form FORM       the form of TABLE: print, raw, hex or csv
  --layout LAYOUT   the layout of TABLE, where its length does not tell: full or compact
  --names NAMES     names for the states, as for play
  --json            one JSON object, as nanpuwiq(5) tells
";

fn run(arguments: Arguments) -> Result<Status, Failure> {
    let found = found(&arguments);
    report::written(&arguments, found)
}

/// A run: its game, the table and both recordings.
struct Run {
    file: GameFile,
    stored: Stored,
    table: Vec<u16>,
    inputs: Recording,
    outputs: Recording,
}

fn found(arguments: &Arguments) -> Result<Report, Failure> {
    let [game, table, inputs, outputs] = arguments.words("FILE TABLE INPUTS OUTPUTS")?;
    let (form, layout) = (tables::form(arguments, "--form")?, tables::layout(arguments)?);
    let file = files::read_game(game, arguments.value("--names"))?;
    let stored = tables::read(&file.game, table, form)?;
    let table = stored.full(&file, layout)?;
    let inputs = recordings::read(inputs, |word| file.names.find_input(word).map(|state| state.0))?;
    let outputs = recordings::read(outputs, |word| file.names.find_output(word).map(|state| state.0))?;
    let run = Run { file, stored, table, inputs, outputs };
    let (panel, drive) = (InRecording(&run.inputs.states), OutRecording(&run.outputs.states));
    let compared =
        run.file.game.compare(&run.table, panel, drive).map_err(|error| run.stored.refused(&run.file, error))?;
    let text = match compared {
        Comparison::Agree => run.agree(),
        Comparison::Differ { step } => run.differ(step)?,
        Comparison::Ended { step } => run.ended(step)?,
        Comparison::Fault { step, number } => return Err(run.fault(step, number)),
    };
    let status = if compared == Comparison::Agree { Status::Fine } else { Status::NoAdapter };
    let fields = run.fields(compared, &text)?;
    Ok(Report { text, fields, status })
}

impl Run {
    /// The positions that the table makes of the inputs recorded, up to a step and with it where there is an input.
    fn played(&self, step: usize) -> Result<Vec<Position>, Failure> {
        let refused = |error: Error| self.stored.refused(&self.file, error);
        let mut walk: Vec<Position> = Vec::new();
        for input in self.inputs.states.iter().take(step + 1).map(|state| InState(usize::from(*state))) {
            let next = match walk.last() {
                None => self.file.game.begin(&self.table, input).map_err(refused)?,
                Some(at) => {
                    let mut at = *at;
                    self.file.game.advance(&self.table, &mut at, input).map_err(refused)?;
                    at
                }
            };
            walk.push(next);
        }
        Ok(walk)
    }

    fn agree(&self) -> String {
        match self.inputs.states.len() {
            0 => "The recordings agree: both are empty.\n".to_string(),
            1 => "The recordings agree: of one step, at which the drive began as the table says.\n".to_string(),
            steps => format!(
                "The recordings agree: at each of the {} the drive did what the table says.\n",
                count(steps, "step", "steps")
            ),
        }
    }

    fn differ(&self, step: usize) -> Result<String, Failure> {
        let walk = self.played(step)?;
        let mut text = format!("The recordings differ at step {step}.\n{}", self.before(&walk, step));
        if let (Some(at), Some(recorded)) = (walk.get(step), self.outputs.state(step)) {
            let (table, drive) = (self.file.names.output_called(at.output), self.recorded(recorded));
            let answers = if step == 0 { "begins in" } else { "answers" };
            let _ =
                writeln!(text, "{}; the table {answers} {table}, and the drive recorded {drive}.", self.panel(step));
        }
        Ok(text)
    }

    fn ended(&self, step: usize) -> Result<String, Failure> {
        let (whose, ended, other) = match self.inputs.states.len() <= step {
            true => ("panel", &self.inputs, &self.outputs),
            false => ("drive", &self.outputs, &self.inputs),
        };
        let steps = |recording: &Recording| count(recording.states.len(), "step", "steps");
        let mut text = format!(
            "The {whose}'s recording has ended before the other: {} has {}, {} has {}.\n",
            ended.name,
            steps(ended),
            other.name,
            steps(other)
        );
        let walk = self.played(step)?;
        text += &self.before(&walk, step);
        if let Some(at) = walk.get(step) {
            let (answers, table) =
                (if step == 0 { "begins in" } else { "answers" }, self.file.names.output_called(at.output));
            let _ =
                writeln!(text, "{}; the table {answers} {table}, and the drive recorded nothing.", self.panel(step));
        } else if let Some(recorded) = self.outputs.state(step) {
            let _ = writeln!(
                text,
                "{}: the drive recorded {}, and the panel nothing.",
                self.step(step),
                self.recorded(recorded)
            );
        }
        Ok(text)
    }

    /// The position before a step, where there is one.
    fn before(&self, walk: &[Position], step: usize) -> String {
        let names = &self.file.names;
        match step.checked_sub(1).and_then(|before| walk.get(before)) {
            Some(at) => {
                let (old, new) = (names.input_called(at.input), names.output_called(at.output));
                format!("Step {}: old {old}, new {new}, counter {}; up to there they agree.\n", step - 1, at.counter)
            }
            None => String::new(),
        }
    }

    /// A step and its places in the recordings: "Step 3 (panel.rec:4:1, drive.rec:4:1)"
    fn step(&self, step: usize) -> String {
        let place = |recording: &Recording| {
            recording.place(step).map(|(line, column)| format!("{}:{line}:{column}", recording.name))
        };
        let places: Vec<String> = [&self.inputs, &self.outputs].into_iter().filter_map(place).collect();
        format!("Step {step} ({})", places.join(", "))
    }

    /// What the panel did at a step.
    fn panel(&self, step: usize) -> String {
        let input = self.inputs.state(step).map_or(String::new(), |state| self.file.names.input_called(InState(state)));
        let verb = if step == 0 { "began in" } else { "went to" };
        format!("{}: the panel {verb} {input}", self.step(step))
    }

    /// An output that was recorded; one that the new drive has not is told so.
    fn recorded(&self, state: usize) -> String {
        match state < self.file.game.output.states {
            true => self.file.names.output_called(OutState(state)),
            false => format!("{state}, which is no output of the game"),
        }
    }

    /// The player's refusal at a step: an input that cannot be picked there, or a row that is no reply.
    fn fault(&self, step: usize, number: u8) -> Failure {
        let error = Error { number, place: 0 };
        let walk = match step.checked_sub(1).map(|before| self.played(before)).transpose() {
            Ok(walk) => walk.unwrap_or_default(),
            Err(failure) => return failure,
        };
        let (input, inputs) = (self.inputs.state(step).unwrap_or_default(), self.file.game.input.states);
        let names = &self.file.names;
        let called = names.input_called(InState(input));
        let from = walk.last().map(|at| (names.input_called(at.input), names.output_called(at.output), at.counter));
        let (file, place, words) = match (number, from) {
            (14, _) if input >= inputs => (
                &self.inputs.name,
                self.inputs.place(step),
                format!("step {step}: there is no input {input}: {}", counted(inputs, "input")),
            ),
            (14, None) => (
                &self.inputs.name,
                self.inputs.place(step),
                format!("step {step}: the panel cannot begin in {called}: it is no initial state of the old drive"),
            ),
            (14, Some((old, ..))) => (
                &self.inputs.name,
                self.inputs.place(step),
                format!("step {step}: the panel cannot go from {old} to {called}: it is no move of the old drive"),
            ),
            (_, None) => (
                &self.stored.name,
                None,
                format!("step {step}: the table's start for old {called} names no initial output of the new drive, or no counter"),
            ),
            (_, Some((_, new, counter))) => (
                &self.stored.name,
                None,
                format!("step {step}: the table's row for new {new}, counter {counter} and next old {called} names no move of the new drive, or no counter"),
            ),
        };
        Fault { file: file.clone(), place, words, ..Fault::of("", error) }.into()
    }

    fn fields(&self, compared: Comparison, text: &str) -> Result<Fields, Failure> {
        let (finding, step) = match compared {
            Comparison::Agree => ("agree", None),
            Comparison::Differ { step } => ("differ", Some(step)),
            Comparison::Ended { step } => ("ended", Some(step)),
            Comparison::Fault { step, .. } => ("fault", Some(step)),
        };
        let expected = match step {
            Some(step) => self.played(step)?.get(step).map(|at| at.output.0),
            None => None,
        };
        let state = |recording: &Recording| -> Json { step.and_then(|step| recording.state(step)).into() };
        let mut fields = fields::of_game(&self.file);
        fields.extend([
            ("table_file", self.stored.name.as_str().into()),
            ("steps", self.inputs.states.len().min(self.outputs.states.len()).into()),
            ("agree", (compared == Comparison::Agree).into()),
            ("finding", finding.into()),
            ("step", step.into()),
            ("input", state(&self.inputs)),
            ("expected", expected.into()),
            ("recorded", state(&self.outputs)),
            ("words", text.trim_end().into()),
        ]);
        Ok(fields)
    }
}
