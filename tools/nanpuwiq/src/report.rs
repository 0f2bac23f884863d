//! What a subcommand has found: its words, or with --json one object on standard output. docs/nanpuwiq.schema.json has the objects.
use crate::arguments::Arguments;
use crate::failure::{Failure, Fault, Status};
use crate::json::Json;
use crate::standard;

/// An answer: for people, for programs, and the status.
pub struct Report {
    pub text: String,
    /// The fields of the object after those that every object has.
    pub fields: Vec<(&'static str, Json)>,
    pub status: Status,
}

/// Writes what was found: the text, or the object where --json is given. With --json a refusal has an object too, and its words on standard error as ever.
pub fn written(arguments: &Arguments, found: Result<Report, Failure>) -> Result<Status, Failure> {
    let json = arguments.has("--json");
    match found {
        Ok(Report { fields, status, .. }) if json => {
            standard::write(object(arguments.command, status, None, fields).line().as_bytes())?;
            Ok(status)
        }
        Ok(Report { text, status, .. }) => {
            standard::write(text.as_bytes())?;
            Ok(status)
        }
        // wrong use is said before anything is asked
        Err(failure @ (Failure::Usage { .. } | Failure::Output(_))) => Err(failure),
        Err(failure) => {
            if json {
                let error = Some(failure.fault());
                standard::write(object(arguments.command, failure.status(), error, Vec::new()).line().as_bytes())?;
            }
            Err(failure)
        }
    }
}

/// The object of an answer: the fields that all have, then its own.
pub fn object(command: &str, status: Status, error: Option<Fault>, fields: Vec<(&'static str, Json)>) -> Json {
    let mut all = vec![
        ("nanpuwiq", nanpuwiq::VERSION.into()),
        ("command", command.into()),
        // a status is 0 to 3
        ("status", Json::Number(status.number() as u64)),
        ("error", error.map(fault).into()),
    ];
    all.extend(fields);
    Json::Object(all)
}

/// The object of what is refused.
pub fn fault(fault: Fault) -> Json {
    Json::object([
        ("file", Some(fault.file).filter(|file| !file.is_empty()).into()),
        ("line", fault.place.map(|(line, _)| line).into()),
        ("column", fault.place.map(|(_, column)| column).into()),
        ("number", fault.number.into()),
        ("words", fault.words.into()),
    ])
}
