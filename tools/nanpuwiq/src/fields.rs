//! The fields that the objects of several subcommands have, each with one name and one form.
use crate::answer::Lines;
use crate::files::GameFile;
use crate::json::Json;
use crate::names::Names;
use nanpuwiq::{Game, InState, OutState, Position, Set, Winner};

/// Fields of an object, in their order.
pub type Fields = Vec<(&'static str, Json)>;

/// The game's file, and what each of its states is called: its name, or its number.
pub fn of_game(file: &GameFile) -> Fields {
    let GameFile { name, game, names } = file;
    let (inputs, outputs) = called(game, names);
    vec![("file", name.as_str().into()), ("inputs", inputs), ("outputs", outputs)]
}

fn called(game: &Game, names: &Names) -> (Json, Json) {
    let inputs = (0..game.input.states).map(|s| names.input(InState(s)));
    let outputs = (0..game.output.states).map(|s| names.output(OutState(s)));
    (Json::list(inputs), Json::list(outputs))
}

pub fn winner(winner: Winner) -> Json {
    match winner {
        Winner::System => "system".into(),
        Winner::Environment => "environment".into(),
    }
}

/// A winner's table as its print has it: whose it is, how many entries the stored table has, and the numbers of the lines (start ..) and (step ..).
pub fn table(side: &str, entries: usize, lines: Lines) -> Json {
    Json::object([
        ("side", side.into()),
        ("entries", entries.into()),
        ("starts", lines.starts.into()),
        ("steps", lines.steps.into()),
    ])
}

/// The outputs that are won with each input.
pub fn won(game: &Game, map: &[Set]) -> Json {
    Json::list(map.iter().take(game.input.states).map(|row| Json::list(row.states())))
}

/// How many positions are won, of how many.
pub fn positions(game: &Game, map: &[Set]) -> Json {
    let won: usize = map.iter().map(|row| row.count()).sum();
    Json::object([("won", won.into()), ("all", (game.input.states * game.output.states).into())])
}

/// A configuration.
pub fn position(at: Position) -> Json {
    Json::object([("input", at.input.0.into()), ("output", at.output.0.into()), ("counter", at.counter.into())])
}
