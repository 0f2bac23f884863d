//! `nanpuwiq kit`: two drives that are given by their commands, solved, and exported by commands.
use crate::answer::{self, Lines};
use crate::arguments::Arguments;
use crate::export::identifiers::code_name;
use crate::export::kit_table::KitTable;
use crate::export::{self, c, st};
use crate::failure::{Failure, Fault, Status};
use crate::fields;
use crate::json::Json;
use crate::kit_file::{self, KitFile};
use crate::report::{self, Report};
use crate::sizes;
use crate::standard;
use crate::subcommand::Subcommand;
use nanpuwiq::{Error, Game, Graph, Set, Verdict, Winner, BARRED, COMMANDS, NONE};
use std::fmt::Write;

pub const SUBCOMMAND: Subcommand = Subcommand {
    name: "kit",
    form: "FILE",
    words: "solve two drives that are given by their commands",
    options: &[
        ("--c", 0),
        ("--st", 0),
        ("--plcopen", 0),
        ("--game", 0),
        ("--game-names", 0),
        ("--test", 0),
        ("-o", 1),
        ("--name", 1),
        ("--json", 0),
    ],
    help: HELP,
    run,
};

const HELP: &str = "\
nanpuwiq kit [--c|--st|--plcopen|--game|--game-names|--json] [-o NAME [--test]] [--name NAME] FILE

Reads two drives as tables of commands and prints who wins and, where an adapter exists, which command answers which.

  --c               the kit's table as C
  --st              the kit's table as a function block of Structured Text
  --plcopen         the same block as PLCopen XML (TC6), to be imported
  --game            the game of the two drives, in the game's own form
  --game-names      the names of the modes, as a file of names for that game
  -o NAME           source code into NAME.h and NAME.c, NAME.st, or NAME.xml; without it to standard output
  --test            with --c -o: also NAME_test.c, a program that walks every row
  --name NAME       the name of functions or block; without it that of -o, or 'kit'
  --json            one JSON object, as nanpuwiq(5) tells
";

fn run(arguments: Arguments) -> Result<Status, Failure> {
    let form = arguments.one_of(&["--c", "--st", "--plcopen", "--game", "--game-names", "--json"])?;
    let code = form.is_some_and(|form| export::FORMS.contains(&form));
    export::check_test(&arguments, form)?;
    if arguments.has("-o") && !code {
        return Err(arguments.wrong("-o takes source code, so it goes with --c, --st or --plcopen"));
    }
    if form == Some("--json") {
        let found = found(&arguments);
        return report::written(&arguments, found);
    }
    let name = code_name(&arguments, "kit")?;
    let kit = kit_file::read(arguments.file()?)?;
    let refused = |error: Error| Failure::Refused(format!("{}: {error}", kit.name));
    let Verdict { winner, table } = kit.kit.solve().map_err(refused)?;
    if code && winner == Winner::Environment {
        standard::say(&format!(
            "{}: no adapter exists, so there is no table to export; 'nanpuwiq kit --game' gives the game to play",
            kit.name
        ));
        return Ok(Status::NoAdapter);
    }
    if let Some(form) = form.filter(|_| code) {
        let table = KitTable::new(&name, &kit, &table);
        let texts = if form == "--c" { c::kit(&table) } else { vec![export::of_block(form, &st::kit(&table))] };
        export::write(&arguments, texts)?;
        return Ok(Status::Fine);
    }
    let text = match form {
        Some("--game") => {
            let text = game(&kit).and_then(|game| game.write()).map_err(refused)?;
            String::from_utf8_lossy(&text).into_owned()
        }
        Some(_) => kit.names().text(),
        None => match winner {
            Winner::System => commands(&kit, &table),
            Winner::Environment => panel(&kit, &game(&kit).map_err(refused)?, &table),
        },
    };
    standard::write(text.as_bytes())?;
    // who wins is asked only where the answer is printed
    Ok(if form.is_none() { Status::of(winner) } else { Status::Fine })
}

/// The answer as an object.
fn found(arguments: &Arguments) -> Result<Report, Failure> {
    let kit = kit_file::read(arguments.file()?)?;
    let refused = |error: Error| Fault::of(&kit.name, error);
    let Verdict { winner, table } = kit.kit.solve().map_err(refused)?;
    let (side, lines) = match winner {
        Winner::System => ("controller", rows(&kit, &table)),
        Winner::Environment => ("panel", answer::lines(&game(&kit).map_err(refused)?, winner, &table)),
    };
    let fields = vec![
        ("file", kit.name.as_str().into()),
        ("inputs", Json::list(kit.old.modes.clone())),
        ("outputs", Json::list(kit.new.modes.clone())),
        ("old_commands", Json::list(kit.old.commands.clone())),
        ("new_commands", Json::list(kit.new.commands.clone())),
        ("winner", fields::winner(winner)),
        ("table", fields::table(side, table.len(), lines)),
    ];
    Ok(Report { text: String::new(), fields, status: Status::of(winner) })
}

/// The kit's game: a move is there where some command makes it.
fn game(kit: &KitFile) -> Result<Game, Error> {
    let graph = |drive: &nanpuwiq::Drive| {
        let mut graph = Graph { states: drive.modes, initial: drive.initial, ..Graph::default() };
        for (row, next) in graph.moves.iter_mut().zip(drive.next.chunks(COMMANDS)) {
            *row =
                next.iter().filter(|to| **to != BARRED).fold(Set::default(), |set, to| set | Set::of(usize::from(*to)));
        }
        graph
    };
    let k = kit.kit.k.min(kit.kit.requirements.len());
    Game::new(graph(&kit.kit.old), graph(&kit.kit.new), &kit.kit.requirements[..k])
}

/// The kit's table: starts as old mode, new mode; steps as new mode, counter, old mode, old command, answer, next counter. Rows of none are left out.
fn rows(kit: &KitFile, table: &[u16]) -> Lines {
    let (modes, count, counters) = (kit.old.modes.len(), kit.old.commands.len(), kit.counters());
    let (starts, rows) = table.split_at(modes.min(table.len()));
    let starts = starts.iter().enumerate().filter_map(|(mode, entry)| {
        let (first, _) = sizes::controller_entry(*entry)?;
        Some(vec![mode, first.0])
    });
    let steps = rows.iter().enumerate().filter(|(_, entry)| **entry != NONE).map(|(row, entry)| {
        let (answer, next) = (usize::from(*entry) % COMMANDS, usize::from(*entry) / COMMANDS);
        let (counter, at) = (row / count / modes % counters, row / count / modes / counters);
        vec![at, counter, row / count % modes, row % count, answer, next]
    });
    Lines { starts: starts.collect(), steps: steps.collect() }
}

/// The same with names: (start OLD NEW), and (step NEW COUNTER OLD COMMAND ANSWER COUNTER).
fn commands(kit: &KitFile, table: &[u16]) -> String {
    let (old, new) = (&kit.old, &kit.new);
    let Lines { starts, steps } = rows(kit, table);
    let mut text = String::from("(wins system)\n");
    for row in starts {
        let _ = writeln!(text, "(start {} {})", old.modes[row[0]], new.modes[row[1]]);
    }
    for row in steps {
        let (at, mode) = (&new.modes[row[0]], &old.modes[row[2]]);
        let (command, answer) = (&old.commands[row[3]], &new.commands[row[4]]);
        let _ = writeln!(text, "(step {at} {} {mode} {command} {answer} {})", row[1], row[5]);
    }
    text
}

/// The panel's table, by modes: (start OLD), and (step OLD COUNTER NEW NEXT-OLD COUNTER).
fn panel(kit: &KitFile, game: &Game, table: &[u16]) -> String {
    let (old, new) = (&kit.old.modes, &kit.new.modes);
    let Lines { starts, steps } = answer::lines(game, Winner::Environment, table);
    let mut text = String::from("(wins environment)\n");
    for row in starts {
        let _ = writeln!(text, "(start {})", old[row[0]]);
    }
    for row in steps {
        let _ = writeln!(text, "(step {} {} {} {} {})", old[row[0]], row[1], new[row[2]], old[row[3]], row[4]);
    }
    text
}
