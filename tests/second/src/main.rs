//! The command line of the second solver.

use second::compare::{self, Options};
use second::solve::Solved;
use second::walks::{self, Side};
use std::io::{Read, Write};
use std::process::ExitCode;
use std::time::{SystemTime, UNIX_EPOCH};

const HELP: &str = "\
second solve                       game on standard input, print on standard output
second won                         game on standard input, how many positions are won and how many there are on standard output
second walks GAMEFILE PRINTFILE    does the printed table win, by walks alone?
second compare PROGRAM [options]   compare with another solve program
    --games N     small accepted games, default 20000
    --large N     games of up to 64 states each, default 40
    --wide N      games of 65 to 128 states in a graph, default 20
    --damaged N   damaged texts and faulty games, default 5000
    --seed S      the seed; from the clock unless given
second digest PROGRAM [options]    a number for the prints of the games of up to 64 states, to hold two builds together
second --help                      this text

Exit status: 0 if it wins or nothing differs, 1 if not, 2 for a wrong command.
";

fn main() -> ExitCode {
    let words: Vec<String> = std::env::args().skip(1).collect();
    let words: Vec<&str> = words.iter().map(String::as_str).collect();
    let done = match words.as_slice() {
        ["solve"] => solve(),
        ["won"] => won(),
        ["walks", game, print] => check(game, print),
        ["compare", program, options @ ..] => options_of(program, options).and_then(|options| compare::run(&options)),
        ["digest", program, options @ ..] => options_of(program, options).and_then(|options| compare::digest(&options)),
        ["--help" | "-h" | "help"] => {
            print!("{HELP}");
            Ok(true)
        }
        _ => Err(format!("no such command\n{HELP}")),
    };
    match done {
        Ok(true) => ExitCode::SUCCESS,
        Ok(false) => ExitCode::from(1),
        Err(why) => {
            eprintln!("second: {why}");
            ExitCode::from(2)
        }
    }
}

fn standard_input() -> Result<Vec<u8>, String> {
    let mut text = Vec::new();
    std::io::stdin().read_to_end(&mut text).map_err(|error| error.to_string())?;
    Ok(text)
}

fn solve() -> Result<bool, String> {
    let print = second::printed(&standard_input()?);
    std::io::stdout().write_all(print.as_bytes()).map_err(|error| error.to_string())?;
    Ok(true)
}

fn won() -> Result<bool, String> {
    let game = second::text::read(&standard_input()?).map_err(|refusal| format!("the game is refused: {refusal:?}"))?;
    if let Some(number) = game.refusal() {
        return Err(format!("the game is refused: {number}"));
    }
    let (won, positions) = Solved::new(&game).count();
    println!("{won} {positions}");
    Ok(true)
}

fn check(game: &str, print: &str) -> Result<bool, String> {
    let bytes = std::fs::read(game).map_err(|error| format!("{game}: {error}"))?;
    let print = std::fs::read_to_string(print).map_err(|error| format!("{print}: {error}"))?;
    let game = second::text::read(&bytes).map_err(|refusal| format!("the game is refused: {refusal:?}"))?;
    if let Some(number) = game.refusal() {
        return Err(format!("the game is refused: {number}"));
    }
    match walks::check(&game, &print) {
        Ok(Side::System) => println!("wins: the controller's table"),
        Ok(Side::Environment) => println!("wins: the panel's table"),
        Err(why) => {
            println!("does not win: {why}");
            return Ok(false);
        }
    }
    Ok(true)
}

fn options_of(program: &str, words: &[&str]) -> Result<Options, String> {
    let mut options = Options { program: program.into(), games: 20_000, large: 40, wide: 20, damaged: 5_000, seed: clock_seed() };
    for pair in words.chunks(2) {
        let &[name, value] = pair else {
            return Err(format!("{} needs a number", pair[0]));
        };
        let number: u64 = value.parse().map_err(|_| format!("{name} needs a number, not {value}"))?;
        match name {
            "--games" => options.games = number as usize,
            "--large" => options.large = number as usize,
            "--wide" => options.wide = number as usize,
            "--damaged" => options.damaged = number as usize,
            "--seed" => options.seed = number,
            _ => return Err(format!("no such option: {name}")),
        }
    }
    Ok(options)
}

fn clock_seed() -> u64 {
    SystemTime::now().duration_since(UNIX_EPOCH).map_or(0, |time| time.as_nanos() as u64)
}
