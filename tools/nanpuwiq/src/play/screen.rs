//! What the person sees.
use super::aim::Aim;
use super::table::{Match, Pick};
use crate::requirements;
use crate::said::{self, Form};
use crate::standard;
use nanpuwiq::{Error, Position, Winner};
use std::fmt::Write;

/// How text is shown.
pub struct Screen {
    pub colour: bool,
}

/// Colour only on a terminal, and not where NO_COLOR or a dumb terminal asks for none.
pub fn colour_wanted() -> bool {
    let asked_not = std::env::var_os("NO_COLOR").is_some_and(|word| !word.is_empty());
    let dumb = std::env::var_os("TERM").is_none_or(|term| term == "dumb");
    standard::output_is_terminal() && !asked_not && !dumb
}

const BOLD: &str = "1";
const RED: &str = "31";
const GREEN: &str = "32";

impl Screen {
    fn painted(&self, colour: &str, text: &str) -> String {
        match self.colour {
            true => format!("\x1b[{colour}m{text}\x1b[0m"),
            false => text.to_string(),
        }
    }

    /// Who plays whom, what is required, and what can be typed.
    pub fn opening(&self, game: &Match) -> String {
        let mut text = String::new();
        for line in opening_lines(game) {
            let _ = writeln!(text, "{line}");
        }
        text + self.help()
    }

    pub fn help(&self) -> &'static str {
        "Type the number or the name of your pick; or undo, hint, why, help, quit.\n"
    }

    pub fn prompt(&self) -> &'static str {
        "> "
    }

    /// The position, what the table aims at, the panel's pick where the table is the panel, and what is allowed.
    pub fn position(&self, game: &Match, at: Option<Position>) -> Result<String, Error> {
        let mut text = String::from("\n");
        if let Some(at) = at {
            let (old, new) = (game.input_called(at.input), game.output_called(at.output));
            let _ = writeln!(text, "{}", self.painted(BOLD, &said::HERE.with(&[("old", &old), ("new", &new)])));
        }
        let allowed = game.allowed(at)?;
        if allowed.is_empty() {
            let _ = writeln!(text, "{} Undo or quit.", stuck(game.winner).with(&[]));
            return Ok(text);
        }
        if let Some(at) = at {
            if let Some(aim) = Aim::of(game, at, game.ground(at)?) {
                let _ = writeln!(text, "{}", aim.words(game, at.counter));
            }
        }
        if let Some(input) = game.announced(at)? {
            let form = if at.is_none() { said::PANEL_BEGINS } else { said::PANEL_GOES };
            let _ = writeln!(text, "{}", form.with(&[("next", &game.input_called(input))]));
        }
        let allowed: Vec<String> = allowed.iter().map(|pick| game.called(*pick)).collect();
        let may = may(game.winner, at.is_none());
        let _ = writeln!(text, "{}", may.with(&[("moves", &allowed.join(", "))]));
        Ok(text)
    }

    pub fn not_understood(&self, word: &str) -> String {
        let word: String = word.chars().take(40).collect();
        format!("'{word}' is none of the states. {}", self.help())
    }

    pub fn not_allowed(&self, game: &Match, pick: Pick) -> String {
        format!("{} is no move from here. {}", game.called(pick), self.help())
    }

    /// A round from a configuration back to it, what it does to each requirement, and who has lost.
    pub fn round(&self, game: &Match, round: &[Position]) -> String {
        let turns = match round.len().saturating_sub(1) {
            1 => said::ONE_TURN.with(&[]),
            moves => said::MORE_TURNS.with(&[("count", &moves.to_string())]),
        };
        let mut text = format!("\n{}\n", self.painted(BOLD, &said::ROUND_CLOSED.with(&[("turns", &turns)])));
        for at in round {
            let (old, new) = (game.input_called(at.input), game.output_called(at.output));
            let step = said::STEP.with(&[("old", &old), ("new", &new), ("counter", &at.counter.to_string())]);
            let _ = writeln!(text, "    {step}");
        }
        let mut broken = None;
        for (number, q) in game.game.requirements.iter().take(game.game.k).enumerate() {
            let judged = requirements::judge(q, round, &game.names);
            let (colour, word) = if judged.met { (GREEN, said::MET) } else { (RED, said::BROKEN) };
            if !judged.met {
                broken = broken.or(Some(number));
            }
            let holes = [
                ("number", number.to_string()),
                ("judgement", self.painted(colour, word.text)),
                ("words", judged.words),
            ];
            let _ =
                writeln!(text, "{}", said::JUDGED.with(&holes.each_ref().map(|(hole, value)| (*hole, value.as_str()))));
        }
        text + &self.outcome(game, broken)
    }

    /// What the round is, who has lost, and why it goes on.
    fn outcome(&self, game: &Match, broken: Option<usize>) -> String {
        let round = match (broken, game.game.k) {
            (None, 0) => said::ROUND_EMPTY,
            (None, _) => said::ROUND_MET,
            (Some(_), _) => said::ROUND_BROKEN,
        };
        let end = match (broken, game.winner) {
            (None, Winner::System) => said::LOST_BY_MEETING,
            (None, Winner::Environment) => said::WON_BY_MEETING,
            (Some(_), Winner::System) => said::WON_BY_BREAKING,
            (Some(_), Winner::Environment) => said::LOST_BY_BREAKING,
        };
        let number = broken.map_or(String::new(), |number| number.to_string());
        let end = self.painted(BOLD, &end.with(&[("number", &number)]));
        format!("{}\n{end}\n{}\n", round.with(&[]), said::FOR_EVER.with(&[]))
    }
}

/// Who plays whom, what is required, and when the person wins.
pub fn opening_lines(game: &Match) -> Vec<String> {
    let lines = |lines: [&str; 2]| lines.map(String::from).to_vec();
    let mut text = lines(match game.winner {
        Winner::System => [
            "An adapter exists: the controller's table plays the new drive. You are the panel.",
            "You pick what the old drive does; the table answers with the new drive.",
        ],
        Winner::Environment => [
            "No adapter exists: the panel's table plays the old drive. You are the new drive.",
            "The panel picks what the old drive does; you answer with the new drive.",
        ],
    });
    for (number, q) in game.game.requirements.iter().take(game.game.k).enumerate() {
        text.push(format!("Requirement {number}: {}.", requirements::words(q, &game.names)));
    }
    text.push(String::from(match game.winner {
        Winner::System => "You win if a round breaks a requirement, or if the new drive is left without a move.",
        Winner::Environment => {
            "You win if a round meets every requirement, or if the old drive is left without a move."
        }
    }));
    text
}

/// What the person may do: at the beginning, or later.
pub fn may(winner: Winner, beginning: bool) -> Form {
    match (winner, beginning) {
        (Winner::System, true) => said::PANEL_MAY_BEGIN,
        (Winner::System, false) => said::PANEL_MAY_GO,
        (Winner::Environment, true) => said::DRIVE_MAY_BEGIN,
        (Winner::Environment, false) => said::DRIVE_MAY_ANSWER,
    }
}

/// The person has no move.
pub fn stuck(winner: Winner) -> Form {
    match winner {
        Winner::System => said::OLD_STUCK,
        Winner::Environment => said::NEW_STUCK,
    }
}
