//! A hint: for each pick whether the position that it makes is won, and what it gives up for ever.
use super::table::{Match, Pick};
use crate::graphs::{can_recur, has};
use crate::requirements::{assumptions, guarantees, input_set, output_set};
use crate::said;
use nanpuwiq::{Error, Position, Winner};
use std::fmt::Write;

pub fn words(game: &Match, at: Option<Position>) -> Result<String, Error> {
    let mut text = String::new();
    let mut hopeless = true;
    for pick in game.allowed(at)? {
        let next = game.pick(at, pick)?;
        let won = game.won.get(next.input.0).is_some_and(|row| has(*row, next.output.0));
        hopeless &= won == (game.winner == Winner::System);
        let line = said::HINT.with(&[("pick", &game.called(pick)), ("consequence", &consequence(game, pick))]);
        let _ = writeln!(text, "    {line}");
    }
    let certain = match game.winner {
        Winner::System => said::ALL_WON,
        Winner::Environment => said::ALL_LOST,
    };
    // a table that wins stays where its side wins, so this is always so; it is read from the won map all the same
    let heading = if hopeless { certain } else { said::LEFT_OPEN };
    Ok(match text.is_empty() {
        true => said::NOTHING_TO_PICK.with(&[]) + "\n",
        false => format!("{}\n{text}", heading.with(&[])),
    })
}

/// What cannot come again and again any more after a pick.
fn consequence(game: &Match, pick: Pick) -> String {
    let form = if matches!(pick, Pick::Input(_)) { said::NEVER_DUE } else { said::GIVES_UP };
    let lost: Vec<String> = given_up(game, pick)
        .into_iter()
        .map(|(number, set)| {
            form.with(&[("number", &number.to_string()), ("set", &set_words(game, pick, number, set))])
        })
        .collect();
    match lost.is_empty() {
        true => said::GIVES_UP_NOTHING.with(&[]),
        false => lost.join("; "),
    }
}

/// The requirements that have a set on the pick's side that cannot recur any more, each with its first such set.
pub fn given_up(game: &Match, pick: Pick) -> Vec<(usize, usize)> {
    let used = game.game.requirements.iter().take(game.game.k).enumerate();
    let lost = used.filter_map(|(number, q)| {
        let set = match pick {
            Pick::Input(s) => assumptions(q).iter().position(|set| !can_recur(&game.game.input, s.0, set.0)),
            Pick::Output(s) => guarantees(q).iter().position(|set| !can_recur(&game.game.output, s.0, set.0)),
        };
        set.map(|set| (number, set))
    });
    lost.collect()
}

fn set_words(game: &Match, pick: Pick, number: usize, set: usize) -> String {
    let q = &game.game.requirements[number];
    match pick {
        Pick::Input(_) => input_set(q.assumptions[set], &game.names),
        Pick::Output(_) => output_set(q.guarantees[set], &game.names),
    }
}
