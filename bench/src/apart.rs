//! The time of the second solver, which was made apart (tests/second). It gets the game from its text, before the clock starts; none where the text is too
//! long to be read.
use crate::measure::best;
use nanpuwiq::{Game, CONTROLLER_MOST};
use std::hint::black_box;

pub fn time(g: &Game) -> Option<f64> {
    let text = g.write().expect("the games here are accepted");
    let game = second::text::read(&text).ok()?;
    Some(best(|| {
        black_box(second::solve_in(black_box(&game), CONTROLLER_MOST));
    }))
}
