//! A second solver of the adapter game, made from the words of documents 01
//! and 02 alone, so that the program's answers can be compared with it.
//!
//! It works by plain means: vectors, depth-first reach, breadth-first ways.
//! `solve` follows the section "Choices that fix both tables" with the requests
//! "Hold the mode on a tie" and "Drives that latch". `walks` judges any printed
//! table by the definitions of walks and rounds and shares nothing with `solve`
//! but the game record.

pub mod compare;
pub mod game;
pub mod generate;
pub mod layout;
pub mod print;
pub mod solve;
pub mod text;
pub mod walks;

pub use game::{Game, Refusal};
pub use solve::{solve, solve_in, Answer};

/// What the solve program has to print for these bytes.
pub fn printed(bytes: &[u8]) -> String {
    match text::read(bytes) {
        Ok(game) => print::print(&solve(&game)),
        Err(refusal) => print::print(&Answer::Refused(refusal)),
    }
}
