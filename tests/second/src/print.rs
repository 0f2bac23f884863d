//! The print of an answer, byte for byte that of the solve program.

use crate::game::Refusal;
use crate::solve::{Answer, Steps};
use std::fmt::Write;

pub fn print(answer: &Answer) -> String {
    match answer {
        Answer::System(controller) => {
            let mut text = String::from("(wins system)\n");
            for (input, start) in controller.starts.iter().enumerate() {
                if let Some(output) = start {
                    line(&mut text, "start", &[input, *output]);
                }
            }
            print_steps(&mut text, &controller.steps);
            text
        }
        Answer::Environment(panel) => {
            let mut text = String::from("(wins environment)\n");
            line(&mut text, "start", &[panel.start]);
            print_steps(&mut text, &panel.steps);
            text
        }
        Answer::Refused(Refusal::Number(number)) => format!("(refused {number})\n"),
        Answer::Refused(Refusal::Shape(place)) => format!("(refused 11 {place})\n"),
    }
}

/// The rows in their order, the last index running fastest; none is skipped.
fn print_steps(text: &mut String, steps: &Steps) {
    for (state, rows) in steps.iter().enumerate() {
        for (counter, row) in rows.iter().enumerate() {
            for (seen, step) in row.iter().enumerate() {
                if let Some((next, after)) = step {
                    line(text, "step", &[state, counter, seen, *next, *after]);
                }
            }
        }
    }
}

fn line(text: &mut String, word: &str, numbers: &[usize]) {
    text.push('(');
    text.push_str(word);
    for number in numbers {
        write!(text, " {number}").expect("a string takes every write");
    }
    text.push_str(")\n");
}
