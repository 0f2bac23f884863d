//! The totals of a catalogue: those of the program `catalogue`.
use super::judge::Outcome;
use crate::words::{count, grouped};
use nanpuwiq::Winner;
use std::collections::BTreeMap;
use std::fmt::Write;

/// How many each side wins, how many are refused and with which numbers, and the won positions of all in the games that are not.
#[derive(Default)]
pub struct Totals {
    pub system: usize,
    pub environment: usize,
    pub refused: usize,
    pub numbers: BTreeMap<u8, usize>,
    pub won: usize,
    pub positions: usize,
}

impl Totals {
    pub fn of(outcomes: &[Outcome]) -> Totals {
        let mut totals = Totals::default();
        for outcome in outcomes {
            match outcome {
                Outcome::Judged { winner, won, positions, .. } => {
                    match winner {
                        Winner::System => totals.system += 1,
                        Winner::Environment => totals.environment += 1,
                    }
                    totals.won += won;
                    totals.positions += positions;
                }
                Outcome::Refused(refusal) => {
                    totals.refused += 1;
                    if let Some(number) = refusal.number {
                        *totals.numbers.entry(number).or_default() += 1;
                    }
                }
            }
        }
        totals
    }

    /// The bytes of the program `catalogue`.
    pub fn figures(&self) -> String {
        let mut text =
            format!("(system {})\n(environment {})\n(refused {})\n", self.system, self.environment, self.refused);
        for (number, count) in &self.numbers {
            let _ = writeln!(text, "(number {number} {count})");
        }
        text + &format!("(won {} {})\n", self.won, self.positions)
    }

    /// "12 pairs: 7 with an adapter, 5 without. 96 of 144 positions are won."
    pub fn words(&self, one: &str, more: &str) -> String {
        let all = self.system + self.environment + self.refused;
        let refused = if self.refused > 0 { format!(", {} refused", grouped(self.refused)) } else { String::new() };
        let (system, environment) = (grouped(self.system), grouped(self.environment));
        let mut text = format!("{}: {system} with an adapter, {environment} without{refused}.", count(all, one, more));
        if self.positions > 0 {
            let are = if self.positions == 1 { "is" } else { "are" };
            let positions = count(self.positions, "position", "positions");
            let _ = write!(text, " {} of {positions} {are} won.", grouped(self.won));
        }
        text + "\n"
    }
}
