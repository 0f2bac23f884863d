//! The judge of tables turns down damaged ones, of both sides.

use second::generate::{self, Draw, Family};
use second::walks::{check, reachable, Side};
use second::{print::print, solve, text, Game};

/// A requirement that the system meets by visiting output 1.
const SYSTEM: &str = "\
(game 2 2 1)
(in 0 1 (0 1))
(in 1 0 (0 1))
(out 0 1 (0 1))
(out 1 0 (0 1))
(if ((1)) ((1)))
";

/// A requirement that the panel breaks by visiting input 1.
const PANEL: &str = "\
(game 2 1 1)
(in 0 1 (0 1))
(in 1 0 (0 1))
(out 0 1 (0))
(if ((1)) (()))
";

/// The panel must keep off input 1, where it is stuck.
const PANEL_LATCHES: &str = "\
(game 2 1 1)
(in 0 1 (0 1))
(in 1 0 ())
(out 0 1 (0))
(if () (()))
";

/// The system must keep off output 0, where it is stuck.
const SYSTEM_LATCHES: &str = "\
(game 1 2 0)
(in 0 1 (0))
(out 0 0 ())
(out 1 1 (0 1))
";

fn game(source: &str) -> Game {
    text::read(source.as_bytes()).expect("a well-shaped text")
}

/// The right print with one line put in the place of another.
fn changed(source: &str, old: &str, new: &str) -> Result<Side, String> {
    let right = print(&solve(&game(source)));
    assert!(right.contains(old), "{right}");
    check(&game(source), &right.replace(old, new))
}

#[test]
fn the_right_tables_win() {
    assert_eq!(changed(SYSTEM, "", ""), Ok(Side::System));
    assert_eq!(changed(PANEL, "", ""), Ok(Side::Environment));
    assert_eq!(changed(PANEL_LATCHES, "", ""), Ok(Side::Environment));
    assert_eq!(changed(SYSTEM_LATCHES, "", ""), Ok(Side::System));
}

/// A side that drives itself into a dead end is stopped first, whatever its
/// table says there.
#[test]
fn a_side_that_is_stopped_first_does_not_win() {
    let panel = |step: &str| changed(PANEL_LATCHES, "(step 0 0 0 0 0)", step);
    assert!(panel("(step 0 0 0 1 0)").is_err_and(|why| why.contains("none")));
    assert!(panel("(step 0 0 0 1 0)\n(step 1 0 0 1 0)").is_err_and(|why| why.contains("none")));
    let system = |step: &str| changed(SYSTEM_LATCHES, "(step 1 0 0 1 0)", step);
    assert!(system("(step 1 0 0 0 0)").is_err_and(|why| why.contains("none")));
    assert!(system("(step 1 0 0 0 0)\n(step 0 0 0 0 0)").is_err_and(|why| why.contains("none")));
}

/// Where the other side is stuck the play ends, and the table needs no more:
/// the controller no step, the panel one that names a move.
#[test]
fn a_side_wins_where_the_other_is_stuck() {
    let stuck_input = game("(game 1 1 1)\n(in 0 1 ())\n(out 0 1 (0))\n(if () (()))\n");
    assert_eq!(check(&stuck_input, "(wins system)\n(start 0 0)\n"), Ok(Side::System));
    assert!(check(&stuck_input, "(wins environment)\n(start 0)\n").is_err_and(|why| why.contains("none")));
    let stuck_output = game("(game 1 1 0)\n(in 0 1 (0))\n(out 0 1 ())\n");
    let panel = "(wins environment)\n(start 0)\n";
    assert_eq!(check(&stuck_output, &format!("{panel}(step 0 0 0 0 0)\n")), Ok(Side::Environment));
    assert!(check(&stuck_output, panel).is_err_and(|why| why.contains("none")));
    assert!(check(&stuck_output, "(wins system)\n(start 0 0)\n").is_err_and(|why| why.contains("none")));
}

#[test]
fn a_step_removed_does_not_win() {
    assert!(changed(SYSTEM, "(step 0 0 1 1 0)\n", "").is_err_and(|why| why.contains("none")));
    assert!(changed(PANEL, "(step 0 0 0 1 0)\n", "").is_err_and(|why| why.contains("none")));
}

#[test]
fn a_step_that_breaks_or_meets_does_not_win() {
    assert!(changed(SYSTEM, "(step 0 0 1 1 0)", "(step 0 0 1 0 0)").is_err_and(|why| why.contains("breaks")));
    assert!(changed(PANEL, "(step 0 0 0 1 0)", "(step 0 0 0 0 0)").is_err_and(|why| why.contains("meets")));
    // Still good: the round through output 0 comes back to output 1.
    assert_eq!(changed(SYSTEM, "(step 1 0 1 1 0)", "(step 1 0 1 0 0)"), Ok(Side::System));
}

#[test]
fn a_wrong_start_does_not_win() {
    assert!(changed(SYSTEM, "(start 0 0)", "(start 0 1)").is_err_and(|why| why.contains("start")));
    assert!(changed(SYSTEM, "(start 0 0)\n", "").is_err_and(|why| why.contains("start")));
    assert!(changed(PANEL, "(start 0)", "(start 1)").is_err_and(|why| why.contains("start")));
    assert!(changed(PANEL, "(start 0)\n", "").is_err_and(|why| why.contains("start")));
}

#[test]
fn a_step_to_no_state_or_no_memory_counts_as_none() {
    assert!(changed(SYSTEM, "(step 0 0 1 1 0)", "(step 0 0 1 2 0)").is_err_and(|why| why.contains("none")));
    assert!(changed(SYSTEM, "(step 0 0 1 1 0)", "(step 0 0 1 1 1)").is_err_and(|why| why.contains("none")));
    assert!(changed(PANEL, "(step 0 0 0 1 0)", "(step 0 0 0 1 1)").is_err_and(|why| why.contains("none")));
}

#[test]
fn the_other_verdict_does_not_win() {
    assert!(changed(SYSTEM, "(wins system)\n(start 0 0)", "(wins environment)\n(start 0)").is_err());
    assert!(changed(PANEL, "(wins environment)\n(start 0)", "(wins system)\n(start 0 0)").is_err());
    assert!(check(&game(SYSTEM), "(refused 9)\n").is_err());
    assert!(check(&game(SYSTEM), "").is_err());
}

/// Exactly the steps that a play can meet are needed.
#[test]
fn each_needed_step_is_missed() {
    let mut draw = Draw::new(5);
    for family in [Family::Tree, Family::Lone, Family::Copy, Family::Period] {
        for _ in 0..12 {
            each_step_removed(&generate::game(family, &mut draw));
        }
    }
}

fn each_step_removed(game: &Game) {
    let right = print(&solve(game));
    if right.len() > 3_000 {
        return; // each line of a long print would take its time
    }
    let needed = needed_rows(game, &right);
    for line in right.lines().filter(|line| line.starts_with("(step")) {
        let wins = check(game, &right.replace(&format!("{line}\n"), "")).is_ok();
        assert_eq!(wins, !needed.iter().any(|row| line.starts_with(row)), "{line}\n{right}");
    }
}

fn needed_rows(game: &Game, right: &str) -> Vec<String> {
    let mut rows = Vec::new();
    for at in reachable(game, right).expect("the right table has no step none") {
        if right.starts_with("(wins system)") {
            let moves = &game.inputs[at.input].moves;
            rows.extend(moves.iter().map(|input| format!("(step {} {} {input} ", at.output, at.memory)));
        } else {
            rows.push(format!("(step {} {} {} ", at.input, at.memory, at.output));
        }
    }
    rows
}
