//! The request "Drives that latch": a state without a move is accepted, and a
//! player who cannot move loses.

use second::walks::{check, Side};
use second::{printed, text};

/// A game whose inputs and outputs have these moves, 0 initial on both sides.
fn game(inputs: &[&str], outputs: &[&str], requirements: &[&str]) -> String {
    let mut text = format!("(game {} {} {})\n", inputs.len(), outputs.len(), requirements.len());
    for (word, rows) in [("in", inputs), ("out", outputs)] {
        for (state, moves) in rows.iter().enumerate() {
            text += &format!("({word} {state} {} {moves})\n", usize::from(state == 0));
        }
    }
    requirements.iter().for_each(|line| text += &format!("(if {line})\n"));
    text
}

/// The print has this winner, these steps and no others, and wins by walks.
fn prints(source: &str, side: Side, steps: &[[usize; 5]]) {
    let step = |[a, b, c, next, after]: &[usize; 5]| format!("(step {a} {b} {c} {next} {after})\n");
    let opening = match side {
        Side::System => "(wins system)\n(start 0 0)\n",
        Side::Environment => "(wins environment)\n(start 0)\n",
    };
    let print = printed(source.as_bytes());
    assert_eq!(print, opening.to_string() + &steps.iter().map(step).collect::<String>(), "{source}");
    assert_eq!(check(&text::read(source.as_bytes()).expect("a well-shaped text"), &print), Ok(side), "{source}");
}

/// A requirement that every round breaks.
const BROKEN: &str = "() (())";

/// The play is over at once and won. The row for input 0 stands there all the
/// same, as every row with a won reply does.
#[test]
fn the_input_is_stuck() {
    prints(&game(&["()"], &["(0)"], &[BROKEN]), Side::System, &[[0, 0, 0, 0, 0]]);
}

#[test]
fn the_output_is_stuck() {
    prints(&game(&["(0)"], &["()"], &[]), Side::Environment, &[[0, 0, 0, 0, 0]]);
}

/// The panel moves first: it is the one that cannot. No reply is left, so that
/// the controller's step is none.
#[test]
fn both_are_stuck() {
    prints(&game(&["()"], &["()"], &[BROKEN]), Side::System, &[]);
}

/// Any next input will do, also one where the panel would be stuck.
#[test]
fn the_panel_may_enter_a_stuck_input_where_no_reply_is_left() {
    prints(&game(&["(1)", "()"], &["()"], &[]), Side::Environment, &[[0, 0, 0, 1, 0]]);
}

/// Otherwise it keeps off stuck inputs, on tour and in passing.
#[test]
fn the_panel_keeps_off_stuck_inputs() {
    prints(&game(&["(0 1)", "()"], &["(0)"], &[BROKEN]), Side::Environment, &[[0, 0, 0, 0, 0]]);
    let rows = [[0, 0, 0, 2, 0], [2, 0, 0, 2, 0]];
    prints(&game(&["(1 2)", "()", "(2)"], &["(0)"], &[BROKEN]), Side::Environment, &rows);
    prints(&game(&["(1)", "()"], &["(0)"], &[BROKEN]), Side::System, &[[0, 0, 0, 0, 0], [0, 0, 1, 0, 0]]);
}

/// The controller keeps off stuck outputs: output 0 would be lower. Only where
/// the new input is stuck is that the lowest move to a won position.
#[test]
fn the_controller_keeps_off_stuck_outputs() {
    let source = game(&["(0 1)", "()"], &["(1 2)", "()", "(1 2)"], &[]);
    let rows = [[0, 0, 0, 2, 0], [0, 0, 1, 1, 0], [2, 0, 0, 2, 0], [2, 0, 1, 1, 0]];
    prints(&source, Side::System, &rows);
}

/// No requirement at all: the new drive runs down to its fault mode, and the
/// panel needs only to go on.
#[test]
fn the_panel_drives_the_output_into_its_dead_end() {
    let rows = [[0, 0, 0, 0, 0], [0, 0, 1, 0, 0], [0, 0, 2, 0, 0]];
    prints(&game(&["(0)"], &["(1)", "(2)", "()"], &[]), Side::Environment, &rows);
}

/// At the stuck output 1 the lowest move goes before the way out from input 1
/// to 2, and h stays.
#[test]
fn the_lowest_move_goes_before_the_way_out() {
    let source = game(&["(0 1)", "(0 1 2)", "(2)"], &["(0 1)", "()"], &["((2)) (())"]);
    let rows = [[0, 0, 0, 1, 0], [0, 0, 1, 0, 0], [1, 0, 0, 2, 0], [1, 0, 1, 0, 0], [2, 0, 0, 2, 0], [2, 0, 1, 2, 0]];
    prints(&source, Side::Environment, &rows);
}

/// It goes before the tour of {0} and {1} too, and no mode is held.
#[test]
fn the_lowest_move_goes_before_the_tour() {
    let source = game(&["(0 1)", "(0 1)"], &["(0 1)", "()"], &["((0) (1)) (())"]);
    let rows = [
        [0, 0, 0, 0, 1],
        [0, 0, 1, 0, 0],
        [0, 1, 0, 1, 0],
        [0, 1, 1, 0, 1],
        [1, 0, 0, 0, 1],
        [1, 0, 1, 0, 0],
        [1, 1, 0, 1, 0],
        [1, 1, 1, 0, 1],
    ];
    prints(&source, Side::Environment, &rows);
}

/// Input 1 can be asked for again and again. Output 1 answers it once and then
/// latches, so that the requirement cannot be met; without the latch it can.
#[test]
fn a_latch_makes_a_requirement_impossible() {
    let asked = "((1)) ((1))";
    let rows = [[0, 0, 0, 1, 0], [0, 0, 1, 1, 0], [0, 0, 2, 0, 0], [1, 0, 0, 0, 0], [1, 0, 1, 0, 0], [1, 0, 2, 0, 0]];
    prints(&game(&["(0 1)", "(0)"], &["(0 1)", "(2)", "()"], &[asked]), Side::Environment, &rows);
    let rows = [[0, 0, 0, 1, 0], [0, 0, 1, 1, 0], [1, 0, 0, 0, 0], [1, 0, 1, 0, 0]];
    prints(&game(&["(0 1)", "(0)"], &["(0 1)", "(0 2)", "()"], &[asked]), Side::System, &rows);
}

/// A panel that itself latches after it has asked can ask no more than once.
#[test]
fn a_panel_that_latches_asks_once() {
    let source = game(&["(0 1)", "()"], &["(0)"], &["((1)) (())"]);
    prints(&source, Side::System, &[[0, 0, 0, 0, 0], [0, 0, 1, 0, 0]]);
}
