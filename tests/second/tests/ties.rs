//! The request "Hold the mode on a tie". By document 01's distances a row
//! changes in two situations only: on tour where the present state lies in the
//! aim and has a self-move, and where there is no aim and it has one.

use second::printed;

/// One input that stays, and outputs with these moves, the first initial.
fn controller(moves: &[&str], requirements: &[&str]) -> String {
    text(&["(0)"], moves, requirements)
}

/// One output that stays, and inputs with these moves, the first initial.
fn panel(moves: &[&str], requirements: &[&str]) -> String {
    text(moves, &["(0)"], requirements)
}

fn text(inputs: &[&str], outputs: &[&str], requirements: &[&str]) -> String {
    let mut text = format!("(game {} {} {})\n", inputs.len(), outputs.len(), requirements.len());
    for (word, rows) in [("in", inputs), ("out", outputs)] {
        for (state, moves) in rows.iter().enumerate() {
            text += &format!("({word} {state} {} {moves})\n", usize::from(state == 0));
        }
    }
    requirements.iter().for_each(|line| text += &format!("(if {line})\n"));
    text
}

/// The print with these steps: state, counter and the other side's state, then
/// next state and next counter.
fn prints(text: &str, opening: &str, steps: &[[usize; 5]]) {
    let step = |[a, b, c, next, after]: &[usize; 5]| format!("(step {a} {b} {c} {next} {after})\n");
    assert_eq!(printed(text.as_bytes()), opening.to_string() + &steps.iter().map(step).collect::<String>(), "{text}");
}

const SYSTEM: &str = "(wins system)\n(start 0 0)\n";
const ENVIRONMENT: &str = "(wins environment)\n(start 0)\n";

/// Each state lies in the aim; 2 has no self-move, so the lowest is left.
#[test]
fn the_controller_holds_inside_the_aim() {
    let game = controller(&["(0 1 2)", "(0 1 2)", "(0 1)"], &["((0)) ((0 1 2))"]);
    prints(&game, SYSTEM, &[[0, 0, 0, 0, 0], [1, 0, 0, 1, 0], [2, 0, 0, 0, 0]]);
}

/// A state outside the aim goes there, though it could stay. The counter moves
/// on by holding as by any other move that lands.
#[test]
fn the_controller_holds_inside_the_aim_alone() {
    let game = controller(&["(0 1 2)"; 3], &["((0)) ((0 1) (1 2))"]);
    let rows = [[0, 0, 0, 0, 1], [0, 1, 0, 1, 0], [1, 0, 0, 1, 1], [1, 1, 0, 1, 0], [2, 0, 0, 0, 1], [2, 1, 0, 2, 0]];
    prints(&game, SYSTEM, &rows);
}

/// The shortest way goes before holding, and the lowest is taken where the
/// present state is none of those that tie.
#[test]
fn the_controller_takes_a_shorter_way() {
    let game = controller(&["(0 1 2)", "(1 3)", "(2 3)", "(0)"], &["((0)) ((3))"]);
    prints(&game, SYSTEM, &[[0, 0, 0, 1, 0], [1, 0, 0, 3, 0], [2, 0, 0, 3, 0], [3, 0, 0, 0, 0]]);
}

/// Without output sets, and with one that misses home.
#[test]
fn the_controller_holds_with_no_aim() {
    let game = controller(&["(0 1 2)", "(0 1 2)", "(0 1)"], &[]);
    prints(&game, SYSTEM, &[[0, 0, 0, 0, 0], [1, 0, 0, 1, 0], [2, 0, 0, 0, 0]]);
    let game = controller(&["(1)", "(1 2)", "(1 2)"], &["(()) ((0))"]);
    prints(&game, SYSTEM, &[[0, 0, 0, 1, 0], [1, 0, 0, 1, 0], [2, 0, 0, 2, 0]]);
}

/// Input 1 is not stayable: the lowest move to a won position, whatever the
/// present state.
#[test]
fn the_controller_does_not_hold_in_passing() {
    let game = text(&["(1)", "(2)", "(2)"], &["(0 1)", "(0 1)"], &[]);
    let rows = [[0, 0, 0, 0, 0], [0, 0, 1, 0, 0], [0, 0, 2, 0, 0], [1, 0, 0, 0, 0], [1, 0, 1, 0, 0], [1, 0, 2, 1, 0]];
    prints(&game, SYSTEM, &rows);
}

#[test]
fn the_panel_holds_inside_the_aim() {
    let game = panel(&["(0 1 2)", "(0 1 2)", "(0 1)"], &["((0 1 2)) (())"]);
    prints(&game, ENVIRONMENT, &[[0, 0, 0, 0, 0], [1, 0, 0, 1, 0], [2, 0, 0, 0, 0]]);
}

#[test]
fn the_panel_holds_inside_the_aim_alone() {
    let game = panel(&["(0 1 2)"; 3], &["((0 1) (1 2)) (())"]);
    let rows = [[0, 0, 0, 0, 1], [0, 1, 0, 1, 0], [1, 0, 0, 1, 1], [1, 1, 0, 1, 0], [2, 0, 0, 0, 1], [2, 1, 0, 2, 0]];
    prints(&game, ENVIRONMENT, &rows);
}

/// Without input sets, and with one that misses the component.
#[test]
fn the_panel_holds_with_no_aim() {
    let game = panel(&["(0 1 2)", "(0 1 2)", "(0 1)"], &["() (())"]);
    prints(&game, ENVIRONMENT, &[[0, 0, 0, 0, 0], [1, 0, 0, 1, 0], [2, 0, 0, 0, 0]]);
    let game = panel(&["(1)", "(1 2)", "(1 2)"], &["() (())", "((0)) ()"]);
    prints(&game, ENVIRONMENT, &[[0, 0, 0, 1, 0], [1, 0, 0, 1, 0], [2, 0, 0, 2, 0]]);
}

/// The way out of the component 0, 1, 2 is from 2 to 3, where the requirement
/// breaks: 0 and 1 could stay, and go on; 2 takes the way out.
#[test]
fn the_panel_does_not_hold_on_its_way_out() {
    let game = panel(&["(0 1)", "(0 1 2)", "(0 2 3)", "(3)"], &["((3)) (())"]);
    prints(&game, ENVIRONMENT, &[[0, 0, 0, 1, 0], [1, 0, 0, 2, 0], [2, 0, 0, 3, 0], [3, 0, 0, 3, 0]]);
}
