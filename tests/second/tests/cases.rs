//! The drives of document 01's section "Drives to try".

use second::game::{Game, State};
use second::{printed, solve, Answer, Refusal};

const EXAMPLE: &str = "\
(game 2 2 1)
(in 0 1 (0 1))
(in 1 0 (0 1))
(out 0 1 (0 1))
(out 1 0 (0 1))
(if ((1)) ((1)))
";

/// One state each with a self-move, and these requirement lines.
fn one_state(requirements: &[&str]) -> String {
    let mut text = format!("(game 1 1 {})\n(in 0 1 (0))\n(out 0 1 (0))\n", requirements.len());
    for line in requirements {
        text += line;
        text += "\n";
    }
    text
}

fn commit(output_moves: &str) -> String {
    format!(
        "(game 4 3 2)\n(in 0 1 (1))\n(in 1 0 (2 3))\n(in 2 0 (2))\n(in 3 0 (3))\n\
         (out 0 1 {output_moves})\n(out 1 0 (1))\n(out 2 0 (2))\n(if ((2)) ((1)))\n(if ((3)) ((2)))\n"
    )
}

#[test]
fn case_1_is_the_example() {
    let print = "\
(wins system)
(start 0 0)
(step 0 0 0 1 0)
(step 0 0 1 1 0)
(step 1 0 0 1 0)
(step 1 0 1 1 0)
";
    assert_eq!(printed(EXAMPLE.as_bytes()), print);
}

#[test]
fn case_2_has_no_requirement() {
    let print = "(wins system)\n(start 0 0)\n(step 0 0 0 0 0)\n";
    assert_eq!(printed(one_state(&[]).as_bytes()), print);
}

#[test]
fn cases_3_and_4_ask_for_an_empty_set() {
    let print = "(wins environment)\n(start 0)\n(step 0 0 0 0 0)\n";
    assert_eq!(printed(one_state(&["(if ((0)) (()))"]).as_bytes()), print);
    assert_eq!(printed(one_state(&["(if () (()))"]).as_bytes()), print);
}

#[test]
fn case_5_is_never_due() {
    let print = "(wins system)\n(start 0 0)\n(step 0 0 0 0 0)\n";
    assert_eq!(printed(one_state(&["(if (()) (()))"]).as_bytes()), print);
}

#[test]
fn case_6_commits_too_early() {
    assert!(printed(commit("(1 2)").as_bytes()).starts_with("(wins environment)\n(start 0)\n"));
}

#[test]
fn case_7_can_wait() {
    assert!(printed(commit("(0 1 2)").as_bytes()).starts_with("(wins system)\n(start 0 0)\n"));
}

#[test]
fn case_8_gives_these_rows() {
    let text = "\
(game 3 3 3)
(in 0 1 (1 2))
(in 1 0 (1))
(in 2 0 (2))
(out 0 1 (1 2))
(out 1 0 (0))
(out 2 0 (2))
(if ((0)) ((0)))
(if ((1)) ((1)))
(if ((2)) ((2)))
";
    let print = printed(text.as_bytes());
    assert!(print.starts_with("(wins system)\n"));
    let rows = ["(step 0 0 1 1 0)", "(step 1 0 1 0 1)", "(step 0 1 1 1 2)", "(step 1 2 1 0 1)", "(step 0 0 2 2 0)"];
    for row in rows {
        assert!(print.lines().any(|line| line == row), "{row}");
    }
}

/// Case 9, as far as a print goes.
#[test]
fn case_9_has_128_states_or_129() {
    let graph = |count: usize| vec![State { initial: true, moves: vec![0] }; count];
    let game = |count: usize| Game { inputs: graph(count), outputs: graph(1), requirements: vec![] };
    assert!(matches!(solve(&game(128)), Answer::System(_)));
    assert_eq!(solve(&game(129)), Answer::Refused(Refusal::Number(1)));
}

#[test]
fn case_10_has_too_little_or_too_much() {
    assert_eq!(printed(b""), "(refused 11 0)\n");
    let longer = format!("{EXAMPLE} ");
    assert_eq!(printed(longer.as_bytes()), format!("(refused 11 {})\n", EXAMPLE.len()));
}
