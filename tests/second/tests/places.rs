//! Number 11's place: the length of the longest front that begins some
//! well-shaped file. And the order of the numbers, of which 4 does not occur.

use second::printed;

/// The front fits, what comes behind it does not.
fn stops_after(front: &str, behind: &str) {
    let text = format!("{front}{behind}");
    assert_eq!(printed(text.as_bytes()), format!("(refused 11 {})\n", front.len()), "{text}");
}

#[test]
fn the_first_line() {
    stops_after("", "x");
    stops_after("(game ", "0 1 0)");
    stops_after("(game ", "01 1 0)");
    stops_after("(game 12", "9 1 0)");
    stops_after("(game 13", "0 1 0)");
    stops_after("(game 1 ", " 1 0)");
    stops_after("(game 1 1 ", "9)");
    stops_after("(game 1 1 0", "0)");
    stops_after("(game 1 1 0)", "\r\n");
}

#[test]
fn the_lines_of_states() {
    let head = "(game 1 1 0)\n";
    stops_after(&format!("{head}(in "), "1 1 (0))");
    stops_after(&format!("{head}(in 0 "), "2 (0))");
    stops_after(&format!("{head}(in 0 1 (0))\n("), "in 1 0 (0))");
    stops_after(&format!("{head}(in 0 1 (0))\n(out 0 1 (0))\n"), "\n");
    stops_after(&format!("{head}(in 0 1 (0))\n(out 0 1 (0))"), "");
}

#[test]
fn the_numbers_of_a_set() {
    let head = "(game 1 1 0)\n(in 0 1 (";
    stops_after(&format!("{head}12"), "8))");
    stops_after(&format!("{head}0"), "0))");
    // 3 still begins a number over 5, but is none itself.
    stops_after(&format!("{head}5 3"), "))");
    stops_after(&format!("{head}5 "), "0))");
    stops_after(&format!("{head}5 5"), "))");
    stops_after(&format!("{head}50 "), "4))");
    stops_after(&format!("{head}62 6"), "2))");
    // 1 begins 100 to 127.
    stops_after(&format!("{head}50 1"), "))");
    stops_after(&format!("{head}126 12"), "6))");
    // Nothing comes after 127.
    stops_after(&format!("{head}127"), " ");
    stops_after(&format!("{head}13"), "0))");
    stops_after(head, " 0))");
    stops_after(&format!("{head}0 "), "))");
}

#[test]
fn the_lists_of_sets() {
    let head = "(game 1 1 1)\n(in 0 1 (0))\n(out 0 1 (0))\n(if ";
    stops_after(&format!("{head}(() () () ()"), " ()) ())");
    stops_after(&format!("{head}(()"), "()) ())");
    stops_after(&format!("{head}("), "0) ())");
    stops_after(&format!("{head}() ()"), " ())");
}

#[test]
fn a_long_text_gets_12_before_its_shape_is_looked_at() {
    assert_eq!(printed(&vec![b'x'; 40_960]), "(refused 11 0)\n");
    assert_eq!(printed(&vec![b'x'; 40_961]), "(refused 12)\n");
}

#[test]
fn the_lowest_number_is_given() {
    let text = |initial: usize, input_moves: &str, output_moves: &str, set: &str| {
        format!("(game 1 1 1)\n(in 0 {initial} {input_moves})\n(out 0 1 {output_moves})\n(if ({set}) ())\n")
    };
    let number = |text: String| printed(text.as_bytes());
    assert_eq!(number(text(0, "()", "(1)", "(1)")), "(refused 2)\n");
    assert_eq!(number(text(0, "()", "(0)", "(1)")), "(refused 3)\n");
    // Dead ends are no fault: 4 does not occur.
    assert_eq!(number(text(1, "()", "()", "(1)")), "(refused 7)\n");
    assert_eq!(number(text(1, "(0)", "(0)", "(1)")), "(refused 7)\n");
    assert_eq!(number(text(1, "()", "()", "(0)")), "(wins system)\n(start 0 0)\n");
}

/// 64 states each take 7 sets a side; 9 and 10 are tried whoever wins.
#[test]
fn rooms_can_be_too_short() {
    let number = |inputs: usize, outputs: usize| {
        let mut text = "(game 64 64 2)\n".to_string();
        for word in ["in", "out"] {
            (0..64).for_each(|s| text += &format!("({word} {s} 1 ({s}))\n"));
        }
        for (inputs, outputs) in [(inputs.min(4), outputs.min(4)), (inputs - inputs.min(4), outputs - outputs.min(4))] {
            text += &format!("(if ({}) ({}))\n", vec!["()"; inputs].join(" "), vec!["()"; outputs].join(" "));
        }
        printed(text.as_bytes()).lines().next().unwrap_or("").to_string()
    };
    assert_eq!(number(7, 7), "(wins system)");
    assert_eq!(number(7, 8), "(refused 9)");
    assert_eq!(number(8, 7), "(refused 10)");
    assert_eq!(number(8, 8), "(refused 9)");
}
