//! The families do what they are for: accepted games, both verdicts often,
//! dead ends often on both sides, and panels that pass, leave and tour.

use second::compare::{controller_ways, dead_ends, panel_ways, text_of};
use second::generate::{Family, SMALL};
use second::{printed, text, walks};

const MEMBERS: u64 = 120;

fn prints(family: Family) -> Vec<(Vec<u8>, String)> {
    let texts = (0..MEMBERS).map(|index| text_of(7, family, index));
    texts.map(|text| (text.clone(), printed(&text))).collect()
}

fn share(prints: &[(Vec<u8>, String)], front: &str) -> usize {
    100 * prints.iter().filter(|(_, print)| print.starts_with(front)).count() / prints.len()
}

#[test]
fn both_verdicts_occur_often_in_each_family() {
    for (family, _) in SMALL {
        let prints = prints(family);
        let (system, environment) = (share(&prints, "(wins system)"), share(&prints, "(wins environment)"));
        assert!(system >= 20 && environment >= 20, "{family:?}: {system}% and {environment}%");
        assert_eq!(share(&prints, "(refused"), 0, "{family:?}");
    }
}

#[test]
fn every_table_wins_by_walks() {
    for (family, _) in SMALL {
        for (bytes, print) in prints(family) {
            let game = text::read(&bytes).expect("a well-shaped text");
            walks::check(&game, &print).unwrap_or_else(|why| panic!("{family:?}: {why}\n{}", text::write(&game)));
        }
    }
}

#[test]
fn faulty_games_are_refused_with_each_number() {
    let prints = prints(Family::Faulty);
    for number in [2, 3, 7] {
        assert!(share(&prints, &format!("(refused {number})")) >= 3, "{number}");
    }
    assert_eq!(share(&prints, "(refused"), 100);
}

#[test]
fn panels_pass_leave_and_tour() {
    for family in [Family::Tree, Family::Lone, Family::Copy, Family::Sparse] {
        let mut sums = [0; 4];
        for (bytes, print) in prints(family).iter().filter(|(_, print)| print.starts_with("(wins environment)")) {
            let game = text::read(bytes).expect("a well-shaped text");
            let ways = panel_ways(&game, print);
            (0..4).for_each(|n| sums[n] += ways[n]);
        }
        assert!(sums.iter().all(|&sum| sum >= 3), "{family:?}: {sums:?}");
    }
}

/// Stuck inputs alone, stuck outputs alone, both, none: each with either
/// winner. And in many games a play comes to its end.
#[test]
fn both_sides_win_with_dead_ends_and_without() {
    for (family, _) in SMALL {
        let mut games = [[0; 4]; 2];
        let mut ends = [0; 2];
        for (bytes, print) in prints(family) {
            let game = text::read(&bytes).expect("a well-shaped text");
            let environment = usize::from(print.starts_with("(wins environment)"));
            let [inputs, outputs, both] = dead_ends(&game);
            games[environment][inputs + 2 * outputs + 3 * both] += 1;
            let ways = if environment == 1 { panel_ways(&game, &print) } else { controller_ways(&game, &print) };
            ends[environment] += ways[3];
        }
        assert!(games.iter().flatten().all(|&count| count >= 3), "{family:?}: {games:?}");
        assert!(ends.iter().all(|&count| count >= 10), "{family:?}: {ends:?}");
    }
}

#[test]
fn the_same_seed_makes_the_same_text() {
    assert_eq!(text_of(3, Family::Damaged, 9), text_of(3, Family::Damaged, 9));
    assert_ne!(text_of(3, Family::Dense, 9), text_of(4, Family::Dense, 9));
}

#[test]
fn reading_gives_back_what_was_written() {
    for (family, _) in SMALL {
        let bytes = text_of(11, family, 0);
        let game = text::read(&bytes).expect("a well-shaped text");
        assert_eq!(text::write(&game).into_bytes(), bytes);
    }
}
