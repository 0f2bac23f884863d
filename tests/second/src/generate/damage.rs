//! Damaged texts: numbers 11 and 12 and their places. Some stay well-shaped.

use super::{game, large, Draw, Family};
use crate::text::{write, LONGEST};

/// Bytes that a text has anyway hit more places than bytes that it never has.
const FAMILIAR: &[u8] = b"() \n0123456789gameinoutf";

pub fn damaged(draw: &mut Draw) -> Vec<u8> {
    let family = draw.pick(&[Family::Chain, Family::Copy, Family::Edge, Family::Faulty, Family::Dense]);
    let whole = if draw.chance(2) { large(draw) } else { game(family, draw) };
    let mut text = write(&whole).into_bytes();
    damage(&mut text, draw);
    if draw.chance(20) {
        damage(&mut text, draw);
    }
    text
}

fn damage(text: &mut Vec<u8>, draw: &mut Draw) {
    let place = draw.below(text.len().max(1)).min(text.len());
    match draw.below(18) {
        0..=2 if place < text.len() => text[place] = any_byte(draw),
        3 if place < text.len() => drop(text.remove(place)),
        4 if place < text.len() => text.insert(place, text[place]),
        5 => text.truncate(place),
        6 => drop(text.drain(..place)),
        7 => add_behind(text, draw),
        8 => text.insert(place, any_byte(draw)),
        9 => change_number(text, draw, |old, _| format!("0{old}")),
        10..=12 => change_number(text, draw, |_, draw| draw.below(70).to_string()),
        13 => change_number(text, draw, |_, draw| draw.pick(&["64", "65", "99", "100", "640", "-1", ""]).to_string()),
        // After 63, and after a fourth set, only a closing fits.
        14 => change_number(text, draw, |_, draw| draw.pick(&["63", "62", "62 63", "9 63"]).to_string()),
        15 => add_sets(text, draw),
        16 => move_line(text, draw),
        _ => lengthen(text, draw),
    }
}

fn any_byte(draw: &mut Draw) -> u8 {
    if draw.chance(80) {
        draw.pick(FAMILIAR)
    } else {
        draw.below(256) as u8
    }
}

fn add_behind(text: &mut Vec<u8>, draw: &mut Draw) {
    for _ in 0..1 + draw.below(3) {
        text.push(any_byte(draw));
    }
}

/// One to four sets more, mostly somewhere in the lines of requirements.
fn add_sets(text: &mut Vec<u8>, draw: &mut Draw) {
    let fits = |place: &usize| text[*place..].starts_with(b"(") && text[..*place].ends_with(b"(");
    let places: Vec<usize> = (0..text.len()).filter(fits).collect();
    if !places.is_empty() {
        let place = draw.pick(&places);
        let sets = draw.pick(&["() ", "(0) "]).repeat(1 + draw.below(4));
        text.splice(place..place, sets.into_bytes());
    }
}

/// Puts something else in the place of one of the text's numbers.
fn change_number(text: &mut Vec<u8>, draw: &mut Draw, new: impl Fn(&str, &mut Draw) -> String) {
    let digit = |place: usize| text.get(place).is_some_and(u8::is_ascii_digit);
    let starts: Vec<usize> = (0..text.len()).filter(|&p| digit(p) && (p == 0 || !digit(p - 1))).collect();
    if starts.is_empty() {
        return;
    }
    let start = draw.pick(&starts);
    let end = (start..).find(|&place| !digit(place)).unwrap_or(start);
    let old = String::from_utf8_lossy(&text[start..end]).into_owned();
    text.splice(start..end, new(&old, draw).into_bytes());
}

/// Takes a line out and puts it, or nothing, elsewhere.
fn move_line(text: &mut Vec<u8>, draw: &mut Draw) {
    let mut lines: Vec<Vec<u8>> = text.split_inclusive(|&byte| byte == b'\n').map(<[u8]>::to_vec).collect();
    if lines.is_empty() {
        return;
    }
    let line = lines.remove(draw.below(lines.len()));
    if draw.chance(70) {
        lines.insert(draw.below(lines.len() + 1), line);
    }
    *text = lines.concat();
}

/// About as long as a text may be at most, and a little or much longer.
fn lengthen(text: &mut Vec<u8>, draw: &mut Draw) {
    let length = LONGEST - 2 + draw.below(5) + draw.pick(&[0, 0, 0, 9_000]);
    let filler = draw.pick(b" \n0)");
    text.resize(length.max(text.len()), filler);
}
