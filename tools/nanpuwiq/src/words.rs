//! Numbers for people.

/// States that a sentence lists at most: a component of a station has 77.
pub const LISTED_MOST: usize = 8;

/// "1 entry", "2 entries", "32,768 entries".
pub fn count(number: usize, one: &str, more: &str) -> String {
    format!("{} {}", grouped(number), if number == 1 { one } else { more })
}

/// Digits in groups of three.
pub fn grouped(number: usize) -> String {
    let digits = number.to_string();
    let mut text = String::new();
    for (place, digit) in digits.chars().enumerate() {
        if place > 0 && (digits.len() - place).is_multiple_of(3) {
            text.push(',');
        }
        text.push(digit);
    }
    text
}

/// "there are 3 inputs, numbered from 0 to 2"
pub fn counted(count: usize, side: &str) -> String {
    match count {
        1 => format!("there is one {side}, number 0"),
        _ => format!("there are {count} {side}s, numbered from 0 to {}", count - 1),
    }
}

/// A number that was given, where it is one that is worth showing: a longer one than any count is not.
pub fn shown(number: usize) -> String {
    match number {
        usize::MAX => "with so many digits".to_string(),
        _ => number.to_string(),
    }
}

/// "0 pump, 2 flush"; of many the first ones, "and 69 more".
pub fn listed(states: Vec<String>) -> String {
    match states.len().checked_sub(LISTED_MOST) {
        Some(more @ 1..) => format!("{} and {more} more", states[..LISTED_MOST].join(", ")),
        _ => states.join(", "),
    }
}
