//! What a person meant by a word that is none of the words there are.

/// The word that is nearest to it, where one is near: "flush" for "flsuh".
pub fn nearest<'a>(word: &str, known: impl Iterator<Item = &'a str>) -> Option<&'a str> {
    let lower = word.to_lowercase();
    let near = known.map(|other| (changes(&lower, &other.to_lowercase()), other));
    // a third of the letters may be others, one at least
    let most = (word.chars().count() / 3).max(1);
    near.filter(|(changes, other)| *changes <= most && *changes < other.chars().count()).min().map(|(_, other)| other)
}

/// "; did you mean 'flush'?", or nothing where no word is near.
pub fn hint<'a>(word: &str, known: impl Iterator<Item = &'a str>) -> String {
    nearest(word, known).map_or(String::new(), |other| format!("; did you mean '{other}'?"))
}

/// How many letters must be put in, left out, changed or exchanged with the next one to make one word of the other.
fn changes(from: &str, to: &str) -> usize {
    let (from, to): (Vec<char>, Vec<char>) = (from.chars().collect(), to.chars().collect());
    // row i has for each front of `to` the changes from the first i letters of `from`
    let mut rows: Vec<Vec<usize>> = vec![(0..=to.len()).collect()];
    for i in 1..=from.len() {
        let mut row = vec![i];
        for j in 1..=to.len() {
            let changed = rows[i - 1][j - 1] + usize::from(from[i - 1] != to[j - 1]);
            let mut least = changed.min(rows[i - 1][j] + 1).min(row[j - 1] + 1);
            if i > 1 && j > 1 && from[i - 1] == to[j - 2] && from[i - 2] == to[j - 1] {
                least = least.min(rows[i - 2][j - 2] + 1);
            }
            row.push(least);
        }
        rows.push(row);
    }
    rows[from.len()][to.len()]
}
