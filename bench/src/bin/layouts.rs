//! The compact layout beside the full one, in one run: how long the tables are, what an entry costs to write, and what moving costs beside a plain copy.
//! The examples' games come first, then the benchmark's that the system wins.
//!
//!     cargo run --release --offline --manifest-path bench/Cargo.toml --bin layouts
#[path = "../games.rs"]
#[allow(dead_code)] // the game with the longest text
mod games;
#[path = "../measure.rs"]
#[allow(dead_code)] // the loops that a table's time is compared with
mod measure;

use measure::best;
use nanpuwiq::{Game, Winner, COMPACT_MOST, CONTROLLER_MOST, ENVIRONMENT_MOST, SCRATCH_MOST};
use std::hint::black_box;

const EXAMPLES: &str = concat!(env!("CARGO_MANIFEST_DIR"), "/../examples");

/// The games of the examples, by name.
fn examples() -> Vec<(String, Game)> {
    let files = std::fs::read_dir(EXAMPLES).expect("the examples");
    let mut paths: Vec<_> = files.map(|file| file.expect("an example").path()).collect();
    paths.retain(|path| path.extension().is_some_and(|end| end == "game"));
    paths.sort();
    let name = |path: &std::path::Path| path.file_name().expect("a name").to_string_lossy().into_owned();
    let read = |path: &std::path::Path| Game::read(&std::fs::read(path).expect("a file")).expect("a game");
    paths.iter().map(|path| (name(path), read(path))).collect()
}

/// A plain copy of as many entries as the longer layout has.
#[inline(never)]
fn copy(from: &[u16], to: &mut [u16]) {
    to[..from.len()].copy_from_slice(from);
}

fn main() {
    let named = games::named("");
    println!("{:<44} {:>8} {:>8} | {:>9} {:>9} | {:>9} {:>9} {:>9}", "game", "full", "compact", "full", "compact", "over", "back", "copy");
    println!("{:<44} {:>8} {:>8} | {:>19} | {:>29}", "", "entries", "entries", "solved, us", "moved, us");
    let (mut full, mut compact) = (vec![0; CONTROLLER_MOST], vec![0; COMPACT_MOST]);
    let (mut panel, mut scratch) = (vec![0; ENVIRONMENT_MOST], [0; SCRATCH_MOST]);
    let mut room = vec![0; COMPACT_MOST];
    for (name, game) in examples().into_iter().chain(named) {
        let (winner, long) = game.solve_into(&mut scratch, &mut full, &mut panel).expect("a game");
        if winner == Winner::Environment {
            continue;
        }
        let (_, short) = game.solve_compact_into(&mut scratch, &mut compact, &mut panel).expect("a game");
        let (table, moved) = (full[..long].to_vec(), compact[..short].to_vec());
        assert_eq!((game.to_compact(&table), game.to_full(&moved)), (Ok(moved.clone()), Ok(table.clone())));
        let micros = |call: &mut dyn FnMut()| 1e6 * best(call);
        let times = [
            micros(&mut || { let _ = black_box(game.solve_into(black_box(&mut scratch), black_box(&mut full), &mut panel)); }),
            micros(&mut || { let _ = black_box(game.solve_compact_into(black_box(&mut scratch), black_box(&mut compact), &mut panel)); }),
            micros(&mut || { let _ = black_box(game.to_compact_into(black_box(&table), black_box(&mut room))); }),
            micros(&mut || { let _ = black_box(game.to_full_into(black_box(&moved), black_box(&mut room))); }),
            micros(&mut || copy(black_box(&table), black_box(&mut room))),
        ];
        let [a, b, c, d, e] = times.map(|time| format!("{time:.2}"));
        println!("{name:<44} {long:>8} {short:>8} | {a:>9} {b:>9} | {c:>9} {d:>9} {e:>9}");
    }
}
