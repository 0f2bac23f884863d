//! The catalogue program's time on 1,000 files of mixed sizes, beside that of reading them and of solving them in one process. From the root:
//!     tools/prove catalogue nanpuwiq
//!     cargo run --release --offline --manifest-path bench/Cargo.toml --bin catalogue -- target/bin/catalogue
//! Times are the best of a few runs, in milliseconds.
#[allow(dead_code)]
#[path = "../games.rs"]
mod games;

use nanpuwiq::{Game, SCRATCH_MOST};
use std::hint::black_box;
use std::io::Write;
use std::path::PathBuf;
use std::process::{Command, Stdio};
use std::time::Instant;

const FILES: usize = 1000;
const RUNS: usize = 5;
/// The solve program's rooms, in entries: a game that they do not hold is refused, here as there.
const ROOM: usize = 32768;

fn best(mut work: impl FnMut()) -> f64 {
    (0..RUNS)
        .map(|_| {
            let from = Instant::now();
            work();
            from.elapsed().as_secs_f64() * 1e3
        })
        .fold(f64::INFINITY, f64::min)
}

fn main() {
    let program = std::env::args().nth(1).expect("the catalogue program");
    let (mut scratch, mut controller, mut environment) = (vec![0; SCRATCH_MOST], vec![0; ROOM], vec![0; ROOM]);
    let all = games::named("");
    let held = all.iter().filter(|(_, g)| g.solve_into(&mut scratch, &mut controller, &mut environment).is_ok());
    figures("games that the rooms hold", &program, &held.filter_map(|(_, g)| g.write().ok()).collect::<Vec<_>>());
    figures("all games", &program, &all.iter().filter_map(|(_, g)| g.write().ok()).collect::<Vec<_>>());
}

fn figures(label: &str, program: &str, texts: &[Vec<u8>]) {
    let (mut scratch, mut controller, mut environment) = (vec![0; SCRATCH_MOST], vec![0; ROOM], vec![0; ROOM]);
    let folder = std::env::temp_dir().join(format!("catalogue-{}", std::process::id()));
    std::fs::create_dir_all(&folder).expect("a folder for the files");
    let names: Vec<PathBuf> = (0..FILES).map(|k| folder.join(format!("{k}.game"))).collect();
    for (k, name) in names.iter().enumerate() {
        std::fs::write(name, &texts[k % texts.len()]).expect("a file");
    }
    let list: String = names.iter().map(|name| format!("{}\n", name.display())).collect();

    let mut read: Vec<Vec<u8>> = Vec::new();
    let reading = best(|| read = names.iter().map(|name| std::fs::read(name).expect("the file")).collect());
    let games: Vec<Game> = read.iter().map(|text| Game::read(text).expect("an accepted game")).collect();
    let parsing = best(|| {
        for text in &read {
            black_box(Game::read(black_box(text)).is_ok());
        }
    });
    let solving = best(|| {
        for g in &games {
            black_box(g.solve_into(&mut scratch, &mut controller, &mut environment).is_ok());
        }
    });
    let mut map = vec![0; 256];
    let mapping = best(|| {
        for g in &games {
            black_box(g.won_map_into(&mut scratch, &mut map).is_ok());
        }
    });
    let whole = best(|| {
        let mut child = Command::new(program).stdin(Stdio::piped()).stdout(Stdio::null()).spawn().expect("the program");
        child.stdin.take().expect("its input").write_all(list.as_bytes()).expect("the list");
        child.wait().expect("its end");
    });
    std::fs::remove_dir_all(&folder).expect("the folder goes");
    let sum = reading + parsing + solving;
    println!("{label}: {FILES} files, {} bytes", read.iter().map(Vec::len).sum::<usize>());
    println!("reading {reading:.1} ms, their text {parsing:.1} ms, solving {solving:.1} ms: {sum:.1} ms; their maps {mapping:.1} ms");
    println!("catalogue {whole:.1} ms, {:.2} times that; the target is 2", whole / sum);
}
