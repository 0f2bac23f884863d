// Links libnanpuwiq.a, which `tools/prove nanpuwiq` lays out. NANPUWIQ_LIB names another folder that has it.
// The words for the numbers of refusals come from the list that the C header includes, so that there is one list of them.
use std::env;
use std::fs;
use std::path::{Path, PathBuf};
use std::process;

fn main() {
    let here = PathBuf::from(env::var_os("CARGO_MANIFEST_DIR").expect("cargo sets it"));
    link(&here);
    write_words(&here.join("../../include/nanpuwiq_words.h"));
}

fn link(here: &Path) {
    println!("cargo:rerun-if-env-changed=NANPUWIQ_LIB");
    let folder = match env::var_os("NANPUWIQ_LIB") {
        Some(folder) => PathBuf::from(folder),
        None => here.join("../../target/staticlib"),
    };
    let library = folder.join("libnanpuwiq.a");
    println!("cargo:rerun-if-changed={}", library.display());
    if !library.is_file() {
        stop(&format!(
            "{} is missing. `tools/prove nanpuwiq`, at the root of the repository, makes it; \
             or set NANPUWIQ_LIB to a folder that has libnanpuwiq.a.",
            library.display()
        ));
    }
    println!("cargo:rustc-link-search=native={}", folder.display());
    println!("cargo:rustc-link-lib=static=nanpuwiq");
}

// The list as the arms of a match on a number.
fn write_words(list: &Path) {
    println!("cargo:rerun-if-changed={}", list.display());
    let text = match fs::read_to_string(list) {
        Ok(text) => text,
        Err(error) => stop(&format!("{}: {error}", list.display())),
    };
    let mut arms = String::new();
    for line in text.lines().filter(|line| line.starts_with("NANPUWIQ_WORDS(")) {
        match arm(line) {
            Some(arm) => arms.push_str(&arm),
            None => stop(&format!("{}: not of the list's form: {line}", list.display())),
        }
    }
    let out = PathBuf::from(env::var_os("OUT_DIR").expect("cargo sets it")).join("words.rs");
    let code = format!("match number {{\n0 => \"not refused\",\n{arms}_ => \"no number of a refusal\",\n}}\n");
    if let Err(error) = fs::write(&out, code) {
        stop(&format!("{}: {error}", out.display()));
    }
}

// `NANPUWIQ_WORDS(3, "no initial state")` as `3 => "no initial state",`.
fn arm(line: &str) -> Option<String> {
    let (number, words) = line.strip_prefix("NANPUWIQ_WORDS(")?.strip_suffix("\")")?.split_once(", \"")?;
    let plain = number.parse::<u8>().is_ok() && !words.contains(['"', '\\']);
    plain.then(|| format!("{number} => \"{words}\",\n"))
}

fn stop(words: &str) -> ! {
    eprintln!("nanpuwiq: {words}");
    process::exit(1);
}
