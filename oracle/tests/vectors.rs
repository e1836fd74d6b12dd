//! The reader against the stored vectors, where they are at hand.

use std::fs;
use std::path::{Path, PathBuf};

use oracle::explain::explain;
use oracle::reader::check;

fn vectors() -> Vec<PathBuf> {
    let folder = Path::new(env!("CARGO_MANIFEST_DIR")).join("../../shared/vectors");
    let Ok(entries) = fs::read_dir(folder) else {
        println!("no stored vectors here: nothing compared");
        return Vec::new();
    };
    let mut files: Vec<PathBuf> = entries
        .filter_map(|entry| entry.ok().map(|entry| entry.path()))
        .filter(|path| path.extension().is_some_and(|extension| extension == "bin"))
        .collect();
    files.sort();
    files
}

/// The lines of a stored answer that check alone decides.
fn check_lines(answer: &str) -> String {
    answer
        .lines()
        .filter(|line| {
            ["units ", "unit ", "refused "]
                .iter()
                .any(|start| line.starts_with(start))
        })
        .map(|line| format!("{line}\n"))
        .collect()
}

#[test]
fn reader_gives_the_stored_answers() {
    let files = vectors();
    for path in &files {
        let file = fs::read(path).expect("a vector can be read");
        let answer = fs::read_to_string(path.with_extension("txt")).expect("a vector has its answer");
        assert_eq!(explain(&file), check_lines(&answer), "{}", path.display());
    }
    println!("{} stored vectors agree", files.len());
}

#[test]
fn decoded_units_appear_as_checked() {
    for path in vectors() {
        let file = fs::read(path).expect("a vector can be read");
        if let Ok(units) = check(&file) {
            assert_eq!(oracle::program::decode(&file).unit_words(), units);
        }
    }
}
