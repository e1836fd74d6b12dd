//! The commands of the oracle.

#[cfg(original)]
use std::path::Path;
use std::process::ExitCode;
#[cfg(original)]
use std::time::Duration;
use std::time::{SystemTime, UNIX_EPOCH};
use std::{env, fs};

use oracle::entry::{Library, Placer};
use oracle::{bench, compare, explain, stats};

const USAGE: &str = "oracle check-compare [--files N] [--seed S]     compare the proved checker with the reader
oracle analysis-compare [--files N] [--seed S]  compare the proved analysis with the original
oracle place-compare [--files N] [--seed S]     compare the proved placer with the original
oracle soak SECONDS [SEED]                      run all comparisons for that long; from the clock where no seed is given
oracle bench [--seed S]                         time both, in nanoseconds per file
oracle stats [--files N] [--seed S]             count what the generated files reach
oracle write DIR N SEED                         write short files with the reader's and the original's answers
oracle explain FILE                             print the answer for one file, units only
oracle explain-whole FILE                       the same with the original's analysis and placement";

const NO_LIBRARY: &str = "built without the proved library: set ENTRY_LIB and build again";
#[cfg(not(original))]
const NO_ORIGINAL: &str = "built without the original: set WATERBEAR_SRC and build again";

/// The files of a comparison where no number is given; of those for the analysis and for the placer more than 20,000 are
/// accepted.
const CHECK_FILES: u64 = 20_000;
const ANALYSIS_FILES: u64 = 25_000;
const PLACE_FILES: u64 = 25_000;

fn main() -> ExitCode {
    let words: Vec<String> = env::args().skip(1).collect();
    let words: Vec<&str> = words.iter().map(String::as_str).collect();
    let outcome = match words.as_slice() {
        ["check-compare", rest @ ..] => options(rest, CHECK_FILES).and_then(check_compare),
        ["analysis-compare", rest @ ..] => options(rest, ANALYSIS_FILES).and_then(analysis_compare),
        ["place-compare", rest @ ..] => options(rest, PLACE_FILES).and_then(place_compare),
        ["soak", seconds] => soak(seconds, clock_seed()),
        ["soak", seconds, seed] => parse(seed).and_then(|seed| soak(seconds, seed)),
        ["bench", rest @ ..] => options(rest, 0).map(|(_, seed)| bench::run(&Library::linked(), seed)),
        ["stats", rest @ ..] => options(rest, CHECK_FILES).map(print_stats),
        ["write", folder, files, seed] => write(folder, files, seed),
        ["explain", file] => read(file).map(|bytes| print!("{}", explain::explain(&bytes))),
        ["explain-whole", file] => read(file).and_then(|bytes| explain_whole(&bytes)),
        _ => Err(USAGE.into()),
    };
    match outcome {
        Ok(()) => ExitCode::SUCCESS,
        Err(message) => {
            eprintln!("{message}");
            ExitCode::FAILURE
        }
    }
}

/// The number of files and the seed.
fn options(words: &[&str], files: u64) -> Result<(u64, u64), String> {
    let (mut files, mut seed) = (files, 1);
    for pair in words.chunks(2) {
        match pair {
            ["--files", number] => files = parse(number)?,
            ["--seed", number] => seed = parse(number)?,
            _ => return Err(USAGE.into()),
        }
    }
    Ok((files, seed))
}

fn parse(word: &str) -> Result<u64, String> {
    word.parse().map_err(|_| format!("not a number: {word}"))
}

fn print_stats((files, seed): (u64, u64)) {
    print!("{}", stats::collect(files, seed));
    #[cfg(original)]
    print!("{}", stats::placement::collect(files, seed));
}

fn check_compare((files, seed): (u64, u64)) -> Result<(), String> {
    let checker = Library::linked().check.ok_or(NO_LIBRARY)?;
    let compared = compare::compare_shortest(checker)
        .and_then(|shortest| compare::compare_generated(checker, files, seed).map(|made| shortest + made));
    let count = compared.map_err(|difference| difference.to_string())?;
    println!("compared {count} files, 0 differences");
    Ok(())
}

/// What cannot be compared is named, and is no difference.
fn analysis_compare((files, seed): (u64, u64)) -> Result<(), String> {
    let library = Library::linked();
    library.check.ok_or(NO_LIBRARY)?;
    let missing = library.missing();
    if !missing.is_empty() {
        say_missing(&missing.join(" "));
    }
    if missing.len() == Library::ANALYSIS_FUNCTIONS {
        return Ok(());
    }
    compare_with_original(&library, files, seed)
}

#[cfg(original)]
fn compare_with_original(library: &Library, files: u64, seed: u64) -> Result<(), String> {
    let totals =
        oracle::analysis::compare_generated(library, files, seed).map_err(|difference| difference.to_string())?;
    if totals.unanswered > 0 {
        println!("left out {} files that the original does not answer", totals.unanswered);
    }
    println!(
        "analysed {} files ({} accepted), 0 differences",
        totals.files, totals.accepted
    );
    Ok(())
}

#[cfg(not(original))]
fn compare_with_original(_library: &Library, _files: u64, _seed: u64) -> Result<(), String> {
    println!("{NO_ORIGINAL}; the analysis was not compared");
    Ok(())
}

fn say_missing(functions: &str) {
    println!("not in the library, so not compared: {functions}");
}

/// The same for the placer.
fn place_compare((files, seed): (u64, u64)) -> Result<(), String> {
    let library = Library::linked();
    library.check.ok_or(NO_LIBRARY)?;
    match library.place {
        Some(placer) => compare_placer(placer, files, seed),
        None => {
            say_missing("place_file");
            Ok(())
        }
    }
}

#[cfg(original)]
fn compare_placer(placer: Placer, files: u64, seed: u64) -> Result<(), String> {
    let totals = oracle::place::compare_generated(placer, files, seed).map_err(|difference| difference.to_string())?;
    println!("{totals}, 0 differences");
    Ok(())
}

#[cfg(not(original))]
fn compare_placer(_placer: Placer, _files: u64, _seed: u64) -> Result<(), String> {
    println!("{NO_ORIGINAL}; the placer was not compared");
    Ok(())
}

/// A seed that differs from run to run.
fn clock_seed() -> u64 {
    let now = SystemTime::now().duration_since(UNIX_EPOCH);
    now.map_or(1, |since| since.as_secs())
}

#[cfg(original)]
fn soak(seconds: &str, seed: u64) -> Result<(), String> {
    let library = Library::linked();
    library.check.ok_or(NO_LIBRARY)?;
    let mut missing = library.missing();
    missing.extend(library.place.is_none().then_some("place_file"));
    if !missing.is_empty() {
        say_missing(&missing.join(" "));
    }
    println!("from seed {seed}");
    let time = Duration::from_secs(parse(seconds)?);
    let totals = oracle::soak::run(&library, time, seed).map_err(|found| found.to_string())?;
    println!("{totals}, 0 differences");
    Ok(())
}

#[cfg(not(original))]
fn soak(_seconds: &str, _seed: u64) -> Result<(), String> {
    Err(NO_ORIGINAL.into())
}

#[cfg(original)]
fn write(folder: &str, files: &str, seed: &str) -> Result<(), String> {
    let (files, seed) = (parse(files)?, parse(seed)?);
    let folder = Path::new(folder);
    fs::create_dir_all(folder).map_err(|error| error.to_string())?;
    for index in 0..files {
        let file = oracle::original::ease::eased_sample(seed, index);
        let text = oracle::original::text::explain_whole(&file);
        let name = folder.join(format!("{index:05}"));
        fs::write(name.with_extension("txt"), text).map_err(|error| error.to_string())?;
        fs::write(name.with_extension("bin"), file).map_err(|error| error.to_string())?;
    }
    Ok(())
}

#[cfg(not(original))]
fn write(_folder: &str, _files: &str, _seed: &str) -> Result<(), String> {
    Err(NO_ORIGINAL.into())
}

fn read(path: &str) -> Result<Vec<u8>, String> {
    fs::read(path).map_err(|error| format!("{path}: {error}"))
}

#[cfg(original)]
fn explain_whole(file: &[u8]) -> Result<(), String> {
    print!("{}", oracle::original::text::explain_whole(file));
    Ok(())
}

#[cfg(not(original))]
fn explain_whole(_file: &[u8]) -> Result<(), String> {
    Err(NO_ORIGINAL.into())
}
