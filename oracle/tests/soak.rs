//! The long run: a right library lasts, and a wrong one ends it with a file that is as small as can be.
#![cfg(original)]

mod stand_in;

use std::time::{Duration, Instant};

use oracle::entry::Library;
use oracle::generate;
use oracle::program::decode;
use oracle::random::Random;
use oracle::reader::check;
use oracle::shrink::shrink;
use oracle::soak::{self, Found};

fn found_with(library: Library) -> Box<Found> {
    soak::run(&library, Duration::from_secs(60), 5).expect_err("the library is wrong")
}

fn later() -> Instant {
    Instant::now() + Duration::from_secs(60)
}

#[test]
fn a_right_library_lasts() {
    let totals = soak::run(&stand_in::library(), Duration::from_millis(300), 5).expect("both sides are the same");
    assert!(totals.files >= 3 && totals.unanswered == 0, "{totals}");
}

/// A storage of the wrong kind, and what a file must have around it: header, function and end.
#[test]
fn a_wrong_placer_is_shown_on_the_smallest_file() {
    let found = found_with(Library {
        place: Some(|file, units, live, graph, copies, result| {
            match stand_in::place(file, units, live, graph, copies, result) {
                answer if answer >> 32 == 11 => answer + 1,
                answer => answer,
            }
        }),
        ..stand_in::library()
    });
    assert_eq!(found.smallest.file.len(), 7 + 16 + 2 + 1, "{found}");
    assert!(found.smallest.call.starts_with("place_file"), "{found}");
    assert!(found.to_string().contains("bytes\nfile of 26 bytes: 00"), "{found}");
}

/// A lane that is live needs a block, and an ABI record or an operand.
#[test]
fn a_wrong_analysis_is_shown_on_the_smallest_file() {
    let found = found_with(Library {
        live: Some(|file, number, units, live| {
            let passes = stand_in::live(file, number, units, live);
            if passes >> 32 == 0 {
                live[..1_024].fill(0);
            }
            passes
        }),
        ..stand_in::library()
    });
    assert!(found.smallest.call.starts_with("live_of"), "{found}");
    assert!(found.smallest.file.len() <= 60, "{found}");
}

#[test]
fn a_wrong_checker_is_shown_on_the_smallest_file() {
    let found = found_with(Library {
        check: Some(|file, units| match stand_in::check_file(file, units) {
            answer if answer >> 32 == 3 => answer + 1,
            answer => answer,
        }),
        ..stand_in::library()
    });
    let repeated = 7 + 2 * 16;
    assert!(found.smallest.file.len() <= repeated, "{found}");
}

#[test]
fn what_is_needed_stays() {
    for seed in 0..20 {
        let file = generate::small_realistic(&mut Random::new(seed)).bytes();
        let has_call = |file: &[u8]| {
            let functions = |file| decode(file).functions;
            check(file).is_ok()
                && functions(file)
                    .iter()
                    .flat_map(|one| one.steps())
                    .any(|step| step.op == 27)
        };
        if has_call(&file) {
            let smaller = shrink(&file, later(), has_call);
            // Header, function, block, call, terminator and end; a jump has a target besides.
            assert!(
                smaller.len() <= 7 + 2 + 3 + 4 + 4 + 3 + 1,
                "seed {seed}: {} bytes",
                smaller.len()
            );
        }
    }
}

#[test]
fn any_bytes_can_be_shrunk() {
    let has_two = |file: &[u8]| file.iter().filter(|byte| **byte == 77).count() >= 2;
    let file: Vec<u8> = (0..=255).chain(0..=255).collect();
    let smaller = shrink(&file, later(), has_two);
    assert!(has_two(&smaller) && smaller.len() < 40, "{smaller:?}");
    assert_eq!(shrink(&[], later(), |_| true), []);
}

#[test]
fn a_deadline_ends_the_search() {
    let file = generate::small_realistic(&mut Random::new(1)).bytes();
    assert_eq!(shrink(&file, Instant::now(), |_| true), file);
}
