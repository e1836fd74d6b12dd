//! The comparison of the placer: a right one passes, each kind of wrong one is caught, and the files reach every refusal.
#![cfg(original)]

mod stand_in;

use std::fs;
use std::path::Path;

use oracle::call::{Call, Function, Lending};
use oracle::difference::packed;
use oracle::draft::{Draft, StorageForm};
use oracle::entry::Placer;
use oracle::generate::{self, crowded, limits, Shape};
use oracle::original::answers::Judged;
use oracle::original::ease::eased;
use oracle::original::text::explain_whole;
use oracle::original::Original;
use oracle::place::{compare_generated, compare_judged, expected, PLACE_REFUSALS};
use oracle::program::decode;
use oracle::random::Random;
use oracle::reader::check;
use oracle::records::*;
use oracle::stats::placement;
use oracle::triples::TRIPLES;

const FILES: u64 = 400;

#[test]
fn a_right_placer_passes() {
    let placer = stand_in::library().place.expect("the stand-in has all functions");
    let totals = compare_generated(placer, FILES, 3).expect("both sides are the same");
    assert_eq!((totals.files, totals.unanswered), (FILES, 0));
    assert!(totals.accepted() * 100 >= FILES * 85, "{totals}");
}

#[test]
fn every_refusal_and_every_place_is_met_often() {
    let stats = placement::collect(4_000, 1);
    let totals = &stats.totals;
    for number in PLACE_REFUSALS {
        let met = totals.refusals(number);
        assert!(met >= 60, "refusal {number} is met only {met} times");
    }
    for number in 2..=5 {
        assert!(totals.refusals(number) >= 5, "{totals}");
    }
    assert!(totals.placed >= 1_500, "{totals}");
    for part in [
        "application RAM full",
        "work RAM full",
        "owned by the program",
        "owned by a function without a record",
    ] {
        assert!(stats.parts.get(part).is_some_and(|count| *count >= 100), "{part}");
    }
    let found = |code: u8| format!("code {code:2} found");
    let fixed = |code: u8| format!("code {code:2} fixed");
    let met = |name: String| stats.parts.keys().any(|part| part.starts_with(&name));
    assert!([2, 3, 4, 5, 6, 7, 10, 11].into_iter().all(|code| met(found(code))));
    assert!((1..=12).all(|code| met(fixed(code))));
}

/// Full bytes stand in for missing ones: where the original is built for the sizes, both ways give the same.
#[test]
fn the_largest_sizes_answer_for_all_others() {
    let (mut placed, mut refused) = (0, 0);
    for index in 0..3_000 {
        let (_, file) = generate::place_file(5, index);
        if check(&file).is_err() || file.len() > 3_000 {
            continue;
        }
        let program = decode(&file);
        let sizes = program.header;
        if TRIPLES.contains(&(sizes.application, sizes.first, sizes.work)) {
            let original = Original::new(&program);
            let direct = original.place(&program);
            assert_eq!(direct, original.place_in_largest(&program), "file {index}");
            placed += usize::from(direct.is_ok());
            refused += usize::from(direct.is_err());
        }
    }
    assert!(placed >= 200 && refused >= 200, "placed {placed}, refused {refused}");
}

#[test]
fn eased_files_are_placed_whole() {
    for seed in 0..200 {
        let file = crowded::crowded_file(&mut Random::new(seed)).bytes();
        let program = decode(&eased(&file));
        assert_eq!(program.storages.len(), decode(&file).storages.len());
        assert!(Original::new(&program).place(&program).is_ok(), "seed {seed}");
    }
}

/// Some file of a short run tells the placer from a right one.
fn is_caught(placer: Placer) -> bool {
    compare_generated(placer, 60, 3).is_err()
}

#[test]
fn wrong_answers_are_caught() {
    for changed in [0, 9, 18] {
        let placer: Placer = match changed {
            0 => {
                |file, units, live, graph, copies, result| stand_in::place(file, units, live, graph, copies, result) ^ 1
            }
            9 => |file, units, live, graph, copies, result| {
                stand_in::place(file, units, live, graph, copies, result) ^ 1 << 9
            },
            _ => |file, units, live, graph, copies, result| {
                stand_in::place(file, units, live, graph, copies, result) ^ 1 << 18
            },
        };
        assert!(is_caught(placer), "bit {changed}");
    }
    assert!(is_caught(|file, units, live, graph, copies, result| {
        match stand_in::place(file, units, live, graph, copies, result) {
            answer if answer >> 32 == 8 => answer + (1 << 32),
            answer => answer,
        }
    }));
}

#[test]
fn wrong_bytes_and_words_are_caught() {
    assert!(is_caught(|file, units, live, graph, copies, result| {
        let answer = stand_in::place(file, units, live, graph, copies, result);
        if answer >> 32 == 0 {
            result[5] ^= 1;
        }
        answer
    }));
    assert!(is_caught(|file, units, live, graph, copies, result| {
        let answer = stand_in::place(file, units, live, graph, copies, result);
        if answer >> 32 == 0 {
            copies[..GRAPH_WORDS].fill(0);
        }
        answer
    }));
    assert!(is_caught(|file, units, live, graph, copies, result| {
        let answer = stand_in::place(file, units, live, graph, copies, result);
        if answer >> 32 == 0 {
            live[..LIVE_WORDS].fill(0);
        }
        answer
    }));
}

#[test]
fn bytes_that_must_stay_are_watched() {
    assert!(is_caught(|file, units, live, graph, copies, result| {
        let answer = stand_in::place(file, units, live, graph, copies, result);
        if answer >> 32 >= 8 {
            result[0] = PLACE;
        }
        answer
    }));
    assert!(is_caught(|file, units, live, graph, copies, result| {
        if let Some(byte) = result.get_mut(RESULT_BYTES) {
            *byte = 0;
        }
        stand_in::place(file, units, live, graph, copies, result)
    }));
    assert!(is_caught(|file, units, live, graph, copies, result| {
        let answer = stand_in::place(file, units, live, graph, copies, result);
        if answer >> 32 == 10 {
            graph[0] = 1;
        }
        answer
    }));
    assert!(is_caught(|file, units, live, graph, copies, result| {
        if copies.len() < GRAPH_WORDS {
            result[0] = 0;
        }
        stand_in::place(file, units, live, graph, copies, result)
    }));
}

/// A file with these storages and one function without blocks.
fn with_storages(sizes: (u16, u16, u16), forms: &[StorageForm]) -> Vec<u8> {
    let mut draft = Draft::default();
    draft.header(sizes.0, sizes.1, sizes.2);
    forms.iter().for_each(|form| draft.storage(*form));
    draft.function(0);
    draft.end();
    draft.bytes()
}

/// The lines of the answer that placing gives.
fn place_lines(sizes: (u16, u16, u16), forms: &[StorageForm]) -> Vec<String> {
    let text = explain_whole(&with_storages(sizes, forms));
    let lines = text.lines().filter(|line| line.starts_with("place"));
    lines.map(str::to_string).collect()
}

fn form(id: u16, kind: u8, regions: u16) -> StorageForm {
    StorageForm {
        kind,
        regions,
        ..limits::byte_form(id, 0)
    }
}

#[test]
fn described_cases_are_placed_as_described() {
    let direct = |regions| StorageForm {
        direct: 1,
        ..form(7, KIND_BYTE, regions)
    };
    assert_eq!(place_lines((4, 4, 8), &[direct(0x04)]), ["place refused 8 1"]);
    assert_eq!(
        place_lines((4, 4, 8), &[direct(0x40)]),
        ["place 7 10 0 0", "placed 1 slots 1 passes 1"]
    );
    let bits: Vec<StorageForm> = (0..9)
        .map(|id| StorageForm {
            owner: PROGRAM_OWNED,
            ..form(id, KIND_BIT, 0x04)
        })
        .collect();
    assert_eq!(place_lines((1, 0, 8), &bits), ["place refused 10 8"]);
    let eight = place_lines((1, 0, 8), &bits[..8]);
    assert_eq!(
        (eight[7].as_str(), eight[8].as_str()),
        ("place 7 4 0 7", "placed 8 slots 0 passes 1")
    );
    let fixed = |id, code| StorageForm {
        code,
        ..form(id, KIND_BYTE, 0)
    };
    assert_eq!(
        place_lines((4, 0, 8), &[fixed(1, 5), fixed(2, 10)]),
        ["place refused 12 2"]
    );
    assert_eq!(place_lines((4, 0, 8), &[fixed(3, 4)]), ["place refused 11 3"]);
    let one = StorageForm {
        kind: KIND_BYTES,
        ..fixed(3, 4)
    };
    assert_eq!(
        place_lines((4, 0, 8), &[one]),
        ["place 3 4 0 0", "placed 1 slots 0 passes 1"]
    );
    assert_eq!(
        place_lines((4, 4, 0), &[form(5, KIND_BIT, 0x60)]),
        ["place refused 9 1"]
    );
}

/// The numbers of a line after its first words.
fn numbers<const COUNT: usize>(line: &str, start: &str) -> Option<[u16; COUNT]> {
    let words = line.strip_prefix(start)?.split(' ');
    let numbers: Vec<u16> = words.filter_map(|word| word.parse().ok()).collect();
    numbers.try_into().ok()
}

/// The lines of a stored placement as answer and result.
fn stored_placement(text: &str) -> (u64, Vec<u8>) {
    let mut result = Vec::new();
    for [id, code, a, b] in text.lines().filter_map(|line| numbers(line, "place ")) {
        let words = [id, code, a, b].map(u16::to_le_bytes);
        result.push(10);
        result.extend(words[0]);
        result.push(words[1][0]);
        result.extend([words[2], words[3]].concat());
    }
    result.resize(2_048, 0);
    if let Some([number, value]) = text.lines().find_map(|line| numbers(line, "place refused ")) {
        return (u64::from(number) << 32 | u64::from(value), Vec::new());
    }
    let last = text.lines().find_map(|line| numbers(line, "placed "));
    let [placed, slots, passes] = last.expect("a placement ends with its counts").map(u64::from);
    (passes * 262_144 + slots * 512 + placed, result)
}

#[test]
fn stored_placements_are_expected_of_the_library() {
    let folder = Path::new(env!("CARGO_MANIFEST_DIR")).join("../../shared/vectors");
    let Ok(entries) = fs::read_dir(folder) else {
        println!("no stored vectors here: nothing compared");
        return;
    };
    for path in entries.filter_map(|entry| entry.ok().map(|entry| entry.path())) {
        if path.extension().is_none_or(|extension| extension != "bin") {
            continue;
        }
        let file = fs::read(&path).expect("a vector can be read");
        if let Judged::Answered(answers) = Judged::of(&file) {
            let text = fs::read_to_string(path.with_extension("txt")).expect("a vector has its answer");
            let expected = match &answers.placed {
                Ok(placed) => (answers.place_number(placed), placed.result.clone()),
                Err((number, value)) => (packed(*number, *value), Vec::new()),
            };
            assert_eq!(expected, stored_placement(&text), "{}", path.display());
        }
    }
}

#[test]
fn a_difference_shows_buffer_and_call() {
    let file = with_storages((4, 0, 0), &[form(0, KIND_BYTE, 0x04)]);
    let judged = Judged::of(&file);
    let wrong: Placer = |file, units, live, graph, copies, result| {
        let answer = stand_in::place(file, units, live, graph, copies, result);
        if answer >> 32 == 0 {
            result[3] = 11;
        }
        answer
    };
    let text = compare_judged(wrong, &file, &judged)
        .expect_err("the code is wrong")
        .to_string();
    assert!(text.contains("place_file of 0, lent Exact"), "{text}");
    assert!(text.contains("result, word 3: expected 0x3, given 0xb"), "{text}");
    assert!(text.contains("number 0 value 262657"), "{text}");
}

/// Buffers without guards hold a call to the same words.
#[test]
fn bare_buffers_are_compared_too() {
    let function = Function::Place(stand_in::place);
    let file = generate::file_of(&mut Random::new(4), Shape::Realistic);
    let judged = Judged::of(&file);
    let outcome = expected(function, &judged).expect("the original answers");
    for lending in [Lending::Exact, Lending::Longer] {
        assert_eq!(Call::of(function).compare_bare(&file, lending, &outcome), Ok(()));
    }
    assert!(Call::of(function)
        .compare_bare(&file, Lending::Short(2), &outcome)
        .is_err());
}
