//! The comparison of the analysis: a right library passes, and each kind of wrong one is caught.
#![cfg(original)]

mod stand_in;

use std::collections::BTreeSet;

use oracle::analysis::{compare_file, compare_generated, Compared};
use oracle::entry::Library;
use oracle::generate::{self, chain};
use oracle::original::answers::Answers;
use oracle::original::ease::eased_sample;
use oracle::original::text::explain_whole;
use oracle::random::Random;
use oracle::reader::check;

const FILES: u64 = 250;

#[test]
fn a_right_library_passes() {
    let totals = compare_generated(&stand_in::library(), FILES, 3).expect("both sides are the same");
    assert_eq!((totals.files, totals.unanswered), (FILES, 0));
    assert!(totals.accepted * 100 >= FILES * 80, "{totals:?}");
}

#[test]
fn what_is_missing_is_named_and_left_out() {
    let library = Library::default();
    assert_eq!(library.missing().len(), Library::ANALYSIS_FUNCTIONS);
    assert!(stand_in::library().missing().is_empty());
    assert!(compare_generated(&library, 5, 3).is_ok());
}

/// One file with a live lane, a copy, two functions and an effect is enough to tell these libraries from a right one.
fn is_caught(change: impl FnOnce(&mut Library)) -> bool {
    let mut library = stand_in::library();
    change(&mut library);
    let random = &mut Random::new(5);
    let file = generate::small_realistic(random).bytes();
    assert_eq!(compare_file(&stand_in::library(), &file), Ok(Compared::Accepted));
    compare_file(&library, &file).is_err() || compare_file(&library, &file[..99]).is_err()
}

#[test]
fn wrong_answers_are_caught() {
    assert!(is_caught(|library| library.live = Some(|file, number, units, live| {
        match stand_in::live(file, number, units, live) {
            3 => 2,
            other => other,
        }
    })));
    assert!(is_caught(
        |library| library.effect = Some(|file, place, units| { stand_in::effect(file, place, units) & !1 })
    ));
    assert!(is_caught(|library| library.graph =
        Some(|file, units, live, graph, copies| {
            stand_in::graph(file, units, live, graph, copies) + 1
        })));
    assert!(is_caught(|library| library.sets.swap(0, 1)));
    assert!(is_caught(|library| library.sets.swap(2, 3)));
}

#[test]
fn wrong_words_are_caught() {
    assert!(is_caught(|library| library.live = Some(|file, number, units, live| {
        let passes = stand_in::live(file, number, units, live);
        live.swap(8, 1024 + 8);
        passes
    })));
    assert!(is_caught(|library| library.graph =
        Some(|file, units, live, graph, copies| {
            let passes = stand_in::graph(file, units, live, graph, copies);
            let one_way = graph.iter().rposition(|word| *word != 0).unwrap_or(0);
            graph[one_way] = 0;
            passes
        })));
    assert!(is_caught(|library| library.graph =
        Some(|file, units, live, graph, copies| {
            let passes = stand_in::graph(file, units, live, graph, copies);
            copies.fill(0);
            passes
        })));
}

#[test]
fn words_that_must_stay_are_watched() {
    assert!(is_caught(|library| library.sets[0] =
        Some(|file, place, units, row| {
            if let Some(word) = row.get_mut(8) {
                *word = 0;
            }
            stand_in::reads(file, place, units, row)
        })));
    assert!(is_caught(|library| library.sets[2] =
        Some(|file, place, units, row| {
            row.fill(0);
            stand_in::storage_reads(file, place, units, row)
        })));
    assert!(is_caught(|library| library.live = Some(|file, number, units, live| {
        let refused = live.len() == 2048 && check(file).is_err();
        let passes = stand_in::live(file, number, units, live);
        if refused {
            live[0] |= 1;
        }
        passes
    })));
}

#[test]
fn a_difference_shows_file_call_and_answers() {
    let library = Library {
        effect: Some(|_, _, _| 7),
        ..Library::default()
    };
    let text = compare_file(&library, &[9, 10])
        .expect_err("7 is never the answer")
        .to_string();
    assert!(text.contains("file of 2 bytes: 090a"), "{text}");
    assert!(text.contains("effect_at of 0, lent Short(0)"), "{text}");
    assert!(
        text.contains("number 1 value 0") && text.contains("number 0 value 7"),
        "{text}"
    );
}

/// The original's side is only asked about accepted files; on another one it panics, and the run goes on.
#[test]
fn a_panic_of_the_original_costs_one_file() {
    assert_eq!(Answers::in_time(&[77], &[]).err(), Some("panics"));
}

#[test]
fn chains_take_one_pass_a_block_and_one_more() {
    for (blocks, lanes) in [(1, 1), (2, 7), (40, 12), (128, 1)] {
        let file = chain::backward_chain(&mut Random::new(1), blocks, lanes).bytes();
        let units = check(&file).expect("a chain is accepted");
        assert_eq!(Answers::of(&file, &units).passes(), blocks as u64 + 1);
    }
    let longest = chain::backward_chain(&mut Random::new(1), 128, 300).bytes();
    assert!(check(&longest).expect("a chain is accepted").len() >= 300);
}

#[test]
fn samples_are_short_and_varied() {
    let (mut bytes, mut refused, mut placed) = (0, 0, 0);
    let mut place_refusals = BTreeSet::new();
    for index in 0..320 {
        let file = eased_sample(1, index);
        let text = explain_whole(&file);
        assert!(file.len() <= 4_096, "sample {index}");
        bytes += file.len() + text.len();
        let last = text.lines().last().unwrap_or_default();
        match last.split(' ').collect::<Vec<&str>>()[..] {
            ["refused", ..] => refused += 1,
            ["place", "refused", number, _] => {
                place_refusals.insert(number.to_string());
            }
            ["placed", ..] => placed += 1,
            _ => panic!("sample {index} ends with {last}"),
        }
    }
    assert!(bytes < 2_000_000, "{bytes} bytes");
    assert_eq!((refused, place_refusals.len()), (40, 5));
    assert!(placed >= 100, "{placed} placed");
}
