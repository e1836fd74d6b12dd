//! What the generated files reach, and that each shape is what it says.

use oracle::generate::{file, file_of, limits, Shape};
use oracle::program::decode;
use oracle::random::Random;
use oracle::reader::{check, judge};
use oracle::stats;

/// Every cause that the reader names.
const CAUSES: usize = 43;

#[test]
fn every_refusal_is_reached_by_every_cause() {
    let stats = stats::collect(20_000, 1);
    for number in 2..=5 {
        let files = |(key, count): (&(u32, &str), &usize)| if key.0 == number { *count } else { 0 };
        let sum: usize = stats.causes.iter().map(files).sum();
        assert!(sum >= 300, "refusal {number} is met only {sum} times");
    }
    assert_eq!(stats.causes.len(), CAUSES);
    assert!(stats.causes.values().all(|&count| count >= 10));
    assert_eq!(stats.most_units, 512);
}

#[test]
fn every_operation_is_accepted_somewhere() {
    let stats = stats::collect(5_000, 2);
    let starting = |start: &str| stats.parts.keys().filter(|part| part.starts_with(start)).count();
    assert_eq!(starting("instruction"), 29 + 9);
    assert_eq!(starting("terminator"), 7 + 8);
    assert_eq!(starting("fixed code"), 13);
    assert_eq!(starting("storage kind"), 4);
    assert_eq!(starting("ABI role"), 3);
}

#[test]
fn valid_shapes_are_accepted() {
    let shapes = [
        Shape::Small,
        Shape::Middle,
        Shape::Large,
        Shape::EveryOperation,
        Shape::Realistic,
        Shape::RealisticLarge,
        Shape::AtLimit,
        Shape::Chain,
        Shape::Crowded,
    ];
    for shape in shapes {
        for seed in 0..200 {
            let made = file_of(&mut Random::new(seed), shape);
            let answer = judge(&made);
            assert!(answer.is_ok(), "{shape:?} {seed}: {answer:?}");
            assert_eq!(decode(&made).unit_words(), answer.expect("the file is accepted"));
        }
    }
}

#[test]
fn over_limit_files_are_refused() {
    for seed in 0..500 {
        let made = file_of(&mut Random::new(seed), Shape::OverLimit);
        assert!(check(&made).is_err(), "seed {seed}");
    }
}

#[test]
fn length_limit_is_exact() {
    for seed in 0..20 {
        let at = limits::at_length(&mut Random::new(seed), 0).bytes();
        let over = limits::at_length(&mut Random::new(seed), 1).bytes();
        assert_eq!((at.len(), check(&at).is_ok()), (16_384, true));
        assert_eq!((over.len(), check(&over)), (16_385, Err((5, 16_384))));
    }
}

#[test]
fn realistic_files_have_their_sizes() {
    for seed in 0..50 {
        let small = file_of(&mut Random::new(seed), Shape::Realistic).len();
        let large = file_of(&mut Random::new(seed), Shape::RealisticLarge).len();
        assert!((3_300..=5_000).contains(&small), "{small}");
        assert!((12_500..=16_384).contains(&large), "{large}");
    }
}

#[test]
fn files_are_made_again_from_their_seed() {
    for index in 0..50 {
        assert_eq!(file(7, index), file(7, index));
        assert_ne!(file(7, index).1, file(8, index).1);
    }
}
