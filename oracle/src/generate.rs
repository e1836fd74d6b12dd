//! Makes program files from a seed: valid ones of every shape, ones at and over the limits, and damaged ones.

pub mod chain;
pub mod crowded;
pub mod damage;
pub mod limits;
pub mod realistic;
pub mod sample;
pub mod valid;
pub mod worst;

use crate::draft::Draft;
use crate::random::Random;
use crate::table::INSTRUCTION_OPS;

/// How a file was made.
#[derive(Clone, Copy, Debug, PartialEq, Eq)]
pub enum Shape {
    Small,
    Middle,
    Large,
    EveryOperation,
    Realistic,
    RealisticLarge,
    AtLimit,
    Chain,
    Crowded,
    OverLimit,
    Damaged,
    DamagedLarge,
    Soup,
}

/// Every shape with its share of a mixed run.
const SHARES: [(Shape, usize); 11] = [
    (Shape::Small, 20),
    (Shape::Middle, 5),
    (Shape::Large, 2),
    (Shape::EveryOperation, 2),
    (Shape::Realistic, 2),
    (Shape::RealisticLarge, 2),
    (Shape::AtLimit, 7),
    (Shape::OverLimit, 7),
    (Shape::Damaged, 40),
    (Shape::DamagedLarge, 5),
    (Shape::Soup, 8),
];

/// The shares of a run for the analysis, which needs accepted files.
const ANALYSIS_SHARES: [(Shape, usize); 12] = [
    (Shape::Small, 42),
    (Shape::Middle, 15),
    (Shape::Large, 2),
    (Shape::EveryOperation, 8),
    (Shape::Realistic, 5),
    (Shape::RealisticLarge, 2),
    (Shape::AtLimit, 10),
    (Shape::Chain, 1),
    (Shape::OverLimit, 2),
    (Shape::Damaged, 8),
    (Shape::DamagedLarge, 3),
    (Shape::Soup, 2),
];

/// The shares of a run for the placer, which needs storages that compete for memory.
const PLACE_SHARES: [(Shape, usize); 13] = [
    (Shape::Small, 14),
    (Shape::Middle, 4),
    (Shape::Large, 1),
    (Shape::EveryOperation, 3),
    (Shape::Realistic, 3),
    (Shape::RealisticLarge, 1),
    (Shape::AtLimit, 4),
    (Shape::Chain, 1),
    (Shape::Crowded, 60),
    (Shape::OverLimit, 2),
    (Shape::Damaged, 5),
    (Shape::DamagedLarge, 1),
    (Shape::Soup, 1),
];

/// The file of this index in the run of this seed.
pub fn file(seed: u64, index: u64) -> (Shape, Vec<u8>) {
    mixed_file(&SHARES, seed, index)
}

/// The same for a run that compares the analysis.
pub fn analysis_file(seed: u64, index: u64) -> (Shape, Vec<u8>) {
    mixed_file(&ANALYSIS_SHARES, seed, index)
}

/// The same for a run that compares the placer.
pub fn place_file(seed: u64, index: u64) -> (Shape, Vec<u8>) {
    mixed_file(&PLACE_SHARES, seed, index)
}

fn mixed_file(shares: &[(Shape, usize)], seed: u64, index: u64) -> (Shape, Vec<u8>) {
    let mut random = Random::for_file(seed, index);
    let weights: Vec<usize> = shares.iter().map(|(_, weight)| *weight).collect();
    let shape = shares[random.weighted(&weights)].0;
    (shape, file_of(&mut random, shape))
}

pub fn file_of(random: &mut Random, shape: Shape) -> Vec<u8> {
    match shape {
        Shape::Small => valid::random_file(random, valid::SMALL).bytes(),
        Shape::Middle => valid::random_file(random, valid::MIDDLE).bytes(),
        Shape::Large => valid::random_file(random, valid::LARGE).bytes(),
        Shape::EveryOperation => every_operation(random).bytes(),
        Shape::Realistic => small_realistic(random).bytes(),
        Shape::RealisticLarge => large_realistic(random).bytes(),
        Shape::AtLimit => limits::limit_file(random, 0).bytes(),
        Shape::Chain => chain::any_chain(random).bytes(),
        Shape::Crowded => crowded::crowded_file(random).bytes(),
        Shape::OverLimit => {
            let over = random.pick(&[1, 1, 1, 2, 5]);
            limits::limit_file(random, over).bytes()
        }
        Shape::Damaged => {
            let draft = valid::random_file(random, valid::SMALL);
            damage::damaged_file(random, &draft)
        }
        Shape::DamagedLarge => {
            let draft = damageable_draft(random);
            damage::damaged_file(random, &draft)
        }
        Shape::Soup => damage::soup_file(random),
    }
}

pub fn small_realistic(random: &mut Random) -> Draft {
    let bytes = random.between(3_600, 4_200);
    realistic::realistic_file(random, bytes)
}

pub fn large_realistic(random: &mut Random) -> Draft {
    let bytes = random.between(13_000, 15_600);
    realistic::realistic_file(random, bytes)
}

fn damageable_draft(random: &mut Random) -> Draft {
    match random.below(4) {
        0 => valid::random_file(random, valid::MIDDLE),
        1 => limits::limit_file(random, 0),
        2 => small_realistic(random),
        _ => every_operation(random),
    }
}

/// One function whose blocks hold every operation, as far as the declared storages allow.
fn every_operation(random: &mut Random) -> Draft {
    let mut draft = Draft::default();
    let pool = valid::opening(random, &mut draft, valid::MIDDLE);
    draft.function(pool.functions[0]);
    let mut operations: Vec<u8> = (0..INSTRUCTION_OPS).collect();
    random.shuffle(&mut operations);
    draft.block(0);
    for op in operations {
        if let Some(step) = valid::instruction(random, &pool, op, 1_000) {
            draft.append(step);
        }
    }
    draft.terminator(5, 0, 0);
    draft.end();
    draft
}
