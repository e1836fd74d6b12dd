//! A varied sample of short files, to be kept with their answers.

use super::valid::{self, Plan};
use super::{chain, every_operation, file_of, limits, realistic, Shape};
use crate::random::Random;
use crate::reader::check;

const MOST_SAMPLE_BYTES: usize = 4_096;
/// The turn of the crowded files, which are about placement.
pub const CROWDED_TURN: u64 = 2;
/// How many turns there are.
pub const TURNS: u64 = 8;

/// Between small and middle, so that the text of the answer stays short.
const WIDE: Plan = Plan {
    storages: 16,
    functions: 5,
    blocks: 5,
    instructions: 6,
    bytes: 3_000,
    units: 60,
};

/// The file of this index in the sample of this seed. The kinds take turns, and one file in eight is refused.
pub fn sample_file(seed: u64, index: u64) -> Vec<u8> {
    let mut random = Random::for_file(seed, index);
    let turn = index % TURNS;
    loop {
        let file = candidate(&mut random, turn);
        if file.len() <= MOST_SAMPLE_BYTES && check(&file).is_ok() == (turn < 7) {
            return file;
        }
    }
}

fn candidate(random: &mut Random, turn: u64) -> Vec<u8> {
    match turn {
        0 | 1 => file_of(random, Shape::Small),
        CROWDED_TURN => file_of(random, Shape::Crowded),
        3 => valid::random_file(random, WIDE).bytes(),
        4 => every_operation(random).bytes(),
        5 => {
            let bytes = random.between(800, 2_000);
            realistic::realistic_file(random, bytes).bytes()
        }
        6 => at_an_end(random),
        _ => {
            let shape = random.pick(&[Shape::Damaged, Shape::Damaged, Shape::OverLimit, Shape::Soup]);
            file_of(random, shape)
        }
    }
}

/// At a limit, or with many passes.
fn at_an_end(random: &mut Random) -> Vec<u8> {
    if random.chance(50) {
        return limits::limit_file(random, 0).bytes();
    }
    let (blocks, lanes) = (random.between(1, 24), random.between(0, 12));
    chain::backward_chain(random, blocks, lanes).bytes()
}
