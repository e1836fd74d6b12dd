//! Chains of blocks against the order of a pass, so that live sets take as many passes as a file can ask for.

use super::limits::byte_form;
use super::valid;
use crate::draft::{Draft, StorageForm};
use crate::program::Value;
use crate::random::Random;
use crate::records::*;

const POP: u8 = 15;
const JUMP: u8 = 0;
const RETURN: u8 = 5;

/// Lanes in each storage of a chain.
const LANES: usize = 5;
const OWNER: u8 = 0;
/// A storage that the blocks write, and that is never live.
const SCRATCH: u16 = 255;

/// A chain of any length, up to the longest.
pub fn any_chain(random: &mut Random) -> Draft {
    let blocks = random.between(1, MOST_BLOCKS);
    let lanes = random.pick(&[1, 7, 60, 300]);
    backward_chain(random, blocks, lanes)
}

/// Each block jumps to the one before it in the file and the first returns all lanes. A pass goes from the last block to
/// the first, so each pass brings the lanes one block further: one pass a block, and the one that changes nothing.
pub fn backward_chain(random: &mut Random, blocks: usize, lanes: usize) -> Draft {
    let mut draft = Draft::default();
    valid::header(random, &mut draft);
    storages(&mut draft, lanes.div_ceil(LANES));
    draft.function(OWNER);
    for lane in 0..lanes {
        draft.abi(ROLE_RESULT, lane_of(lane / LANES, lane % LANES));
    }
    draft.block(0);
    draft.terminator(RETURN, 0, 0);
    for block in 1..blocks {
        draft.block(block as u16);
        draft.simple(POP, &[lane_of(usize::from(SCRATCH), block % 4)]);
        draft.terminator(JUMP, 0, 0);
        draft.target(block as u16 - 1);
    }
    draft.end();
    draft
}

fn storages(draft: &mut Draft, count: usize) {
    for id in 0..count {
        draft.storage(StorageForm {
            kind: KIND_BYTES,
            length: LANES as u16,
            ..byte_form(id as u16, OWNER.into())
        });
    }
    draft.storage(byte_form(SCRATCH, OWNER.into()));
}

fn lane_of(storage: usize, offset: usize) -> Value {
    Value::Lane {
        storage: storage as u16,
        offset: offset as u16,
    }
}
