//! Files that make placing itself take long: searches for room that fail at the last byte, and slots that never fit.

use super::limits::byte_form;
use crate::draft::{Draft, StorageForm};
use crate::program::Value;
use crate::records::*;

const ADDRESS_OF: u8 = 16;
const RETURN: u8 = 5;
const APPLICATION_BIT: u8 = 4;
const OWNER: u8 = 0;

/// The lanes that take every address.
const POINTER: u16 = 255;
/// As many storages as application RAM has bytes left for, each with a slot of its own.
const SLOTS: u16 = 250;

/// All storages but two look through application RAM for 128 bytes. A bit in the middle and one at the end leave at most 127
/// together, so each search sees most bytes of every window before the storage goes to Flash.
pub fn windows() -> Draft {
    let mut draft = Draft::default();
    draft.header(256, 0, 512);
    for (id, a) in [(0, 127), (1, 255)] {
        draft.storage(StorageForm {
            kind: KIND_BIT,
            code: APPLICATION_BIT,
            a,
            ..byte_form(id, PROGRAM_OWNED)
        });
    }
    for id in 2..=LARGEST_ID {
        draft.storage(StorageForm {
            kind: KIND_BYTES,
            length: 128,
            regions: 0x84,
            ..byte_form(id, PROGRAM_OWNED)
        });
    }
    draft.function(OWNER);
    draft.end();
    draft
}

/// The address of every storage is taken, so all interfere: each tries every slot that is open and then opens one more.
pub fn slots() -> Draft {
    let mut draft = Draft::default();
    draft.header(256, 0, 512);
    for id in (0..SLOTS).chain([POINTER]) {
        draft.storage(byte_form(id, OWNER.into()));
    }
    draft.function(OWNER);
    draft.block(0);
    let [low, high] = [0, 1].map(|offset| Value::Lane {
        storage: POINTER,
        offset,
    });
    for id in 0..SLOTS {
        draft.simple(ADDRESS_OF, &[low, high, Value::Object(id)]);
    }
    draft.terminator(RETURN, 0, 0);
    draft.end();
    draft
}
