//! Eases storages that the original cannot place, so that the others of a crowded file are placed to the last one.
//!
//! A refused file shows no placement, and in a crowded file some storage is soon refused. The refused one is made a byte that
//! may go to application RAM or Flash, where there is always room, and the placing goes on with the next.

use super::Original;
use crate::generate::sample::{sample_file, CROWDED_TURN, TURNS};
use crate::generate::Shape;
use crate::program::{decode, Program, Storage};
use crate::records::{record_length, KIND_BYTE, STORAGE};

/// From this number on, a refusal of placing has the storage's id as its value.
const FIRST_WITH_ID: u32 = 10;
/// Application RAM and Flash.
const ROOMY: u16 = 0x84;

/// Every second crowded file is eased; a refusal remains in the others.
pub fn eased_in_turn(shape: Shape, file: Vec<u8>, index: u64) -> Vec<u8> {
    if shape == Shape::Crowded && index.is_multiple_of(2) {
        eased(&file)
    } else {
        file
    }
}

/// The sample of this index; every second crowded one is eased.
pub fn eased_sample(seed: u64, index: u64) -> Vec<u8> {
    let file = sample_file(seed, index);
    if index % (2 * TURNS) == CROWDED_TURN {
        eased(&file)
    } else {
        file
    }
}

/// The same file with every storage eased that is refused; the file is an accepted one.
pub fn eased(file: &[u8]) -> Vec<u8> {
    let mut eased = file.to_vec();
    let mut program = decode(file);
    while let Some(refused) = first_refused(&program) {
        ease(&mut eased, program.storages[refused].place);
        program = decode(&eased);
    }
    eased
}

/// The index of the storage where placing ends, if it is refused. Some refusals name it. For the others it is the last one
/// of the shortest list that is refused, since storages are placed in order.
fn first_refused(program: &Program) -> Option<usize> {
    let (number, value) = refusal(program, &program.storages)?;
    if number >= FIRST_WITH_ID {
        return program
            .storages
            .iter()
            .position(|storage| u32::from(storage.id) == value);
    }
    let (mut placed, mut refused) = (0, program.storages.len());
    while refused - placed > 1 {
        let middle = (placed + refused) / 2;
        if refusal(program, &program.storages[..middle]).is_none() {
            placed = middle;
        } else {
            refused = middle;
        }
    }
    Some(refused - 1)
}

/// What the original says where the program has these storages.
fn refusal(program: &Program, storages: &[Storage]) -> Option<(u32, u32)> {
    let part = Program {
        storages: storages.to_vec(),
        ..program.clone()
    };
    Original::new(&part).place(&part).err()
}

/// Rewrites the record from its kind of storage on: a byte of length 1, neither direct nor fixed.
fn ease(file: &mut [u8], place: usize) {
    let [low, high] = ROOMY.to_le_bytes();
    let easy = [KIND_BYTE, 1, 0, low, high, 0, 0, 0, 0, 0, 0];
    let length = record_length(STORAGE).expect("a storage is a kind of record");
    let end = place + length;
    file[end - easy.len()..end].copy_from_slice(&easy);
}
