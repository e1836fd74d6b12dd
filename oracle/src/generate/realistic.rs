//! Files like a compiler's: functions with parameters and results, loops, calls, and wide sums that carry bits
//! from byte to byte.

use crate::draft::{Draft, StorageForm};
use crate::program::Value;
use crate::random::Random;
use crate::records::*;
use crate::table::{BRANCH, CALL};

const COPY_BYTE: u8 = 0;
const BYTE_BINARY: u8 = 6;
const ADD: u8 = 7;
const SUBTRACT: u8 = 8;
const LOAD_INDIRECT: u8 = 12;
const STORE_INDIRECT: u8 = 13;
const SHIFT_BYTES: u8 = 18;
const COMPARE_BYTES: u8 = 19;
const JUMP: u8 = 0;
const RETURN: u8 = 5;

/// Spare room for the longest loop, the last block and the end.
const SPARE_BYTES: usize = 1_000;
const SPARE_UNITS: usize = 40;

/// The storages of one function.
#[derive(Clone)]
struct Frame {
    number: u8,
    /// Wide values, each a list of byte lanes.
    wides: Vec<Vec<Value>>,
    carry: Value,
    condition: Value,
    array: u16,
    parameters: usize,
}

/// A file of about the wanted size, never over the limits.
pub fn realistic_file(random: &mut Random, bytes: usize) -> Draft {
    let mut draft = Draft::default();
    draft.header(256, 16, 512);
    let globals = 6;
    for id in 0..globals {
        draft.storage(form(id, PROGRAM_OWNED, KIND_BYTES, 8, 0x40));
    }
    let functions = (bytes / 900).clamp(2, 16);
    let mut next_id = globals;
    let frames: Vec<Frame> = (0..functions)
        .map(|number| frame(random, &mut draft, &mut next_id, number as u8))
        .collect();
    for (index, frame) in frames.iter().enumerate() {
        let share = draft.length() + bytes.saturating_sub(draft.length()) / (functions - index);
        function(random, &mut draft, frame, &frames, share.min(MOST_BYTES - SPARE_BYTES));
    }
    draft.end();
    draft
}

fn form(id: u16, owner: u16, kind: u8, length: u16, regions: u16) -> StorageForm {
    StorageForm {
        id,
        owner,
        kind,
        length,
        regions,
        direct: 0,
        code: 0,
        a: 0,
        b: 0,
    }
}

/// Declares the storages of a function: a few wide values, a carry, a condition bit and an array.
fn frame(random: &mut Random, draft: &mut Draft, next_id: &mut u16, number: u8) -> Frame {
    let owner = u16::from(number);
    let mut declare = |kind: u8, length: u16, regions: u16| {
        let id = *next_id;
        *next_id += 1;
        draft.storage(form(id, owner, kind, length, regions));
        id
    };
    let mut wides = Vec::new();
    for _ in 0..random.between(2, 3) {
        let width = random.pick(&[1, 2, 4, 4]);
        wides.push((0..width).map(|_| lane(declare(KIND_BYTE, 1, 0x24), 0)).collect());
    }
    Frame {
        number,
        wides,
        carry: Value::Bit(declare(KIND_CARRY, 1, 0x02)),
        condition: Value::Bit(declare(KIND_BIT, 1, 0x24)),
        array: declare(KIND_BYTES, 16, 0x60),
        parameters: random.between(1, 2),
    }
}

fn lane(storage: u16, offset: u16) -> Value {
    Value::Lane { storage, offset }
}

/// An entry block, then loops of a head and a body until the share of bytes is used, then the exit.
fn function(random: &mut Random, draft: &mut Draft, frame: &Frame, frames: &[Frame], share: usize) {
    draft.function(frame.number);
    for wide in &frame.wides[..frame.parameters] {
        wide.iter().for_each(|value| draft.abi(ROLE_PARAMETER, *value));
    }
    frame.wides[0].iter().for_each(|value| draft.abi(ROLE_RESULT, *value));
    draft.abi(ROLE_CLOBBERED, Value::Object(frame.array));
    draft.block(0);
    for wide in &frame.wides[frame.parameters..] {
        wide.iter()
            .for_each(|value| draft.simple(COPY_BYTE, &[*value, Value::Immediate(0)]));
    }
    jump(draft, 1);
    let mut next = 1;
    while next + 3 < MOST_BLOCKS as u16 && draft.length() < share && draft.units() + SPARE_UNITS < MOST_UNITS {
        one_loop(random, draft, frame, frames, next);
        next += 2;
    }
    draft.block(next);
    draft.terminator(RETURN, 0, 0);
}

fn jump(draft: &mut Draft, block: u16) {
    draft.terminator(JUMP, 0, 0);
    draft.target(block);
}

/// The head compares and leaves or enters the body; the body works and jumps back.
fn one_loop(random: &mut Random, draft: &mut Draft, frame: &Frame, frames: &[Frame], head: u16) {
    draft.block(head);
    let counter = random.pick(&indices(frame));
    draft.instruction(COMPARE_BYTES, 0, 0);
    draft.operand(0, frame.condition);
    for value in &frame.wides[counter] {
        draft.operand(1, *value);
    }
    for _ in &frame.wides[counter] {
        draft.operand(2, Value::Immediate(random.byte()));
    }
    draft.terminator(BRANCH, 0, 0);
    draft.operand(0, frame.condition);
    draft.target(head + 1);
    draft.target(head + 2);
    draft.block(head + 1);
    for _ in 0..random.between(2, 4) {
        statement(random, draft, frame, frames);
    }
    wide_sum(draft, SUBTRACT, frame, counter, counter);
    jump(draft, head);
}

fn indices(frame: &Frame) -> Vec<usize> {
    (0..frame.wides.len()).collect()
}

fn statement(random: &mut Random, draft: &mut Draft, frame: &Frame, frames: &[Frame]) {
    let (left, right) = (random.pick(&indices(frame)), random.pick(&indices(frame)));
    match random.weighted(&[35, 15, 15, 10, 10, 15]) {
        0 => wide_sum(draft, ADD, frame, left, right),
        1 => wide_sum(draft, SUBTRACT, frame, left, right),
        2 => pairs(draft, BYTE_BINARY, frame, left, right),
        3 => array_access(random, draft, frame, left),
        4 => shift(random, draft, frame, left),
        _ => call(random, draft, frame, frames),
    }
}

/// Byte sums from the lowest lane up, each handing its carry to the next.
fn wide_sum(draft: &mut Draft, op: u8, frame: &Frame, left: usize, right: usize) {
    let widths = frame.wides[left].iter().zip(frame.wides[right].iter().cycle());
    for (index, (target, other)) in widths.enumerate() {
        draft.instruction(op, 0, 0);
        draft.operand(0, *target);
        draft.operand(1, frame.carry);
        draft.operand(2, *target);
        draft.operand(3, *other);
        if index > 0 {
            draft.operand(4, frame.carry);
        }
    }
}

fn pairs(draft: &mut Draft, op: u8, frame: &Frame, left: usize, right: usize) {
    for (target, other) in frame.wides[left].iter().zip(&frame.wides[right]) {
        draft.simple(op, &[*target, *target, *other]);
    }
}

/// A load from or a store to the array through a two-byte address.
fn array_access(random: &mut Random, draft: &mut Draft, frame: &Frame, value: usize) {
    let address = lane(frame.array, random.below(4) as u16);
    let target = frame.wides[value][0];
    if random.chance(50) {
        draft.instruction(LOAD_INDIRECT, 0, 0);
        draft.operand(0, target);
        draft.operand(1, address);
        draft.operand(1, Value::Immediate(1));
    } else {
        draft.instruction(STORE_INDIRECT, 0, 0);
        draft.operand(0, address);
        draft.operand(0, Value::Immediate(1));
        draft.operand(1, target);
    }
}

fn shift(random: &mut Random, draft: &mut Draft, frame: &Frame, value: usize) {
    draft.instruction(SHIFT_BYTES, 0, 0);
    for field in 0..2 {
        frame.wides[value].iter().for_each(|value| draft.operand(field, *value));
    }
    draft.operand(2, Value::Immediate(random.below(8) as u8));
}

/// Copies the arguments over, calls, and copies the result back.
fn call(random: &mut Random, draft: &mut Draft, frame: &Frame, frames: &[Frame]) {
    let callee = &frames[random.below(frames.len())];
    for (parameter, argument) in callee.wides[0].iter().zip(frame.wides[0].iter().cycle()) {
        draft.simple(COPY_BYTE, &[*parameter, *argument]);
    }
    draft.instruction(CALL, 0, callee.number);
    for (own, result) in frame.wides[1].iter().zip(&callee.wides[0]) {
        draft.simple(COPY_BYTE, &[*own, *result]);
    }
}
