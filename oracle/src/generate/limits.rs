//! Files at each limit of the format, and one over it.

use super::valid::{self, Plan};
use crate::draft::{Draft, StorageForm};
use crate::program::Value;
use crate::random::Random;
use crate::records::*;
use crate::table::*;

/// Which limit a file stands at.
pub const LIMITS: [fn(&mut Random, usize) -> Draft; 7] = [
    at_length,
    at_functions,
    at_blocks,
    at_units,
    at_operands,
    at_targets,
    at_storages,
];

/// A file at some limit (over = 0) or that many over it.
pub fn limit_file(random: &mut Random, over: usize) -> Draft {
    let limit = random.pick(&LIMITS);
    limit(random, over)
}

/// A byte storage that every region may hold.
pub fn byte_form(id: u16, owner: u16) -> StorageForm {
    StorageForm {
        id,
        owner,
        kind: KIND_BYTE,
        length: 1,
        regions: 0x64,
        direct: 0,
        code: 0,
        a: 0,
        b: 0,
    }
}

/// Some storages and one open function.
fn small_opening(random: &mut Random, storages: usize) -> Draft {
    let mut draft = Draft::default();
    valid::header(random, &mut draft);
    for id in 0..storages {
        let form = valid::storage_form(random, id as u16, &[0, 1]);
        draft.storage(form);
    }
    draft
}

fn any_lane(random: &mut Random, storages: usize) -> Value {
    Value::Lane {
        storage: random.below(storages) as u16,
        offset: random.below(4) as u16,
    }
}

fn return_block(draft: &mut Draft, id: u16) {
    draft.block(id);
    draft.terminator(5, 0, 0);
}

/// Exactly 16,384 bytes and the excess: a last block of calls and switch targets fills the file up.
pub fn at_length(random: &mut Random, over: usize) -> Draft {
    let plan = Plan {
        bytes: random.between(4_500, MOST_BYTES - 600),
        functions: MOST_FUNCTIONS - 1,
        ..valid::LARGE
    };
    let mut draft = valid::random_file(random, plan);
    draft.drop_end();
    let number = draft.free_function();
    draft.function(number);
    draft.block(0);
    // The terminator, its first target and the end take 8 bytes; a call takes 4, a target 3.
    let missing = MOST_BYTES + over - draft.length() - 8;
    let targets = (0..4)
        .find(|targets| (missing - 3 * targets).is_multiple_of(4))
        .expect("3 and 4 have no common part");
    for _ in 0..(missing - 3 * targets) / 4 {
        draft.instruction(CALL, 0, number);
    }
    draft.terminator(2, 0, 0);
    for target in 0..=targets {
        draft.target(target as u16);
    }
    draft.end();
    draft
}

/// With one over, the function too many may repeat a number: that is judged first.
fn at_functions(random: &mut Random, over: usize) -> Draft {
    let mut draft = small_opening(random, 3);
    let mut numbers = valid::distinct_bytes(random, MOST_FUNCTIONS + over);
    repeat_last(random, &mut numbers, over);
    for number in numbers {
        draft.function(number);
        if random.chance(30) {
            let lane = any_lane(random, 3);
            draft.abi(ROLE_RESULT, lane);
        }
        if random.chance(70) {
            return_block(&mut draft, random.below(3) as u16);
        }
    }
    draft.end();
    draft
}

fn repeat_last<T: Copy>(random: &mut Random, numbers: &mut [T], over: usize) {
    if over > 0 && random.chance(30) {
        let last = numbers.len() - 1;
        numbers[last] = numbers[random.below(last)];
    }
}

pub fn at_blocks(random: &mut Random, over: usize) -> Draft {
    let mut draft = small_opening(random, 3);
    if random.chance(50) {
        draft.function(1);
        return_block(&mut draft, 7);
    }
    draft.function(0);
    let start = random.below(65_536);
    let mut ids: Vec<u16> = (0..MOST_BLOCKS + over).map(|index| (start + index) as u16).collect();
    random.shuffle(&mut ids);
    repeat_last(random, &mut ids, over);
    for id in ids.clone() {
        draft.block(id);
        let (left, right) = (any_lane(random, 3), any_lane(random, 3));
        draft.simple(5, &[left, right]);
        draft.terminator(BRANCH, 2, 0);
        draft.operand(0, left);
        draft.target(random.pick(&ids));
        draft.target(random.pick(&ids));
    }
    draft.end();
    draft
}

/// Exactly 512 units and the excess. The unit too many may name no declared storage: that is judged first.
pub fn at_units(random: &mut Random, over: usize) -> Draft {
    let storages = random.pick(&[1, 2, 7, 200]);
    let mut draft = small_opening(random, storages);
    draft.function(0);
    let mut units = distinct_units(random, storages, MOST_UNITS + over);
    if over > 0 && random.chance(30) {
        let last = units.len() - 1;
        units[last] = Value::Lane {
            storage: 255,
            offset: 0,
        };
    }
    let in_abi = if random.chance(25) {
        units.len()
    } else {
        random.below(units.len())
    };
    for value in &units[..in_abi] {
        draft.abi(abi_role(*value), *value);
    }
    draft.block(9);
    for value in &units[in_abi..] {
        use_unit(&mut draft, *value);
        if random.chance(20) {
            let known = random.pick(&units[..in_abi.max(1)]);
            use_unit(&mut draft, known);
        }
    }
    draft.terminator(5, 0, 0);
    draft.end();
    draft
}

fn abi_role(value: Value) -> u8 {
    match value {
        Value::Object(_) => ROLE_CLOBBERED,
        Value::Bit(_) => ROLE_RESULT,
        _ => ROLE_PARAMETER,
    }
}

/// The shortest instruction that names the unit.
fn use_unit(draft: &mut Draft, value: Value) {
    match value {
        Value::Bit(_) => draft.simple(2, &[value]),
        Value::Object(_) => {
            draft.instruction(28, 0, 0);
            draft.operand(1, value);
        }
        _ => draft.simple(15, &[value]),
    }
}

fn distinct_units(random: &mut Random, storages: usize, count: usize) -> Vec<Value> {
    let mut units = Vec::new();
    for storage in 0..storages as u16 {
        units.push(Value::Bit(storage));
        units.push(Value::Object(storage));
    }
    for index in 0..count {
        units.push(Value::Lane {
            storage: (index % storages) as u16,
            offset: (index / storages) as u16,
        });
    }
    random.shuffle(&mut units);
    units.truncate(count);
    units
}

/// Sixteen operands and the excess in one `*` field.
fn at_operands(random: &mut Random, over: usize) -> Draft {
    let mut draft = small_opening(random, 4);
    draft.function(0);
    draft.block(0);
    let (op, field) = random.pick(&[
        (12, 1),
        (13, 0),
        (18, 0),
        (18, 1),
        (18, 2),
        (19, 1),
        (19, 2),
        (24, 0),
        (25, 1),
        (26, 2),
        (28, 0),
        (28, 1),
        (28, 3),
        (29, 0),
        (29, 1),
    ]);
    draft.instruction(op, 0, 0);
    let row = instruction_row(op, 0, 0).expect("the operation is known");
    crowded_operands(random, &mut draft, row, field, MOST_OPERANDS + over);
    let terminator = random.pick(&[2, 4]);
    draft.terminator(terminator, 0, 0);
    let row = terminator_row(terminator, 0, 0).expect("the terminator is known");
    crowded_operands(random, &mut draft, row, row.fields.len() - 1, MOST_OPERANDS);
    if terminator == 2 {
        draft.target(0);
    }
    draft.end();
    draft
}

/// One operand where one is needed, and the given number in the crowded field.
fn crowded_operands(random: &mut Random, draft: &mut Draft, row: &Row, crowded: usize, count: usize) {
    for (number, field) in row.fields.iter().enumerate() {
        let needed = usize::from(field.count == Count::One);
        for _ in 0..if number == crowded { count } else { needed } {
            let storage = random.below(4) as u16;
            let value = match field.class {
                Class::Bit | Class::BitOrConstant => Value::Bit(storage),
                Class::Object => Value::Object(storage),
                _ => any_lane(random, 4),
            };
            draft.operand(number as u8, value);
        }
    }
}

/// As many targets as the terminator takes, and the excess.
fn at_targets(random: &mut Random, over: usize) -> Draft {
    let mut draft = small_opening(random, 2);
    draft.function(0);
    let op = random.pick(&[2, 2, 2, 2, 0, 1, 3, 5, 6, 7]);
    let row = terminator_row(op, 0, 0).expect("the terminator is known");
    draft.block(3);
    draft.terminator(op, 0, 0);
    if op == BRANCH {
        draft.operand(0, Value::Bit(1));
    }
    for _ in 0..row.most_targets + over {
        draft.target(random.below(8) as u16);
    }
    return_block(&mut draft, 4);
    draft.end();
    draft
}

/// All ids from 0 to 255; an excess repeats one of them or passes the largest.
fn at_storages(random: &mut Random, over: usize) -> Draft {
    let mut draft = Draft::default();
    valid::header(random, &mut draft);
    let mut ids: Vec<u16> = (0..256).collect();
    random.shuffle(&mut ids);
    for _ in 0..over {
        ids.push(random.pick(&[0, 128, 255, 256, 65_535]));
    }
    for id in ids {
        let form = if random.chance(50) {
            byte_form(id, 0)
        } else {
            valid::storage_form(random, id, &[0, 9])
        };
        draft.storage(form);
    }
    draft.function(0);
    for _ in 0..random.below(40) {
        let lane = any_lane(random, 256);
        draft.abi(ROLE_PARAMETER, lane);
    }
    return_block(&mut draft, 0);
    draft.end();
    draft
}
