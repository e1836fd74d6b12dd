//! Valid files of every shape: any operation with any operands that its fields take.

use crate::draft::{Draft, StorageForm};
use crate::program::Value;
use crate::random::Random;
use crate::records::*;
use crate::table::*;
use crate::triples::TRIPLES;

/// How large a file may grow.
#[derive(Clone, Copy, Debug)]
pub struct Plan {
    pub storages: usize,
    pub functions: usize,
    pub blocks: usize,
    pub instructions: usize,
    pub bytes: usize,
    pub units: usize,
}

pub const SMALL: Plan = Plan {
    storages: 6,
    functions: 3,
    blocks: 3,
    instructions: 4,
    bytes: 2_000,
    units: 24,
};

pub const MIDDLE: Plan = Plan {
    storages: 40,
    functions: 8,
    blocks: 8,
    instructions: 8,
    bytes: 9_000,
    units: 160,
};

pub const LARGE: Plan = Plan {
    storages: 256,
    functions: 64,
    blocks: 128,
    instructions: 12,
    bytes: MOST_BYTES,
    units: MOST_UNITS,
};

/// The storages and functions that a file's operands may name.
pub struct Pool {
    pub lanes: Vec<Value>,
    pub bits: Vec<Value>,
    pub objects: Vec<Value>,
    pub functions: Vec<u8>,
}

pub fn random_file(random: &mut Random, plan: Plan) -> Draft {
    let mut draft = Draft::default();
    let pool = opening(random, &mut draft, plan);
    for number in pool.functions.clone() {
        if draft.length() + 16 > plan.bytes {
            break;
        }
        function(random, &mut draft, &pool, number, plan);
    }
    draft.end();
    draft
}

/// Header and storages, with the units that the functions will draw from.
pub fn opening(random: &mut Random, draft: &mut Draft, plan: Plan) -> Pool {
    header(random, draft);
    let count = random.between(0, plan.storages);
    let functions = distinct_bytes(random, plan.functions.clamp(1, 256));
    let used = random.between(1, functions.len());
    let forms: Vec<StorageForm> = distinct_bytes(random, count)
        .into_iter()
        .map(|id| storage_form(random, u16::from(id), &functions))
        .collect();
    for form in &forms {
        draft.storage(*form);
    }
    let units = random.between(count.min(plan.units), plan.units);
    let (lanes, bits, objects) = units_of(random, &forms, units);
    Pool {
        lanes,
        bits,
        objects,
        functions: functions[..used].to_vec(),
    }
}

/// Most headers come from the sizes that the original is built for; the rest are any legal ones.
pub fn header(random: &mut Random, draft: &mut Draft) {
    let (application, first, work) = if random.chance(75) {
        random.pick(&TRIPLES)
    } else {
        let application = random.between(1, 256);
        (
            application as u16,
            random.between(0, application) as u16,
            random.between(0, 512) as u16,
        )
    };
    draft.header(application, first, work);
}

/// This many different numbers below 256: either a run from 0 or any.
pub fn distinct_bytes(random: &mut Random, count: usize) -> Vec<u8> {
    let mut numbers: Vec<u8> = (0..=255).collect();
    if random.chance(60) {
        random.shuffle(&mut numbers);
    }
    numbers.truncate(count);
    numbers
}

pub fn storage_form(random: &mut Random, id: u16, functions: &[u8]) -> StorageForm {
    let owner = match random.below(10) {
        0 | 1 => PROGRAM_OWNED,
        2 => u16::from(random.byte()),
        _ => u16::from(random.pick(functions)),
    };
    let kind = random.weighted(&[30, 40, 20, 10]) as u8;
    let code = if random.chance(80) {
        0
    } else {
        random.between(1, 12) as u8
    };
    let (largest_a, largest_b) = fixed_bounds(code).expect("codes 0 to 12 have bounds");
    StorageForm {
        id,
        owner,
        kind,
        length: storage_length(random, kind),
        regions: regions(random),
        direct: u8::from(random.chance(25)),
        code,
        a: up_to(random, largest_a),
        b: up_to(random, largest_b),
    }
}

fn storage_length(random: &mut Random, kind: u8) -> u16 {
    if kind != KIND_BYTES {
        return 1;
    }
    match random.below(20) {
        0 => 65_535,
        1 => random.between(1, 65_535) as u16,
        2 | 3 => 1,
        _ => random.between(1, 12) as u16,
    }
}

/// Masks that a compiler writes, or any of the 512.
fn regions(random: &mut Random) -> u16 {
    if random.chance(50) {
        random.below(512) as u16
    } else {
        random.pick(&[0x04, 0x44, 0x24, 0x64, 0x40, 0x20, 0x60, 0x80, 0x84, 0x06, 0x1ff])
    }
}

/// Both ends are taken more often than one number in between.
fn up_to(random: &mut Random, largest: u16) -> u16 {
    match random.below(6) {
        0 => 0,
        1 => largest,
        _ => random.below(usize::from(largest) + 1) as u16,
    }
}

/// Units of the declared storages, not more than asked for, shapes mixed.
fn units_of(random: &mut Random, forms: &[StorageForm], most: usize) -> (Vec<Value>, Vec<Value>, Vec<Value>) {
    let (mut lanes, mut bits, mut objects) = (Vec::new(), Vec::new(), Vec::new());
    if forms.is_empty() {
        return (lanes, bits, objects);
    }
    for _ in 0..most {
        let form = random.pick(forms);
        match random.below(10) {
            0..=4 => lanes.push(lane_of(random, form)),
            5..=7 => bits.push(Value::Bit(form.id)),
            _ => objects.push(Value::Object(form.id)),
        }
    }
    (lanes, bits, objects)
}

fn lane_of(random: &mut Random, form: StorageForm) -> Value {
    let offset = match random.below(12) {
        0 => random.pick(&[255, 256, 511, 512, 32_767, 65_535]),
        1 => random.below(65_536) as u16,
        _ => random.below(usize::from(form.length)) as u16,
    };
    Value::Lane {
        storage: form.id,
        offset,
    }
}

impl Pool {
    fn immediate(random: &mut Random, class: Class) -> Value {
        Value::Immediate(up_to(random, class.largest_immediate()) as u8)
    }

    /// A value that the class takes, or nothing where no storage gives one.
    pub fn value(&self, random: &mut Random, class: Class) -> Option<Value> {
        let mut shapes: Vec<u8> = (SHAPE_IMMEDIATE..=SHAPE_OBJECT)
            .filter(|&shape| class.takes(shape) && (shape == SHAPE_IMMEDIATE || !self.of(shape).is_empty()))
            .collect();
        if shapes.len() > 1 && random.chance(60) {
            shapes.retain(|&shape| shape != SHAPE_IMMEDIATE);
        }
        if shapes.is_empty() {
            return None;
        }
        match random.pick(&shapes) {
            SHAPE_IMMEDIATE => Some(Self::immediate(random, class)),
            shape => Some(random.pick(self.of(shape))),
        }
    }

    fn of(&self, shape: u8) -> &[Value] {
        match shape {
            SHAPE_LANE => &self.lanes,
            SHAPE_BIT => &self.bits,
            _ => &self.objects,
        }
    }
}

fn function(random: &mut Random, draft: &mut Draft, pool: &Pool, number: u8, plan: Plan) {
    draft.function(number);
    for _ in 0..random.below(5) {
        if draft.length() + 16 < plan.bytes {
            abi_record(random, draft, pool);
        }
    }
    let ids = block_ids(random, plan.blocks);
    for id in &ids {
        if draft.length() + 16 > plan.bytes {
            break;
        }
        block(random, draft, pool, *id, &ids, plan);
    }
}

fn abi_record(random: &mut Random, draft: &mut Draft, pool: &Pool) {
    let role = random.below(3) as u8;
    let class = if role == ROLE_CLOBBERED {
        Class::Object
    } else {
        Class::LaneOrBit
    };
    if let Some(value) = pool.value(random, class) {
        draft.abi(role, value);
    }
}

/// No block at all is a legal function; ids run from 0 or lie anywhere.
fn block_ids(random: &mut Random, most: usize) -> Vec<u16> {
    let count = random.between(0, most);
    if random.chance(60) {
        return (0..count as u16).collect();
    }
    let start = random.below(65_536);
    let stride = random.pick(&[1, 3, 257, 4_099]);
    (0..count).map(|index| (start + index * stride) as u16).collect()
}

fn block(random: &mut Random, draft: &mut Draft, pool: &Pool, id: u16, ids: &[u16], plan: Plan) {
    draft.block(id);
    for _ in 0..random.between(0, plan.instructions) {
        let op = random.below(usize::from(INSTRUCTION_OPS)) as u8;
        let room = plan.bytes.saturating_sub(draft.length() + 12);
        if let Some(step) = instruction(random, pool, op, room) {
            draft.append(step);
        }
    }
    terminator(random, draft, pool, ids, plan);
}

/// One instruction, or nothing where a needed value is missing or the room is too small.
pub fn instruction(random: &mut Random, pool: &Pool, op: u8, room: usize) -> Option<Draft> {
    let sub = random.between(0, usize::from(instruction_largest_sub(op))) as u8;
    let called = if op == CALL || op == FUNCTION_ADDRESS {
        callee(random, pool)
    } else {
        0
    };
    let row = instruction_row(op, sub, called).expect("op, sub and function are in range");
    let mut step = Draft::default();
    step.instruction(op, sub, called);
    operands(random, &mut step, pool, row)?;
    (step.length() <= room).then_some(step)
}

/// A function of this file, or a number that may have no record.
fn callee(random: &mut Random, pool: &Pool) -> u8 {
    if random.chance(70) {
        random.pick(&pool.functions)
    } else {
        random.byte()
    }
}

fn operands(random: &mut Random, step: &mut Draft, pool: &Pool, row: &Row) -> Option<()> {
    for (number, field) in row.fields.iter().enumerate() {
        for _ in 0..operand_count(random, field.count) {
            match pool.value(random, field.class) {
                Some(value) => step.operand(number as u8, value),
                None if field.count == Count::One => return None,
                None => break,
            }
        }
    }
    Some(())
}

fn operand_count(random: &mut Random, count: Count) -> usize {
    match count {
        Count::One => 1,
        Count::Optional => random.below(2),
        Count::NoneOrTwo => 2 * random.below(2),
        Count::UpToSixteen => match random.below(12) {
            0 => MOST_OPERANDS,
            1 => random.below(MOST_OPERANDS),
            _ => random.below(4),
        },
    }
}

fn terminator(random: &mut Random, draft: &mut Draft, pool: &Pool, ids: &[u16], plan: Plan) {
    let op = random.below(usize::from(TERMINATOR_OPS)) as u8;
    let sub = if op == BRANCH { random.below(8) as u8 } else { 0 };
    let called = if op == TAIL_CALL { callee(random, pool) } else { 0 };
    let row = terminator_row(op, sub, called).expect("op, sub and function are in range");
    let mut step = Draft::default();
    step.terminator(op, sub, called);
    let complete = operands(random, &mut step, pool, row).is_some();
    for _ in 0..target_count(random, row) {
        step.target(target(random, ids));
    }
    if complete && draft.length() + step.length() + 4 <= plan.bytes {
        draft.append(step);
    } else {
        draft.terminator(random.between(5, 7) as u8, 0, 0);
    }
}

fn target_count(random: &mut Random, row: &Row) -> usize {
    if row.most_targets != MOST_TARGETS {
        return row.most_targets;
    }
    if random.chance(4) {
        return random.between(1, MOST_TARGETS);
    }
    random.between(1, 6)
}

/// Mostly a block of this function, sometimes one that is missing.
fn target(random: &mut Random, ids: &[u16]) -> u16 {
    if ids.is_empty() || random.chance(12) {
        random.below(65_536) as u16
    } else {
        random.pick(ids)
    }
}
