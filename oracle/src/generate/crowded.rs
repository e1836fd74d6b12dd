//! Crowded files: many storages of every kind compete for small memories, share slots or must not, and conflict.
//!
//! What the storages have in common is drawn once for a file. If every storage were any storage, the first ones of most
//! files could not be placed, and no memory would ever be full.

use super::valid::{self, Pool};
use crate::draft::{Draft, StorageForm};
use crate::program::Value;
use crate::random::Random;
use crate::records::*;
use crate::table::INSTRUCTION_OPS;
use crate::triples::TRIPLES;

const COPY_BYTE: u8 = 0;
const COPY_BIT: u8 = 1;
const SET_BIT: u8 = 2;
const PUSH: u8 = 14;
const POP: u8 = 15;
const ADDRESS_OF: u8 = 16;
const JUMP: u8 = 0;
const RETURN: u8 = 5;

/// The functions that a file may have.
const FUNCTIONS: [u8; 3] = [0, 9, 255];
/// An owner without a function record.
const NO_FUNCTION: u16 = 77;
/// More units than any block needs, and few enough for every file.
const MOST_POOL: usize = 100;

/// Region masks with room somewhere: application, shadow, work, Flash, and all.
const MASKS: [u16; 14] = [
    0x04, 0x04, 0x44, 0x24, 0x64, 0x40, 0x20, 0x60, 0x84, 0x84, 0xc4, 0xa4, 0x06, 0x1ff,
];

/// Weights of bit, byte, bytes and carry.
const KINDS: [[usize; 4]; 5] = [
    [30, 40, 20, 10],
    [90, 4, 3, 3],
    [4, 90, 4, 2],
    [4, 4, 90, 2],
    [40, 0, 40, 20],
];

/// The fixed codes that fit a bit or carry, a byte, and bytes that are longer than 1.
const BIT_CODES: [u8; 4] = [2, 4, 6, 7];
const BYTE_CODES: [u8; 9] = [1, 3, 3, 5, 8, 9, 10, 11, 12];
const BYTES_CODES: [u8; 4] = [3, 5, 10, 11];

/// What the storages of one file have in common. Numbers are percentages where nothing else is said.
struct Crowd {
    sizes: (u16, u16, u16),
    masks: Vec<u16>,
    kinds: [usize; 4],
    owners: Vec<u16>,
    lengths: Vec<u16>,
    direct: usize,
    fixed: usize,
    /// Storages that break the file's habits: any mask, any length, any code.
    odd: usize,
    addressed: usize,
}

pub fn crowded_file(random: &mut Random) -> Draft {
    let crowd = crowd(random);
    let mut draft = Draft::default();
    let (application, first, work) = crowd.sizes;
    draft.header(application, first, work);
    let most = random.pick(&[3, 8, 20, 40, 90, 200]);
    let count = random.between(1, most);
    let ids = valid::distinct_bytes(random, count);
    let forms: Vec<StorageForm> = ids.into_iter().map(|id| form(random, &crowd, id.into())).collect();
    forms.iter().for_each(|form| draft.storage(*form));
    let functions = FUNCTIONS[..random.between(1, FUNCTIONS.len())].to_vec();
    let pool = pool(random, &forms, functions.clone());
    for number in functions {
        function(random, &mut draft, &pool, number, crowd.addressed);
    }
    draft.end();
    draft
}

fn crowd(random: &mut Random) -> Crowd {
    let sizes = sizes(random);
    let mask_count = random.between(1, 3);
    let owner_count = random.between(1, 3);
    Crowd {
        sizes,
        masks: (0..mask_count).map(|_| random.pick(&MASKS)).collect(),
        kinds: random.pick(&KINDS),
        owners: (0..owner_count).map(|_| owner(random)).collect(),
        lengths: (0..3).map(|_| length(random, sizes)).collect(),
        direct: random.pick(&[0, 0, 5, 50]),
        fixed: random.pick(&[0, 0, 5, 20, 60]),
        odd: random.pick(&[0, 0, 1, 5]),
        addressed: random.pick(&[0, 0, 3, 30]),
    }
}

/// Sizes of which little is free: few bytes, or nearly all of them below F, and almost always little work RAM.
fn sizes(random: &mut Random) -> (u16, u16, u16) {
    if random.chance(30) {
        return random.pick(&TRIPLES);
    }
    let most = random.pick(&[4, 12, 256]);
    let application = random.between(1, most) as u16;
    let first = match random.below(4) {
        0 => 0,
        1 => random.between(0, application.into()) as u16,
        _ => application.saturating_sub(random.below(9) as u16),
    };
    let work = match random.below(8) {
        0 => random.between(0, 512),
        1 => random.between(505, 512),
        _ => random.between(0, 8),
    };
    (application, first, work as u16)
}

fn owner(random: &mut Random) -> u16 {
    match random.below(8) {
        0 => PROGRAM_OWNED,
        1 => NO_FUNCTION,
        _ => random.pick(&FUNCTIONS).into(),
    }
}

/// Small and odd lengths, and those that fill a memory to its last byte or need one byte more.
fn length(random: &mut Random, (application, first, work): (u16, u16, u16)) -> u16 {
    let free = application - first;
    let length = match random.below(10) {
        0 => random.pick(&[free, work]),
        1 => random.pick(&[free, work]) + 1,
        2 => random.pick(&[1, 255, 256, 257, 511, 512, 513, 65_535]),
        _ => random.pick(&[1, 2, 3, 3, 5, 5, 7, 9]),
    };
    length.max(1)
}

fn form(random: &mut Random, crowd: &Crowd, id: u16) -> StorageForm {
    let odd = random.chance(crowd.odd);
    let kind = random.weighted(&crowd.kinds) as u8;
    let length = match kind {
        KIND_BYTES if odd => length(random, crowd.sizes),
        KIND_BYTES => random.pick(&crowd.lengths),
        _ => 1,
    };
    let regions = match kind {
        _ if odd => odd_mask(random),
        KIND_CARRY if random.chance(50) => 0x02,
        _ => random.pick(&crowd.masks),
    };
    let code = fixed_code(random, crowd, kind, length, odd);
    let (a, b) = fixed_place(random, crowd.sizes, code);
    StorageForm {
        id,
        owner: random.pick(&crowd.owners),
        kind,
        length,
        regions,
        direct: u8::from(random.chance(crowd.direct)),
        code,
        a,
        b,
    }
}

/// No region, regions without room of their own, or any of the 512 masks.
fn odd_mask(random: &mut Random) -> u16 {
    match random.below(4) {
        0 => 0,
        1 => 0x02,
        2 => 0x11b,
        _ => random.below(512) as u16,
    }
}

/// A code that fits the kind, unless the storage is an odd one: a wrong code, or XRam for more than one byte.
fn fixed_code(random: &mut Random, crowd: &Crowd, kind: u8, length: u16, odd: bool) -> u8 {
    if odd && random.chance(50) {
        return random.between(1, 12) as u8;
    }
    if !random.chance(crowd.fixed) {
        return 0;
    }
    match kind {
        KIND_BIT | KIND_CARRY => random.pick(&BIT_CODES),
        KIND_BYTES if length == 1 && random.chance(30) => random.between(1, 12) as u8,
        KIND_BYTES if length > 1 => random.pick(&BYTES_CODES),
        _ => random.pick(&BYTE_CODES),
    }
}

/// Mostly inside the memory, so that places conflict with each other and not only with the end.
fn fixed_place(random: &mut Random, (application, first, work): (u16, u16, u16), code: u8) -> (u16, u16) {
    let (largest_a, largest_b) = fixed_bounds(code).expect("codes 0 to 12 have bounds");
    let (least, end) = match code {
        3 | 4 => (first, application),
        5 | 6 | 7 | 10 => (0, work),
        _ => (0, largest_a + 1),
    };
    let a = match random.below(25) {
        0 => random.between(0, largest_a.into()) as u16,
        1 => end,
        _ => random.between(least.into(), end.saturating_sub(1).max(least).into()) as u16,
    };
    (largest_a.min(a), random.between(0, largest_b.into()) as u16)
}

/// The units that the code names: lanes and bits of some storages, and some whole objects.
fn pool(random: &mut Random, forms: &[StorageForm], functions: Vec<u8>) -> Pool {
    let (mut lanes, mut bits, mut objects) = (Vec::new(), Vec::new(), Vec::new());
    for _ in 0..random.between(1, MOST_POOL) {
        let form = random.pick(forms);
        let bit = matches!(form.kind, KIND_BIT | KIND_CARRY);
        match random.below(10) {
            0 => objects.push(Value::Object(form.id)),
            _ if bit => bits.push(Value::Bit(form.id)),
            _ => lanes.push(Value::Lane {
                storage: form.id,
                offset: random.below(form.length.min(3).into()) as u16,
            }),
        }
    }
    Pool {
        lanes,
        bits,
        objects,
        functions,
    }
}

/// Blocks of copies and of other uses. Results are live to the end, so they keep storages apart.
fn function(random: &mut Random, draft: &mut Draft, pool: &Pool, number: u8, addressed: usize) {
    draft.function(number);
    let units: Vec<Value> = pool.lanes.iter().chain(&pool.bits).copied().collect();
    for _ in 0..random.pick(&[0, 0, 2, 10]) {
        if !units.is_empty() {
            draft.abi(ROLE_RESULT, random.pick(&units));
        }
    }
    let blocks = random.between(0, 3) as u16;
    for id in 0..blocks {
        draft.block(id);
        let most = random.pick(&[2, 6, 16]);
        for _ in 0..random.between(0, most) {
            statement(random, draft, pool, addressed);
        }
        if random.chance(40) {
            draft.terminator(JUMP, 0, 0);
            draft.target(random.below(blocks.into()) as u16);
        } else {
            draft.terminator(RETURN, 0, 0);
        }
    }
}

fn statement(random: &mut Random, draft: &mut Draft, pool: &Pool, addressed: usize) {
    if random.chance(addressed) {
        return address(random, draft, pool);
    }
    match random.below(10) {
        0..=2 => with_two(random, draft, COPY_BYTE, &pool.lanes),
        3..=5 => with_two(random, draft, COPY_BIT, &pool.bits),
        6 => with_one(random, draft, POP, &pool.lanes),
        7 => with_one(random, draft, SET_BIT, &pool.bits),
        8 => with_one(random, draft, PUSH, &pool.lanes),
        _ => any_instruction(random, draft, pool),
    }
}

fn with_one(random: &mut Random, draft: &mut Draft, op: u8, values: &[Value]) {
    if !values.is_empty() {
        draft.simple(op, &[random.pick(values)]);
    }
}

fn with_two(random: &mut Random, draft: &mut Draft, op: u8, values: &[Value]) {
    if !values.is_empty() {
        draft.simple(op, &[random.pick(values), random.pick(values)]);
    }
}

fn address(random: &mut Random, draft: &mut Draft, pool: &Pool) {
    if !pool.lanes.is_empty() && !pool.objects.is_empty() {
        let (low, high) = (random.pick(&pool.lanes), random.pick(&pool.lanes));
        draft.simple(ADDRESS_OF, &[low, high, random.pick(&pool.objects)]);
    }
}

fn any_instruction(random: &mut Random, draft: &mut Draft, pool: &Pool) {
    let op = random.below(INSTRUCTION_OPS.into()) as u8;
    if let Some(step) = valid::instruction(random, pool, op, 300) {
        draft.append(step);
    }
}
