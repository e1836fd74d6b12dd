//! Damage to a valid file: cut, changed, moved, repeated, removed or added.

// All damage has one type, so that one table can hold it.
#![allow(clippy::ptr_arg)]

use crate::draft::Draft;
use crate::random::Random;
use crate::records::*;

type Damage = fn(&mut Random, &mut Vec<Vec<u8>>);

/// Damage to whole records or to a number in one of them.
const RECORD_DAMAGE: [Damage; 11] = [
    remove_record,
    repeat_record,
    move_record,
    swap_records,
    change_number,
    change_number,
    spoil_record,
    share_id,
    undeclare,
    insert_record,
    disturb_targets,
];

/// Damages up to three records, or bytes wherever they stand, or both.
pub fn damaged_file(random: &mut Random, draft: &Draft) -> Vec<u8> {
    let mut records = draft.records.clone();
    let times = random.weighted(&[25, 50, 15, 10]);
    for _ in 0..times {
        let damage = random.pick(&RECORD_DAMAGE);
        damage(random, &mut records);
    }
    let mut bytes = records.concat();
    if times == 0 || random.chance(20) {
        damage_bytes(random, &mut bytes);
    }
    bytes
}

fn place(random: &mut Random, records: &[Vec<u8>]) -> Option<usize> {
    (!records.is_empty()).then(|| random.below(records.len()))
}

/// The indices of the records of one kind.
fn of_kind(records: &[Vec<u8>], kind: u8) -> Vec<usize> {
    (0..records.len()).filter(|&index| records[index][0] == kind).collect()
}

fn remove_record(random: &mut Random, records: &mut Vec<Vec<u8>>) {
    if let Some(at) = place(random, records) {
        records.remove(at);
    }
}

/// Repeats a record once, or often enough to pass the count of any field.
fn repeat_record(random: &mut Random, records: &mut Vec<Vec<u8>>) {
    if let Some(at) = place(random, records) {
        let times = random.pick(&[1, 1, 1, 2, 17, 257]);
        let copies = vec![records[at].clone(); times];
        records.splice(at..at, copies);
        if random.chance(30) {
            change_field(random, &mut records[at + times]);
        }
    }
}

fn move_record(random: &mut Random, records: &mut Vec<Vec<u8>>) {
    if let Some(from) = place(random, records) {
        let record = records.remove(from);
        let to = random.below(records.len() + 1);
        records.insert(to, record);
    }
}

fn swap_records(random: &mut Random, records: &mut Vec<Vec<u8>>) {
    if let (Some(one), Some(other)) = (place(random, records), place(random, records)) {
        records.swap(one, other);
    }
}

/// Puts a number next to a bound into some record. A kind is drawn first, so that rare kinds are met too.
fn change_number(random: &mut Random, records: &mut Vec<Vec<u8>>) {
    let candidates = of_kind(records, random.below(9) as u8);
    if candidates.is_empty() {
        return;
    }
    let at = random.pick(&candidates);
    change_field(random, &mut records[at]);
}

/// Changes several numbers of one record, so that its faults compete.
fn spoil_record(random: &mut Random, records: &mut Vec<Vec<u8>>) {
    if let Some(at) = place(random, records) {
        for _ in 0..random.between(2, 4) {
            change_field(random, &mut records[at]);
        }
    }
}

fn change_field(random: &mut Random, record: &mut [u8]) {
    let widths = FIELD_WIDTHS[usize::from(record[0])];
    if widths.is_empty() {
        return;
    }
    let field = random.below(widths.len());
    let at = 1 + widths[..field].iter().sum::<usize>();
    let old = (0..widths[field])
        .map(|byte| usize::from(record[at + byte]) << (8 * byte))
        .sum();
    let new = near_a_bound(random, old) as u16;
    record[at..at + widths[field]].copy_from_slice(&new.to_le_bytes()[..widths[field]]);
}

fn near_a_bound(random: &mut Random, old: usize) -> usize {
    match random.below(4) {
        0 => old + 1,
        1 => old.wrapping_sub(1),
        2 => random.below(65_536),
        _ => random.pick(&[
            0, 1, 2, 3, 4, 5, 6, 7, 8, 9, 12, 13, 17, 26, 27, 29, 30, 255, 256, 257, 511, 512, 513, 65_534, 65_535,
        ]),
    }
}

/// Gives a storage, function or block the number of another.
fn share_id(random: &mut Random, records: &mut Vec<Vec<u8>>) {
    let kind = random.pick(&[STORAGE, FUNCTION, BLOCK]);
    let candidates = of_kind(records, kind);
    if candidates.is_empty() {
        return;
    }
    let width = FIELD_WIDTHS[usize::from(kind)][0];
    let id = records[random.pick(&candidates)][1..=width].to_vec();
    records[random.pick(&candidates)][1..=width].copy_from_slice(&id);
}

/// Names a storage that is likely not declared, in an operand or ABI record, or removes a declaration.
fn undeclare(random: &mut Random, records: &mut Vec<Vec<u8>>) {
    let kind = random.pick(&[ABI, OPERAND, OPERAND, STORAGE]);
    let candidates = of_kind(records, kind);
    if candidates.is_empty() {
        return;
    }
    let at = random.pick(&candidates);
    if kind == STORAGE {
        records.remove(at);
        return;
    }
    let storage = match random.below(4) {
        0 => random.pick(&[255, 256, 512, 65_535]),
        1 => random.below(65_536),
        _ => random.below(256),
    };
    records[at][3..5].copy_from_slice(&(storage as u16).to_le_bytes());
}

/// Inserts a record of any kind whose numbers are small or copied from one that the file has.
fn insert_record(random: &mut Random, records: &mut Vec<Vec<u8>>) {
    let kind = random.below(10) as u8;
    let known = of_kind(records, kind);
    let record = if !known.is_empty() && random.chance(60) {
        records[random.pick(&known)].clone()
    } else {
        random_record(random, kind)
    };
    let at = random.below(records.len() + 1);
    records.insert(at, record);
}

/// Sets an operand or another target beside a target, or takes away what stands before it.
fn disturb_targets(random: &mut Random, records: &mut Vec<Vec<u8>>) {
    let targets = of_kind(records, TARGET);
    if targets.is_empty() {
        return;
    }
    let at = random.pick(&targets);
    if random.chance(30) {
        records.remove(at - usize::from(at > 0));
        return;
    }
    let kind = random.pick(&[OPERAND, TARGET]);
    let known = of_kind(records, kind);
    if !known.is_empty() {
        let record = records[random.pick(&known)].clone();
        records.insert(at + random.below(2), record);
    }
}

/// A record of this kind with small numbers, which are often in range.
pub fn random_record(random: &mut Random, kind: u8) -> Vec<u8> {
    let mut record = vec![kind];
    for &width in FIELD_WIDTHS[usize::from(kind)] {
        let number = if random.chance(85) {
            random.below(4)
        } else {
            random.below(65_536)
        };
        record.extend(&(number as u16).to_le_bytes()[..width]);
    }
    record
}

/// A header and some storages, then records in no order.
pub fn soup_file(random: &mut Random) -> Vec<u8> {
    let mut bytes = Vec::new();
    if random.chance(95) {
        bytes.extend([HEADER, 64, 0, 8, 0, 64, 0]);
    }
    for id in 0..random.below(5) as u8 {
        bytes.extend([STORAGE, id, 0, 0, 0, id % 4, 1, 0, 4, 0, 0, 0, 0, 0, 0, 0]);
    }
    if random.chance(90) {
        bytes.extend([FUNCTION, 0]);
    }
    for _ in 0..random.below(30) {
        let kind = random.weighted(&[1, 1, 3, 6, 14, 30, 40, 30, 20, 4]) as u8;
        bytes.extend(random_record(random, kind));
    }
    bytes
}

fn damage_bytes(random: &mut Random, bytes: &mut Vec<u8>) {
    let at = random.below(bytes.len() + 1);
    match random.below(7) {
        0 | 1 => bytes.truncate(at),
        2 if at < bytes.len() => bytes[at] = random.byte(),
        3 if at < bytes.len() => bytes[at] ^= 1 << random.below(8),
        4 => bytes.insert(at, random.byte()),
        5 if at < bytes.len() => {
            bytes.remove(at);
        }
        _ => append_bytes(random, bytes),
    }
}

/// Bytes after the end: a few, a second file, or more than the format allows.
fn append_bytes(random: &mut Random, bytes: &mut Vec<u8>) {
    match random.below(10) {
        0 => bytes.extend(bytes.clone()),
        1 => bytes.resize(MOST_BYTES + random.pick(&[0, 1, 2, 3_000, 60_000]), END),
        2 | 3 => bytes.push(END),
        _ => (0..random.between(1, 20)).for_each(|_| bytes.push(random.byte() % 12)),
    }
}
