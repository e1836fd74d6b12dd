//! A program file in the making: a list of records, so that damage can move, repeat or remove whole ones.

use std::collections::HashSet;

use crate::program::Value;
use crate::records::*;
use crate::table::{SHAPE_BIT, SHAPE_IMMEDIATE, SHAPE_LANE, SHAPE_OBJECT};

#[derive(Clone, Debug, Default)]
pub struct Draft {
    pub records: Vec<Vec<u8>>,
    length: usize,
    units: HashSet<u32>,
}

/// The numbers of a storage record.
#[derive(Clone, Copy, Debug)]
pub struct StorageForm {
    pub id: u16,
    pub owner: u16,
    pub kind: u8,
    pub length: u16,
    pub regions: u16,
    pub direct: u8,
    pub code: u8,
    pub a: u16,
    pub b: u16,
}

/// Shape, storage and offset as a record carries them.
fn value_numbers(value: Value) -> (u8, u16, u16) {
    match value {
        Value::Immediate(number) => (SHAPE_IMMEDIATE, 0, u16::from(number)),
        Value::Lane { storage, offset } => (SHAPE_LANE, storage, offset),
        Value::Bit(storage) => (SHAPE_BIT, storage, 0),
        Value::Object(storage) => (SHAPE_OBJECT, storage, 0),
    }
}

impl Draft {
    pub fn bytes(&self) -> Vec<u8> {
        self.records.concat()
    }

    /// The bytes so far.
    pub fn length(&self) -> usize {
        self.length
    }

    /// The different units so far.
    pub fn units(&self) -> usize {
        self.units.len()
    }

    pub fn push(&mut self, record: Vec<u8>) {
        self.length += record.len();
        self.records.push(record);
    }

    /// Takes over the records of a part that was drafted on its own.
    pub fn append(&mut self, part: Draft) {
        self.length += part.length;
        self.records.extend(part.records);
        self.units.extend(part.units);
    }

    pub fn header(&mut self, application: u16, first: u16, work: u16) {
        let numbers = [application, first, work].map(u16::to_le_bytes);
        self.push([&[HEADER][..], &numbers.concat()].concat());
    }

    pub fn storage(&mut self, form: StorageForm) {
        let mut record = vec![STORAGE];
        record.extend(form.id.to_le_bytes());
        record.extend(form.owner.to_le_bytes());
        record.push(form.kind);
        record.extend(form.length.to_le_bytes());
        record.extend(form.regions.to_le_bytes());
        record.extend([form.direct, form.code]);
        record.extend(form.a.to_le_bytes());
        record.extend(form.b.to_le_bytes());
        self.push(record);
    }

    pub fn function(&mut self, number: u8) {
        self.push(vec![FUNCTION, number]);
    }

    pub fn abi(&mut self, role: u8, value: Value) {
        self.value_record(ABI, role, value);
    }

    pub fn block(&mut self, id: u16) {
        let [low, high] = id.to_le_bytes();
        self.push(vec![BLOCK, low, high]);
    }

    pub fn instruction(&mut self, op: u8, sub: u8, function: u8) {
        self.push(vec![INSTRUCTION, op, sub, function]);
    }

    pub fn operand(&mut self, field: u8, value: Value) {
        self.value_record(OPERAND, field, value);
    }

    pub fn terminator(&mut self, op: u8, sub: u8, function: u8) {
        self.push(vec![TERMINATOR, op, sub, function]);
    }

    pub fn target(&mut self, block: u16) {
        let [low, high] = block.to_le_bytes();
        self.push(vec![TARGET, low, high]);
    }

    pub fn end(&mut self) {
        self.push(vec![END]);
    }

    /// Takes the end off again, so that more can follow.
    pub fn drop_end(&mut self) {
        let end = self.records.pop().expect("the draft was ended");
        self.length -= end.len();
    }

    /// A function number that no record of the draft has.
    pub fn free_function(&self) -> u8 {
        let taken = |number: &u8| self.records.contains(&vec![FUNCTION, *number]);
        (0..=255)
            .find(|number| !taken(number))
            .expect("a draft has at most 64 functions")
    }

    /// An instruction with one operand in each of its fields.
    pub fn simple(&mut self, op: u8, values: &[Value]) {
        self.instruction(op, 0, 0);
        for (field, value) in values.iter().enumerate() {
            self.operand(field as u8, *value);
        }
    }

    fn value_record(&mut self, kind: u8, first: u8, value: Value) {
        let (shape, storage, offset) = value_numbers(value);
        let mut record = vec![kind, first, shape];
        record.extend(storage.to_le_bytes());
        record.extend(offset.to_le_bytes());
        self.push(record);
        self.units.extend(value.word());
    }
}
