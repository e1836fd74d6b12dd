//! The checker, written from the description of the file format alone.
//!
//! Records are judged from the front. At each one the tests run in a fixed order, and the first that fails
//! decides the refusal: kind, whole body, unfinished step, block without terminator, order, fields, declared
//! storages, repeated numbers, limits.

use std::collections::{HashMap, HashSet};

use crate::records::*;
use crate::table::{instruction_row, terminator_row, Row, SHAPE_BIT, SHAPE_IMMEDIATE, SHAPE_LANE, SHAPE_OBJECT};

pub const FORM: u32 = 2;
pub const REPEATED: u32 = 3;
pub const UNDECLARED: u32 = 4;
pub const LIMIT: u32 = 5;

/// Why a file is refused. The cause is for tables only: it is no part of the answer.
#[derive(Clone, Copy, Debug, PartialEq, Eq)]
pub struct Refusal {
    pub number: u32,
    pub value: u32,
    pub cause: &'static str,
}

fn refuse<T>(number: u32, place: usize, cause: &'static str) -> Result<T, Refusal> {
    Err(Refusal {
        number,
        value: place as u32,
        cause,
    })
}

/// The unit words in order, or the number and value of the refusal.
pub fn check(file: &[u8]) -> Result<Vec<u32>, (u32, u32)> {
    judge(file).map_err(|refusal| (refusal.number, refusal.value))
}

/// As `check`, with the cause of a refusal.
pub fn judge(file: &[u8]) -> Result<Vec<u32>, Refusal> {
    if file.len() > MOST_BYTES {
        return refuse(LIMIT, MOST_BYTES, "file too long");
    }
    let mut reader = Reader::new();
    let mut at = 0;
    while reader.section != Section::Ended {
        let record = record_at(file, at)?;
        reader.step(record, at)?;
        at += record.len();
    }
    if at < file.len() {
        return refuse(FORM, at, "bytes after the end");
    }
    Ok(reader.units)
}

/// The bytes of the record that starts here.
fn record_at(file: &[u8], at: usize) -> Result<&[u8], Refusal> {
    let Some(&kind) = file.get(at) else {
        return refuse(FORM, at, "file stops before the end");
    };
    let Some(length) = record_length(kind) else {
        return refuse(FORM, at, "unknown kind");
    };
    match file.get(at..at + length) {
        Some(record) => Ok(record),
        None => refuse(FORM, at, "body cut short"),
    }
}

/// Where in the fixed order of records the reader stands.
#[derive(Clone, Copy, Debug, PartialEq, Eq)]
enum Section {
    Start,
    Storages,
    Abi,
    /// Inside a block whose terminator is still to come.
    Instructions,
    Terminated,
    Ended,
}

impl Section {
    /// Operands and targets depend on the open step, so they are judged apart.
    fn admits(self, kind: u8) -> bool {
        match kind {
            HEADER => self == Self::Start,
            STORAGE => self == Self::Storages,
            FUNCTION => matches!(self, Self::Storages | Self::Abi | Self::Terminated),
            ABI => self == Self::Abi,
            BLOCK | END => matches!(self, Self::Abi | Self::Terminated),
            _ => self == Self::Instructions,
        }
    }
}

/// An instruction or terminator that may still take operands and targets.
struct Open {
    place: usize,
    row: &'static Row,
    field: usize,
    operands: [usize; 6],
    targets: usize,
}

impl Open {
    fn is_finished(&self) -> bool {
        let fields = self.row.fields.iter().zip(self.operands);
        self.targets >= self.row.least_targets
            && fields
                .into_iter()
                .all(|(field, operands)| field.count.is_enough(operands))
    }
}

struct Reader {
    section: Section,
    declared: [bool; 256],
    functions: HashSet<u8>,
    blocks: HashSet<u16>,
    block_place: usize,
    open: Option<Open>,
    units: Vec<u32>,
    known_units: HashMap<u32, usize>,
}

impl Reader {
    fn new() -> Self {
        Self {
            section: Section::Start,
            declared: [false; 256],
            functions: HashSet::new(),
            blocks: HashSet::new(),
            block_place: 0,
            open: None,
            units: Vec::new(),
            known_units: HashMap::new(),
        }
    }

    fn step(&mut self, record: &[u8], place: usize) -> Result<(), Refusal> {
        let (kind, body) = (record[0], &record[1..]);
        match kind {
            OPERAND => return self.operand(body, place),
            TARGET => return self.target(place),
            _ => {}
        }
        self.close(kind)?;
        if !self.section.admits(kind) {
            return refuse(FORM, place, "record out of order");
        }
        match kind {
            HEADER => self.header(body, place),
            STORAGE => self.storage(body, place),
            FUNCTION => self.function(body, place),
            ABI => self.abi(body, place),
            BLOCK => self.block(body, place),
            INSTRUCTION => self.instruction(body, place),
            TERMINATOR => self.terminator(body, place),
            _ => {
                self.section = Section::Ended;
                Ok(())
            }
        }
    }

    /// What every record but an operand or a target asks of the step and the block before it.
    fn close(&mut self, kind: u8) -> Result<(), Refusal> {
        if let Some(open) = self.open.take() {
            if !open.is_finished() {
                return refuse(FORM, open.place, "unfinished instruction or terminator");
            }
        }
        if matches!(kind, FUNCTION | BLOCK | END) && self.section == Section::Instructions {
            return refuse(FORM, self.block_place, "block without terminator");
        }
        Ok(())
    }

    fn header(&mut self, body: &[u8], place: usize) -> Result<(), Refusal> {
        let (application, first, work) = (u16_at(body, 0), u16_at(body, 2), u16_at(body, 4));
        if !(1..=256).contains(&application) {
            return refuse(FORM, place, "header A out of range");
        }
        if first > application {
            return refuse(FORM, place, "header F out of range");
        }
        if work > 512 {
            return refuse(FORM, place, "header W out of range");
        }
        self.section = Section::Storages;
        Ok(())
    }

    fn storage(&mut self, body: &[u8], place: usize) -> Result<(), Refusal> {
        if let Some(cause) = storage_fault(body) {
            return refuse(FORM, place, cause);
        }
        let declared = &mut self.declared[usize::from(u16_at(body, 0))];
        if *declared {
            return refuse(REPEATED, place, "repeated storage id");
        }
        *declared = true;
        Ok(())
    }

    fn function(&mut self, body: &[u8], place: usize) -> Result<(), Refusal> {
        if !self.functions.insert(body[0]) {
            return refuse(REPEATED, place, "repeated function number");
        }
        if self.functions.len() > MOST_FUNCTIONS {
            return refuse(LIMIT, place, "too many functions");
        }
        self.blocks.clear();
        self.section = Section::Abi;
        Ok(())
    }

    fn abi(&mut self, body: &[u8], place: usize) -> Result<(), Refusal> {
        let (role, shape) = (body[0], body[1]);
        let (storage, offset) = (u16_at(body, 2), u16_at(body, 4));
        let fits = match role {
            ROLE_PARAMETER | ROLE_RESULT => shape == SHAPE_LANE || shape == SHAPE_BIT,
            ROLE_CLOBBERED => shape == SHAPE_OBJECT,
            _ => return refuse(FORM, place, "unknown ABI role"),
        };
        if !fits {
            return refuse(FORM, place, "ABI shape does not fit its role");
        }
        if shape != SHAPE_LANE && offset != 0 {
            return refuse(FORM, place, "ABI offset of a bit or object");
        }
        self.unit(shape, storage, offset, place)
    }

    fn block(&mut self, body: &[u8], place: usize) -> Result<(), Refusal> {
        if !self.blocks.insert(u16_at(body, 0)) {
            return refuse(REPEATED, place, "repeated block id");
        }
        if self.blocks.len() > MOST_BLOCKS {
            return refuse(LIMIT, place, "too many blocks");
        }
        self.block_place = place;
        self.section = Section::Instructions;
        Ok(())
    }

    fn instruction(&mut self, body: &[u8], place: usize) -> Result<(), Refusal> {
        let Some(row) = instruction_row(body[0], body[1], body[2]) else {
            return refuse(FORM, place, "instruction op, sub or function");
        };
        self.start(row, place);
        Ok(())
    }

    fn terminator(&mut self, body: &[u8], place: usize) -> Result<(), Refusal> {
        let Some(row) = terminator_row(body[0], body[1], body[2]) else {
            return refuse(FORM, place, "terminator op, sub or function");
        };
        self.start(row, place);
        self.section = Section::Terminated;
        Ok(())
    }

    fn start(&mut self, row: &'static Row, place: usize) {
        self.open = Some(Open {
            place,
            row,
            field: 0,
            operands: [0; 6],
            targets: 0,
        });
    }

    fn operand(&mut self, body: &[u8], place: usize) -> Result<(), Refusal> {
        let Some(open) = &mut self.open else {
            return refuse(FORM, place, "operand with nothing open");
        };
        if open.targets > 0 {
            return refuse(FORM, place, "operand after a target");
        }
        let number = usize::from(body[0]);
        let Some(field) = open.row.fields.get(number) else {
            return refuse(FORM, place, "no such field");
        };
        if number < open.field {
            return refuse(FORM, place, "falling field order");
        }
        let (shape, storage, offset) = (body[1], u16_at(body, 2), u16_at(body, 4));
        if open.operands[number] == field.count.most() {
            return refuse(FORM, place, "one operand too many");
        }
        if !field.class.takes(shape) {
            return refuse(FORM, place, "shape does not fit the field");
        }
        if let Some(cause) = value_fault(shape, storage, offset, field.class.largest_immediate()) {
            return refuse(FORM, place, cause);
        }
        open.field = number;
        open.operands[number] += 1;
        if shape == SHAPE_IMMEDIATE {
            return Ok(());
        }
        self.unit(shape, storage, offset, place)
    }

    fn target(&mut self, place: usize) -> Result<(), Refusal> {
        let Some(open) = &mut self.open else {
            return refuse(FORM, place, "target with nothing open");
        };
        if open.targets == open.row.most_targets {
            return refuse(FORM, place, "one target too many");
        }
        open.targets += 1;
        Ok(())
    }

    /// Numbers a unit at its first appearance.
    fn unit(&mut self, shape: u8, storage: u16, offset: u16, place: usize) -> Result<(), Refusal> {
        if !self.declared.get(usize::from(storage)).copied().unwrap_or(false) {
            return refuse(UNDECLARED, place, "storage not declared");
        }
        let word = unit_word(shape, storage, offset);
        let next = self.units.len();
        if *self.known_units.entry(word).or_insert(next) < next {
            return Ok(());
        }
        if next == MOST_UNITS {
            return refuse(LIMIT, place, "too many units");
        }
        self.units.push(word);
        Ok(())
    }
}

fn value_fault(shape: u8, storage: u16, offset: u16, largest_immediate: u16) -> Option<&'static str> {
    match shape {
        SHAPE_IMMEDIATE if storage != 0 => Some("immediate that names a storage"),
        SHAPE_IMMEDIATE if offset > largest_immediate => Some("immediate out of range"),
        SHAPE_BIT | SHAPE_OBJECT if offset != 0 => Some("offset of a bit or object"),
        _ => None,
    }
}

fn storage_fault(body: &[u8]) -> Option<&'static str> {
    let (id, owner, kind, length) = (u16_at(body, 0), u16_at(body, 2), body[4], u16_at(body, 5));
    let (regions, direct, code) = (u16_at(body, 7), body[9], body[10]);
    let (a, b) = (u16_at(body, 11), u16_at(body, 13));
    let Some((largest_a, largest_b)) = fixed_bounds(code) else {
        return Some("storage fixed code");
    };
    let length_fits = if kind == KIND_BYTES { length >= 1 } else { length == 1 };
    let faults = [
        (id > LARGEST_ID, "storage id out of range"),
        (owner > LARGEST_ID && owner != PROGRAM_OWNED, "storage owner"),
        (kind > KIND_CARRY, "storage kind"),
        (!length_fits, "storage length"),
        (regions > 511, "storage regions"),
        (direct > 1, "storage direct flag"),
        (a > largest_a, "storage fixed a"),
        (b > largest_b, "storage fixed b"),
    ];
    faults.into_iter().find_map(|(fails, cause)| fails.then_some(cause))
}
