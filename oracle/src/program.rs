//! The program of an accepted file as a value, each part with its place in the file.

use crate::records::*;
use crate::table::{SHAPE_BIT, SHAPE_IMMEDIATE, SHAPE_LANE, SHAPE_OBJECT};

#[derive(Clone, Debug, Default, PartialEq, Eq)]
pub struct Program {
    pub header: Header,
    pub storages: Vec<Storage>,
    pub functions: Vec<Function>,
}

/// The sizes of application RAM (A), of its part that is not free (F) and of work RAM (W).
#[derive(Clone, Copy, Debug, Default, PartialEq, Eq)]
pub struct Header {
    pub application: u16,
    pub first: u16,
    pub work: u16,
}

#[derive(Clone, Debug, PartialEq, Eq)]
pub struct Storage {
    pub place: usize,
    pub id: u16,
    pub owner: Option<u8>,
    pub kind: u8,
    pub length: u16,
    pub regions: u16,
    pub direct: bool,
    pub fixed: Option<Fixed>,
}

#[derive(Clone, Copy, Debug, PartialEq, Eq)]
pub struct Fixed {
    pub code: u8,
    pub a: u16,
    pub b: u16,
}

#[derive(Clone, Debug, PartialEq, Eq)]
pub struct Function {
    pub place: usize,
    pub number: u8,
    pub abi: Vec<AbiEntry>,
    pub blocks: Vec<Block>,
}

impl Function {
    /// Every instruction and terminator, in file order.
    pub fn steps(&self) -> impl Iterator<Item = &Step> {
        self.blocks
            .iter()
            .flat_map(|block| block.instructions.iter().chain([&block.terminator]))
    }
}

#[derive(Clone, Debug, PartialEq, Eq)]
pub struct AbiEntry {
    pub place: usize,
    pub role: u8,
    pub value: Value,
}

#[derive(Clone, Debug, PartialEq, Eq)]
pub struct Block {
    pub place: usize,
    pub id: u16,
    pub instructions: Vec<Step>,
    pub terminator: Step,
}

/// An instruction or a terminator; only a terminator has targets.
#[derive(Clone, Debug, Default, PartialEq, Eq)]
pub struct Step {
    pub place: usize,
    pub op: u8,
    pub sub: u8,
    pub function: u8,
    pub operands: Vec<Operand>,
    pub targets: Vec<Target>,
}

impl Step {
    /// The values of one field, in file order.
    pub fn field(&self, number: u8) -> impl Iterator<Item = Value> + '_ {
        self.operands
            .iter()
            .filter(move |operand| operand.field == number)
            .map(|operand| operand.value)
    }
}

#[derive(Clone, Debug, PartialEq, Eq)]
pub struct Operand {
    pub place: usize,
    pub field: u8,
    pub value: Value,
}

#[derive(Clone, Debug, PartialEq, Eq)]
pub struct Target {
    pub place: usize,
    pub block: u16,
}

#[derive(Clone, Copy, Debug, PartialEq, Eq)]
pub enum Value {
    Immediate(u8),
    Lane { storage: u16, offset: u16 },
    Bit(u16),
    Object(u16),
}

impl Value {
    fn read(shape: u8, storage: u16, offset: u16) -> Self {
        match shape {
            SHAPE_IMMEDIATE => Self::Immediate(offset as u8),
            SHAPE_LANE => Self::Lane { storage, offset },
            SHAPE_BIT => Self::Bit(storage),
            _ => Self::Object(storage),
        }
    }

    /// The unit word; an immediate is no unit.
    pub fn word(self) -> Option<u32> {
        match self {
            Self::Immediate(_) => None,
            Self::Lane { storage, offset } => Some(unit_word(SHAPE_LANE, storage, offset)),
            Self::Bit(storage) => Some(unit_word(SHAPE_BIT, storage, 0)),
            Self::Object(storage) => Some(unit_word(SHAPE_OBJECT, storage, 0)),
        }
    }
}

/// Reads a file that `reader::check` has accepted.
pub fn decode(file: &[u8]) -> Program {
    let mut program = Program::default();
    let mut at = 0;
    while at < file.len() {
        let length = record_length(file[at]).expect("an accepted file has known kinds");
        program.take(file[at], &file[at + 1..at + length], at);
        at += length;
    }
    program
}

impl Program {
    /// The words of all units, by first appearance.
    pub fn unit_words(&self) -> Vec<u32> {
        let mut words = Vec::new();
        for function in &self.functions {
            let abi = function.abi.iter().map(|entry| entry.value);
            let operands = function
                .steps()
                .flat_map(|step| step.operands.iter().map(|operand| operand.value));
            for word in abi.chain(operands).filter_map(Value::word) {
                if !words.contains(&word) {
                    words.push(word);
                }
            }
        }
        words
    }

    fn take(&mut self, kind: u8, body: &[u8], place: usize) {
        match kind {
            HEADER => self.header = read_header(body),
            STORAGE => self.storages.push(read_storage(body, place)),
            FUNCTION => self.functions.push(Function {
                place,
                number: body[0],
                abi: Vec::new(),
                blocks: Vec::new(),
            }),
            ABI => self.last_function().abi.push(AbiEntry {
                place,
                role: body[0],
                value: Value::read(body[1], u16_at(body, 2), u16_at(body, 4)),
            }),
            BLOCK => self.last_function().blocks.push(Block {
                place,
                id: u16_at(body, 0),
                instructions: Vec::new(),
                terminator: Step::default(),
            }),
            INSTRUCTION => self.last_block().instructions.push(read_step(body, place)),
            TERMINATOR => self.last_block().terminator = read_step(body, place),
            OPERAND => self.open_step().operands.push(Operand {
                place,
                field: body[0],
                value: Value::read(body[1], u16_at(body, 2), u16_at(body, 4)),
            }),
            TARGET => self.open_step().targets.push(Target {
                place,
                block: u16_at(body, 0),
            }),
            _ => {}
        }
    }

    fn last_function(&mut self) -> &mut Function {
        self.functions.last_mut().expect("a function is open")
    }

    fn last_block(&mut self) -> &mut Block {
        self.last_function().blocks.last_mut().expect("a block is open")
    }

    /// The step that an operand or target belongs to: a terminator stands after the block's place once read.
    fn open_step(&mut self) -> &mut Step {
        let block = self.last_block();
        if block.terminator.place > block.place {
            &mut block.terminator
        } else {
            block.instructions.last_mut().expect("an instruction is open")
        }
    }
}

fn read_header(body: &[u8]) -> Header {
    Header {
        application: u16_at(body, 0),
        first: u16_at(body, 2),
        work: u16_at(body, 4),
    }
}

fn read_storage(body: &[u8], place: usize) -> Storage {
    let owner = u16_at(body, 2);
    let fixed = Fixed {
        code: body[10],
        a: u16_at(body, 11),
        b: u16_at(body, 13),
    };
    Storage {
        place,
        id: u16_at(body, 0),
        owner: (owner != PROGRAM_OWNED).then_some(owner as u8),
        kind: body[4],
        length: u16_at(body, 5),
        regions: u16_at(body, 7),
        direct: body[9] == 1,
        fixed: (fixed.code != 0).then_some(fixed),
    }
}

fn read_step(body: &[u8], place: usize) -> Step {
    Step {
        place,
        op: body[0],
        sub: body[1],
        function: body[2],
        operands: Vec::new(),
        targets: Vec::new(),
    }
}
