//! The fields of every instruction and terminator, one row each.
//!
//! A row is written with the letters of the file format: `D` lane, `Y` lane or immediate, `B` bit, `T` bit or
//! constant, `W` lane or bit, `V` any value, `O` object. After a letter, `?` is optional, `*` is 0 to 16 and
//! `2` is none or two. Fields before the bar are written.

use std::sync::OnceLock;

/// The most operands that a `*` field takes.
pub const MOST_OPERANDS: usize = 16;
/// The most targets that a Switch takes.
pub const MOST_TARGETS: usize = 256;

pub const SHAPE_IMMEDIATE: u8 = 0;
pub const SHAPE_LANE: u8 = 1;
pub const SHAPE_BIT: u8 = 2;
pub const SHAPE_OBJECT: u8 = 3;

const INSTRUCTIONS: [&str; 30] = [
    "D|Y",       // 0 CopyByte
    "B|T",       // 1 CopyBit
    "B|",        // 2 SetBit
    "B|",        // 3 ClearBit
    "B|",        // 4 ToggleBit, whose bit is read as well
    "D|Y",       // 5 ByteUnary
    "D|YY",      // 6 ByteBinary
    "DB?|YYB?",  // 7 Add
    "DB?|YYB?",  // 8 Subtract
    "DDD|YYY",   // 9 Multiply
    "DDD|YYY",   // 10 Divide
    "DB?|YB?",   // 11 Rotate
    "D|Y*",      // 12 LoadIndirect
    "|Y*Y",      // 13 StoreIndirect
    "|Y",        // 14 Push
    "D|",        // 15 Pop
    "DD|O",      // 16 AddressOf
    "DD|",       // 17 FunctionAddress
    "D*|Y*Y*",   // 18 ShiftBytes
    "B|Y*Y*",    // 19 CompareBytes
    "D|TYY",     // 20 SelectByte
    "B|TTT",     // 21 SelectBit
    "D|T",       // 22 BitToByte
    "B|Y",       // 23 ByteToBit
    "D*|Y*",     // 24 SignExtend
    "D*|Y*",     // 25 IntegerUnaryBytes
    "D*|Y*Y*",   // 26 IntegerBinaryBytes
    "|",         // 27 Call
    "W*O*|Y2W*", // 28 CallIndirect
    "W*|V*",     // 29 Intrinsic
];

/// Branch has a row for each condition; every other terminator has one.
const BRANCHES: [&str; 8] = ["|B", "|B", "|Y", "|Y", "|B", "|B", "|YY", "|YY"];

/// Fields, least and most targets of the terminators, Branch left out.
const TERMINATORS: [(&str, usize, usize); 8] = [
    ("|", 1, 1),              // 0 Jump
    ("|", 2, 2),              // 1 Branch, fields by condition
    ("|Y*", 1, MOST_TARGETS), // 2 Switch
    ("|", 0, 0),              // 3 TailCall
    ("W*O*|Y2W*", 0, 0),      // 4 TailCallIndirect
    ("|", 0, 0),              // 5 Return
    ("|", 0, 0),              // 6 Trap
    ("|", 0, 0),              // 7 Unreachable
];

pub const FUNCTION_ADDRESS: u8 = 17;
pub const INTEGER_BINARY_BYTES: u8 = 26;
pub const CALL: u8 = 27;
pub const BRANCH: u8 = 1;
pub const TAIL_CALL: u8 = 3;

#[derive(Clone, Copy, Debug, PartialEq, Eq)]
pub enum Class {
    Lane,
    LaneOrImmediate,
    Bit,
    BitOrConstant,
    LaneOrBit,
    Value,
    Object,
}

impl Class {
    fn from_letter(letter: char) -> Self {
        match letter {
            'D' => Self::Lane,
            'Y' => Self::LaneOrImmediate,
            'B' => Self::Bit,
            'T' => Self::BitOrConstant,
            'W' => Self::LaneOrBit,
            'V' => Self::Value,
            'O' => Self::Object,
            _ => unreachable!("the rows use only the seven letters"),
        }
    }

    pub fn takes(self, shape: u8) -> bool {
        match self {
            Self::Lane => shape == SHAPE_LANE,
            Self::LaneOrImmediate => shape == SHAPE_LANE || shape == SHAPE_IMMEDIATE,
            Self::Bit => shape == SHAPE_BIT,
            Self::BitOrConstant => shape == SHAPE_BIT || shape == SHAPE_IMMEDIATE,
            Self::LaneOrBit => shape == SHAPE_LANE || shape == SHAPE_BIT,
            Self::Value => shape <= SHAPE_BIT,
            Self::Object => shape == SHAPE_OBJECT,
        }
    }

    /// The largest immediate: a field that only a bit fits takes a constant bit.
    pub fn largest_immediate(self) -> u16 {
        if self == Self::BitOrConstant {
            1
        } else {
            255
        }
    }
}

#[derive(Clone, Copy, Debug, PartialEq, Eq)]
pub enum Count {
    One,
    Optional,
    NoneOrTwo,
    UpToSixteen,
}

impl Count {
    pub fn most(self) -> usize {
        match self {
            Self::One | Self::Optional => 1,
            Self::NoneOrTwo => 2,
            Self::UpToSixteen => MOST_OPERANDS,
        }
    }

    /// Whether a field that holds this many operands may be left.
    pub fn is_enough(self, operands: usize) -> bool {
        match self {
            Self::One => operands == 1,
            Self::Optional => operands <= 1,
            Self::NoneOrTwo => operands == 0 || operands == 2,
            Self::UpToSixteen => operands <= MOST_OPERANDS,
        }
    }
}

#[derive(Clone, Copy, Debug, PartialEq, Eq)]
pub struct Field {
    pub class: Class,
    pub count: Count,
    pub written: bool,
}

/// What one instruction or terminator may carry.
#[derive(Clone, Debug, PartialEq, Eq)]
pub struct Row {
    pub fields: Vec<Field>,
    pub least_targets: usize,
    pub most_targets: usize,
}

impl Row {
    fn parse(text: &str, least_targets: usize, most_targets: usize) -> Self {
        let mut fields: Vec<Field> = Vec::new();
        let mut written = true;
        for letter in text.chars() {
            match letter {
                '|' => written = false,
                '?' => fields.last_mut().expect("a field stands before ?").count = Count::Optional,
                '2' => fields.last_mut().expect("a field stands before 2").count = Count::NoneOrTwo,
                '*' => fields.last_mut().expect("a field stands before *").count = Count::UpToSixteen,
                _ => fields.push(Field {
                    class: Class::from_letter(letter),
                    count: Count::One,
                    written,
                }),
            }
        }
        Self {
            fields,
            least_targets,
            most_targets,
        }
    }
}

struct Table {
    instructions: Vec<Row>,
    branches: Vec<Row>,
    terminators: Vec<Row>,
}

fn table() -> &'static Table {
    static TABLE: OnceLock<Table> = OnceLock::new();
    TABLE.get_or_init(|| Table {
        instructions: INSTRUCTIONS.iter().map(|text| Row::parse(text, 0, 0)).collect(),
        branches: BRANCHES.iter().map(|text| Row::parse(text, 2, 2)).collect(),
        terminators: TERMINATORS
            .iter()
            .map(|(text, least, most)| Row::parse(text, *least, *most))
            .collect(),
    })
}

pub const INSTRUCTION_OPS: u8 = INSTRUCTIONS.len() as u8;
pub const TERMINATOR_OPS: u8 = TERMINATORS.len() as u8;

/// The row of an instruction, or nothing where op, sub or function is out of range.
pub fn instruction_row(op: u8, sub: u8, function: u8) -> Option<&'static Row> {
    let calls = op == FUNCTION_ADDRESS || op == CALL;
    if sub > instruction_largest_sub(op) || (function != 0 && !calls) {
        return None;
    }
    table().instructions.get(usize::from(op))
}

pub fn instruction_largest_sub(op: u8) -> u8 {
    if op == INTEGER_BINARY_BYTES {
        8
    } else {
        0
    }
}

/// The row of a terminator, or nothing where op, sub or function is out of range.
pub fn terminator_row(op: u8, sub: u8, function: u8) -> Option<&'static Row> {
    if function != 0 && op != TAIL_CALL {
        return None;
    }
    if op == BRANCH {
        return table().branches.get(usize::from(sub));
    }
    if sub != 0 {
        return None;
    }
    table().terminators.get(usize::from(op))
}
