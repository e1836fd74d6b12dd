//! The records of a program file: kinds, lengths and little-endian numbers.

pub const HEADER: u8 = 0;
pub const STORAGE: u8 = 1;
pub const FUNCTION: u8 = 2;
pub const ABI: u8 = 3;
pub const BLOCK: u8 = 4;
pub const INSTRUCTION: u8 = 5;
pub const OPERAND: u8 = 6;
pub const TERMINATOR: u8 = 7;
pub const TARGET: u8 = 8;
pub const END: u8 = 9;

pub const KIND_NAMES: [&str; 10] = [
    "header",
    "storage",
    "function",
    "ABI",
    "block",
    "instruction",
    "operand",
    "terminator",
    "target",
    "end",
];

/// The widths of a record's numbers, in the order of its body.
pub const FIELD_WIDTHS: [&[usize]; 10] = [
    &[2, 2, 2],
    &[2, 2, 1, 2, 2, 1, 1, 2, 2],
    &[1],
    &[1, 1, 2, 2],
    &[2],
    &[1, 1, 1],
    &[1, 1, 2, 2],
    &[1, 1, 1],
    &[2],
    &[],
];

pub const MOST_BYTES: usize = 16_384;
pub const MOST_FUNCTIONS: usize = 64;
pub const MOST_BLOCKS: usize = 128;
pub const MOST_UNITS: usize = 512;

/// The words of a row of units, and of a row of storages.
pub const UNIT_ROW: usize = MOST_UNITS / 64;
pub const STORAGE_ROW: usize = 256 / 64;
/// The needed words of live sets: a row for the live-in and one for the live-out of each block.
pub const LIVE_WORDS: usize = 2 * MOST_BLOCKS * UNIT_ROW;
/// The needed words of the graph, and of the copies: a row for each id.
pub const GRAPH_WORDS: usize = 256 * STORAGE_ROW;
/// The bytes of one storage in the result of placing, and the needed bytes of the result.
pub const PLACE_BYTES: usize = 8;
pub const RESULT_BYTES: usize = 256 * PLACE_BYTES;
/// The first byte of each storage in the result.
pub const PLACE: u8 = 10;

pub const ROLE_PARAMETER: u8 = 0;
pub const ROLE_RESULT: u8 = 1;
pub const ROLE_CLOBBERED: u8 = 2;

pub const PROGRAM_OWNED: u16 = 65_535;
pub const LARGEST_ID: u16 = 255;

pub const KIND_BIT: u8 = 0;
pub const KIND_BYTE: u8 = 1;
pub const KIND_BYTES: u8 = 2;
pub const KIND_CARRY: u8 = 3;

/// The length of a record with its kind byte, or nothing for an unknown kind.
pub fn record_length(kind: u8) -> Option<usize> {
    let widths = FIELD_WIDTHS.get(usize::from(kind))?;
    Some(1 + widths.iter().sum::<usize>())
}

pub fn u16_at(bytes: &[u8], at: usize) -> u16 {
    u16::from_le_bytes([bytes[at], bytes[at + 1]])
}

/// The word of a unit, as it is lent to the caller.
pub fn unit_word(shape: u8, storage: u16, offset: u16) -> u32 {
    u32::from(shape) * 16_777_216 + u32::from(storage) * 65_536 + u32::from(offset)
}

/// The largest a and b of a fixed code; unused ones are 0.
pub fn fixed_bounds(code: u8) -> Option<(u16, u16)> {
    match code {
        0 | 1 | 2 | 11 => Some((0, 0)),
        3 => Some((255, 0)),
        4 => Some((255, 7)),
        5 | 10 => Some((511, 0)),
        6 | 7 => Some((511, 7)),
        8 => Some((5, 0)),
        9 => Some((255, 3)),
        12 => Some((255, 255)),
        _ => None,
    }
}
