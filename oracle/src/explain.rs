//! The answer for one file in the lines of the program `explain`, units part.

use crate::reader::check;

const SHAPE_NAMES: [&str; 4] = ["immediate", "lane", "bit", "object"];

pub fn explain(file: &[u8]) -> String {
    match check(file) {
        Ok(units) => units_part(&units),
        Err((number, value)) => format!("refused {number} {value}\n"),
    }
}

fn units_part(units: &[u32]) -> String {
    let mut text = format!("units {}\n", units.len());
    for (number, word) in units.iter().enumerate() {
        let shape = SHAPE_NAMES[(word >> 24) as usize];
        let (storage, offset) = (word >> 16 & 255, word & 65_535);
        text.push_str(&format!("unit {number} {shape} {storage} {offset}\n"));
    }
    text
}
