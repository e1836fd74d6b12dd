//! What the two sides said where they do not agree.

use std::fmt;

use crate::lent::WrongWord;

/// One call on one file with both answers.
#[derive(Clone, Debug, PartialEq, Eq)]
pub struct Difference {
    pub file: Vec<u8>,
    /// The function with its argument and the lent lengths.
    pub call: String,
    pub expected: u64,
    pub given: u64,
    /// The first wrong word, with the name of its buffer.
    pub word: Option<(&'static str, WrongWord)>,
}

/// An answer as one number.
pub fn packed(number: u32, value: u32) -> u64 {
    u64::from(number) << 32 | u64::from(value)
}

impl fmt::Display for Difference {
    fn fmt(&self, f: &mut fmt::Formatter<'_>) -> fmt::Result {
        let hex: String = self.file.iter().map(|byte| format!("{byte:02x}")).collect();
        writeln!(f, "file of {} bytes: {hex}", self.file.len())?;
        writeln!(f, "call: {}", self.call)?;
        for (who, answer) in [("expected:", self.expected), ("given:", self.given)] {
            writeln!(f, "{who:9} number {} value {}", answer >> 32, answer as u32)?;
        }
        if let Some((buffer, word)) = self.word {
            let (index, expected, given) = (word.index, word.expected, word.given);
            writeln!(f, "{buffer}, word {index}: expected {expected:#x}, given {given:#x}")?;
        }
        Ok(())
    }
}
