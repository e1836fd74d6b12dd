//! Holds a checker to the reader: the answer and every lent word, for each length of buffer.

use crate::difference::{packed, Difference};
use crate::entry::Checker;
use crate::generate;
use crate::lent::Lent;
use crate::reader::check;
use crate::records::MOST_UNITS;

/// The lengths that are lent: too short, exact, and with words past the needed ones.
const LENT_LENGTHS: [usize; 4] = [0, 511, 512, 520];

/// The number of files that were compared, or the first difference.
pub fn compare_generated(checker: Checker, files: u64, seed: u64) -> Result<u64, Difference> {
    for index in 0..files {
        let (_, file) = generate::file(seed, index);
        compare_file(checker, &file)?;
    }
    Ok(files)
}

/// Every byte string of length 0 to 2.
pub fn compare_shortest(checker: Checker) -> Result<u64, Difference> {
    compare_file(checker, &[])?;
    for first in 0..=255 {
        compare_file(checker, &[first])?;
        for second in 0..=255 {
            compare_file(checker, &[first, second])?;
        }
    }
    Ok(1 + 256 + 65_536)
}

pub fn compare_file(checker: Checker, file: &[u8]) -> Result<(), Difference> {
    let answer = check(file);
    for lent in LENT_LENGTHS {
        let (expected, words) = expected(&answer, lent);
        let mut units = Lent::new(lent, file.len());
        let given = checker(file, units.lend());
        let word = units.wrong_word(words.as_deref());
        if given != expected || word.is_some() {
            return Err(Difference {
                file: file.to_vec(),
                call: format!("check_file, lent words {lent}"),
                expected,
                given,
                word: word.map(|word| ("units", word)),
            });
        }
    }
    Ok(())
}

/// The answer and the needed words that a right checker leaves, or nothing where it leaves all as found.
fn expected(answer: &Result<Vec<u32>, (u32, u32)>, lent: usize) -> (u64, Option<Vec<u32>>) {
    if lent < MOST_UNITS {
        return (packed(1, 0), None);
    }
    match answer {
        Ok(units) => (packed(0, units.len() as u32), Some(padded(units))),
        Err((number, value)) => (packed(*number, *value), Some(padded(&[]))),
    }
}

/// The units and zeros up to the needed length.
pub fn padded(units: &[u32]) -> Vec<u32> {
    let mut words = units.to_vec();
    words.resize(MOST_UNITS, 0);
    words
}
