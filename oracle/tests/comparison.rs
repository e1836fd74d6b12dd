//! The comparison itself: a right checker passes, and each kind of wrong one is caught.

use oracle::compare::{compare_file, compare_generated, compare_shortest};
use oracle::reader::check;

/// A checker made from the reader, to stand for the proved one.
fn right(file: &[u8], units: &mut [u32]) -> u64 {
    if units.len() < 512 {
        return 1 << 32;
    }
    units[..512].fill(0);
    match check(file) {
        Ok(words) => {
            units[..words.len()].copy_from_slice(&words);
            words.len() as u64
        }
        Err((number, value)) => u64::from(number) << 32 | u64::from(value),
    }
}

fn writes_when_short(file: &[u8], units: &mut [u32]) -> u64 {
    if !units.is_empty() && units.len() < 512 {
        units[0] = 0;
    }
    right(file, units)
}

fn writes_past(file: &[u8], units: &mut [u32]) -> u64 {
    if let Some(word) = units.get_mut(512) {
        *word = 0;
    }
    right(file, units)
}

fn keeps_old_words(file: &[u8], units: &mut [u32]) -> u64 {
    let last = units.last().copied();
    let answer = right(file, units);
    if let (Some(word), Some(last)) = (units.last_mut(), last) {
        *word = last;
    }
    answer
}

fn wrong_place(file: &[u8], units: &mut [u32]) -> u64 {
    let answer = right(file, units);
    if answer >> 32 == 5 {
        answer - 1
    } else {
        answer
    }
}

#[test]
fn a_right_checker_passes() {
    assert_eq!(compare_shortest(right), Ok(65_793));
    assert_eq!(compare_generated(right, 2_000, 3), Ok(2_000));
}

#[test]
fn wrong_checkers_are_caught() {
    assert!(compare_file(writes_when_short, &[]).is_err());
    assert!(compare_file(writes_past, &[]).is_err());
    assert!(compare_file(keeps_old_words, &[]).is_err());
    assert!(compare_generated(wrong_place, 2_000, 3).is_err());
}

#[test]
fn a_difference_shows_file_and_answers() {
    let difference = compare_file(|_, _| 7, &[9, 10]).expect_err("7 is never the answer");
    let text = difference.to_string();
    assert!(text.contains("file of 2 bytes: 090a"), "{text}");
    assert!(text.contains("number 1 value 0"), "{text}");
}
