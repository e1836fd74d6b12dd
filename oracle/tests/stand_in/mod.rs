//! A library made from the reader and the original, to stand for the proved one.

use std::cell::RefCell;

use oracle::entry::Library;
use oracle::original::answers::Answers;
use oracle::reader::check;
use oracle::records::{GRAPH_WORDS, LIVE_WORDS, MOST_UNITS, RESULT_BYTES, STORAGE_ROW, UNIT_ROW};

const TOO_SHORT: u64 = 1 << 32;

/// The answers for a file, or the refusal as one number.
type Judged = Result<Answers, u64>;

thread_local! {
    static LAST: RefCell<Option<(Vec<u8>, Judged)>> = const { RefCell::new(None) };
}

pub fn library() -> Library {
    Library {
        check: Some(check_file),
        sets: [Some(reads), Some(writes), Some(storage_reads), Some(storage_writes)],
        effect: Some(effect),
        live: Some(live),
        graph: Some(graph),
        place: Some(place),
    }
}

/// The same file is asked for many times, so its answers are kept.
fn with_answers<T>(file: &[u8], then: impl FnOnce(&Judged) -> T) -> T {
    LAST.with_borrow_mut(|last| {
        if !matches!(last, Some((known, _)) if known == file) {
            let judged = match check(file) {
                Ok(units) => Ok(Answers::of(file, &units)),
                Err((number, value)) => Err(refusal(number, value as usize)),
            };
            *last = Some((file.to_vec(), judged));
        }
        then(&last.as_ref().expect("it was just set").1)
    })
}

fn refusal(number: u32, value: usize) -> u64 {
    u64::from(number) << 32 | value as u64
}

pub fn check_file(file: &[u8], units: &mut [u32]) -> u64 {
    if units.len() < MOST_UNITS {
        return TOO_SHORT;
    }
    units[..MOST_UNITS].fill(0);
    match check(file) {
        Ok(words) => {
            units[..words.len()].copy_from_slice(&words);
            words.len() as u64
        }
        Err((number, value)) => refusal(number, value as usize),
    }
}

/// Leaves the units and gives what the part says; a refusal leaves zeros.
fn with_units(file: &[u8], units: &mut [u32], part: impl FnOnce(&Answers) -> Result<u64, u64>) -> u64 {
    with_answers(file, |judged| {
        units[..MOST_UNITS].fill(0);
        let answers = match judged {
            Ok(answers) => answers,
            Err(refused) => return *refused,
        };
        match part(answers) {
            Ok(answer) => {
                units[..MOST_UNITS].copy_from_slice(&answers.units);
                answer
            }
            Err(refused) => refused,
        }
    })
}

fn set(file: &[u8], place: usize, units: &mut [u32], row: &mut [u64], set: usize, needed: usize) -> u64 {
    if units.len() < MOST_UNITS || row.len() < needed {
        return TOO_SHORT;
    }
    with_units(file, units, |answers| {
        let step = answers.steps.iter().find(|step| step.place == place);
        let step = step.ok_or(refusal(6, place))?;
        row[..needed].copy_from_slice(&step.sets[set]);
        Ok(0)
    })
}

pub fn reads(file: &[u8], place: usize, units: &mut [u32], row: &mut [u64]) -> u64 {
    set(file, place, units, row, 0, UNIT_ROW)
}

pub fn writes(file: &[u8], place: usize, units: &mut [u32], row: &mut [u64]) -> u64 {
    set(file, place, units, row, 1, UNIT_ROW)
}

pub fn storage_reads(file: &[u8], place: usize, units: &mut [u32], row: &mut [u64]) -> u64 {
    set(file, place, units, row, 2, STORAGE_ROW)
}

pub fn storage_writes(file: &[u8], place: usize, units: &mut [u32], row: &mut [u64]) -> u64 {
    set(file, place, units, row, 3, STORAGE_ROW)
}

pub fn effect(file: &[u8], place: usize, units: &mut [u32]) -> u64 {
    if units.len() < MOST_UNITS {
        return TOO_SHORT;
    }
    with_units(file, units, |answers| {
        let step = answers.steps.iter().find(|step| step.place == place);
        step.map(|step| step.effect.into()).ok_or(refusal(6, place))
    })
}

pub fn live(file: &[u8], number: usize, units: &mut [u32], live: &mut [u64]) -> u64 {
    if units.len() < MOST_UNITS || live.len() < LIVE_WORDS {
        return TOO_SHORT;
    }
    live[..LIVE_WORDS].fill(0);
    with_units(file, units, |answers| {
        let function = answers
            .functions
            .iter()
            .find(|function| usize::from(function.number) == number);
        let function = function.ok_or(refusal(6, number))?;
        live[..LIVE_WORDS].copy_from_slice(&function.live);
        Ok(function.passes)
    })
}

pub fn graph(file: &[u8], units: &mut [u32], live: &mut [u64], graph: &mut [u64], copies: &mut [u64]) -> u64 {
    let short = units.len() < MOST_UNITS || live.len() < LIVE_WORDS;
    if short || graph.len() < GRAPH_WORDS || copies.len() < GRAPH_WORDS {
        return TOO_SHORT;
    }
    live[..LIVE_WORDS].fill(0);
    graph[..GRAPH_WORDS].fill(0);
    copies[..GRAPH_WORDS].fill(0);
    with_units(file, units, |answers| {
        let last = answers.functions.last().expect("an accepted file has a function");
        live[..LIVE_WORDS].copy_from_slice(&last.live);
        graph[..GRAPH_WORDS].copy_from_slice(&answers.graph);
        copies[..GRAPH_WORDS].copy_from_slice(&answers.copies);
        Ok(answers.passes())
    })
}

pub fn place(
    file: &[u8],
    units: &mut [u32],
    live: &mut [u64],
    graph: &mut [u64],
    copies: &mut [u64],
    result: &mut [u8],
) -> u64 {
    let short = units.len() < MOST_UNITS || live.len() < LIVE_WORDS || result.len() < RESULT_BYTES;
    if short || graph.len() < GRAPH_WORDS || copies.len() < GRAPH_WORDS {
        return TOO_SHORT;
    }
    live[..LIVE_WORDS].fill(0);
    graph[..GRAPH_WORDS].fill(0);
    copies[..GRAPH_WORDS].fill(0);
    with_units(file, units, |answers| {
        let placed = answers.placed.as_ref();
        let placed = placed.map_err(|(number, value)| refusal(*number, *value as usize))?;
        result[..RESULT_BYTES].copy_from_slice(&placed.result);
        let words = answers.last_words();
        live[..LIVE_WORDS].copy_from_slice(words[0]);
        graph[..GRAPH_WORDS].copy_from_slice(words[1]);
        copies[..GRAPH_WORDS].copy_from_slice(words[2]);
        Ok(answers.place_number(placed))
    })
}
