//! Every function of the library with every buffer one short, exact, and longer, on accepted and on refused files.
//!
//! Each buffer and each file is an allocation of its own and has no guards, so that a memory checker sees a step past its end.
//! Where no library is linked, the stand-in shows that the test itself is right.
#![cfg(original)]

mod stand_in;

use oracle::call::{Call, Function, Lending, Outcome};
use oracle::entry::Library;
use oracle::generate::{self, limits, worst, Shape};
use oracle::original::answers::{Answers, Judged};
use oracle::original::ease::eased;
use oracle::place;
use oracle::random::Random;
use oracle::reader::check;
use oracle::records::MOST_BYTES;

/// The refusal of a place or a function number that is not there.
const ABSENT: u32 = 6;

/// Small files of every kind, and one of the largest; a memory checker takes long on large ones.
fn files() -> Vec<Vec<u8>> {
    let shapes = [
        Shape::Small,
        Shape::EveryOperation,
        Shape::Realistic,
        Shape::Crowded,
        Shape::Damaged,
        Shape::Soup,
    ];
    let mut files = vec![Vec::new(), vec![0], vec![9], vec![255; 3], vec![0; MOST_BYTES + 1]];
    for shape in shapes {
        files.extend((0..4).map(|seed| generate::file_of(&mut Random::new(seed), shape)));
    }
    let placed: Vec<Vec<u8>> = files
        .iter()
        .filter(|file| is_accepted(file))
        .map(|file| eased(file))
        .collect();
    files.extend(placed);
    files.push(limits::at_length(&mut Random::new(1), 0).bytes());
    files.push(worst::slots().bytes());
    let whole = worst::windows().bytes();
    files.extend((0..whole.len()).step_by(997).map(|length| whole[..length].to_vec()));
    files.push(whole);
    files
}

fn is_accepted(file: &[u8]) -> bool {
    check(file).is_ok()
}

/// The file in an allocation that ends where it ends.
fn own_allocation(file: &[u8]) -> Box<[u8]> {
    file.to_vec().into_boxed_slice()
}

fn every_lending(buffers: usize) -> Vec<(Lending, bool)> {
    let mut lendings = vec![(Lending::Exact, true), (Lending::Longer, true), (Lending::Empty, false)];
    for buffer in 0..buffers {
        lendings.extend([(Lending::LongerOne(buffer), true), (Lending::Short(buffer), false)]);
    }
    lendings
}

/// Calls with each lending; where a buffer is short, the file does not matter.
fn hold(call: Call, file: &[u8], outcome: &Outcome) {
    for (lending, enough) in every_lending(call.function.lengths().len()) {
        let too_short = Outcome::too_short();
        let right = if enough { outcome } else { &too_short };
        if let Err(difference) = call.compare_bare(file, lending, right) {
            panic!("{difference}");
        }
    }
}

fn hold_answered(function: Function, file: &[u8], answers: &Answers) {
    let asking = |argument| Call { function, argument };
    let units = &answers.units;
    match function {
        Function::Check(_) => {
            let count = units.iter().filter(|word| **word != 0).count() as u64;
            hold(Call::of(function), file, &Outcome::given(count, units, Vec::new()));
        }
        Function::Set(set, _) => {
            for step in answers.steps.iter().take(1).chain(answers.steps.last()) {
                let outcome = Outcome::given(0, units, vec![&step.sets[set]]);
                hold(asking(step.place), file, &outcome);
            }
        }
        Function::Effect(_) => {
            for step in answers.steps.iter().take(1).chain(answers.steps.last()) {
                let outcome = Outcome::given(step.effect.into(), units, Vec::new());
                hold(asking(step.place), file, &outcome);
            }
        }
        Function::Live(_) => {
            for answer in answers.functions.iter().take(1).chain(answers.functions.last()) {
                let outcome = Outcome::given(answer.passes, units, vec![&answer.live]);
                hold(asking(answer.number.into()), file, &outcome);
            }
        }
        Function::Graph(_) => {
            let outcome = Outcome::given(answers.passes(), units, answers.last_words());
            hold(Call::of(function), file, &outcome);
        }
        Function::Place(_) => hold(Call::of(function), file, &place::expected_of(function, answers)),
    }
}

/// A place far past the end and a number that no function has.
fn hold_absent(function: Function, file: &[u8]) {
    if let Function::Set(..) | Function::Effect(_) | Function::Live(_) = function {
        for argument in [file.len(), 70_000, u32::MAX as usize] {
            let outcome = Outcome::refused(function, ABSENT, argument as u32);
            hold(Call { function, argument }, file, &outcome);
        }
    }
}

fn hold_all(library: &Library) {
    let functions = Function::all(library);
    for file in files() {
        let file = own_allocation(&file);
        let judged = Judged::of(&file);
        for function in &functions {
            match &judged {
                Judged::Answered(answers) => {
                    hold_answered(*function, &file, answers);
                    hold_absent(*function, &file);
                }
                Judged::Refused(number, value) => {
                    hold(
                        Call::of(*function),
                        &file,
                        &Outcome::refused(*function, *number, *value),
                    );
                }
                Judged::Unanswered(reason) => panic!("the original {reason}"),
            }
        }
    }
    println!("held {} functions to their buffers", functions.len());
}

#[test]
fn the_stand_in_keeps_to_its_buffers() {
    hold_all(&stand_in::library());
}

#[test]
fn the_linked_library_keeps_to_its_buffers() {
    let library = Library::linked();
    if library.check.is_none() {
        println!("no library is linked: nothing was held");
        return;
    }
    hold_all(&library);
}
