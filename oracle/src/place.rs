//! Holds the placer to the original: answer, result and every lent word, for each length of each buffer.

use std::collections::BTreeMap;
use std::fmt;

use crate::call::{Call, Function, Lending, Outcome};
use crate::difference::Difference;
use crate::entry::Placer;
use crate::generate;
use crate::original::answers::{Answers, Judged};
use crate::original::ease::eased_in_turn;

/// The refusals of placing itself; the smaller numbers are those of the file.
pub const PLACE_REFUSALS: [u32; 5] = [8, 9, 10, 11, 12];

/// What became of the files of a run.
#[derive(Clone, Debug, Default, PartialEq, Eq)]
pub struct Totals {
    pub files: u64,
    pub placed: u64,
    /// Files by the number of their refusal.
    pub refused: BTreeMap<u32, u64>,
    pub unanswered: u64,
}

impl Totals {
    pub fn refusals(&self, number: u32) -> u64 {
        self.refused.get(&number).copied().unwrap_or(0)
    }

    /// The files whose form is accepted, whether they can be placed or not.
    pub fn accepted(&self) -> u64 {
        let refused = PLACE_REFUSALS.iter().map(|number| self.refusals(*number));
        self.placed + refused.sum::<u64>()
    }

    /// Counts one file by the number of its refusal, if it has one.
    pub fn count(&mut self, refusal: Option<u32>) {
        self.files += 1;
        match refusal {
            None => self.placed += 1,
            Some(number) => *self.refused.entry(number).or_default() += 1,
        }
    }

    pub fn count_judged(&mut self, judged: &Judged) {
        match judged {
            Judged::Answered(answers) => self.count(answers.placed.as_ref().err().map(|(number, _)| *number)),
            Judged::Refused(number, _) => self.count(Some(*number)),
            Judged::Unanswered(_) => {
                self.files += 1;
                self.unanswered += 1;
            }
        }
    }
}

impl fmt::Display for Totals {
    fn fmt(&self, f: &mut fmt::Formatter<'_>) -> fmt::Result {
        for (number, count) in &self.refused {
            writeln!(f, "refusal {number:2} met {count} times")?;
        }
        if self.unanswered > 0 {
            writeln!(
                f,
                "left out {} files that the original does not answer",
                self.unanswered
            )?;
        }
        write!(
            f,
            "placed {} of {} files ({} accepted)",
            self.placed,
            self.files,
            self.accepted()
        )
    }
}

/// The file of this index in the run of this seed, with storages eased in every second one.
pub fn run_file(seed: u64, index: u64) -> Vec<u8> {
    let (shape, file) = generate::place_file(seed, index);
    eased_in_turn(shape, file, index)
}

/// Counts the generated files that agree, up to the first difference.
pub fn compare_generated(placer: Placer, files: u64, seed: u64) -> Result<Totals, Difference> {
    let mut totals = Totals::default();
    for index in 0..files {
        let file = run_file(seed, index);
        let judged = Judged::of(&file);
        totals.count_judged(&judged);
        if let Judged::Unanswered(reason) = judged {
            println!("the original {reason} on file {index} of seed {seed}, which is left out");
        }
        compare_judged(placer, &file, &judged)?;
    }
    Ok(totals)
}

pub fn compare_judged(placer: Placer, file: &[u8], judged: &Judged) -> Result<(), Difference> {
    let function = Function::Place(placer);
    let call = Call::of(function);
    for buffer in 0..function.lengths().len() {
        call.compare(file, Lending::Short(buffer), &Outcome::too_short())?;
    }
    call.compare(file, Lending::Empty, &Outcome::too_short())?;
    let Some(outcome) = expected(function, judged) else {
        return Ok(());
    };
    let one_longer = Lending::LongerOne(file.len() % function.lengths().len());
    for lending in [Lending::Exact, Lending::Longer, one_longer] {
        call.compare(file, lending, &outcome)?;
    }
    Ok(())
}

/// What a right placer leaves, or nothing where the original gave no answer.
pub fn expected(function: Function, judged: &Judged) -> Option<Outcome<'_>> {
    match judged {
        Judged::Answered(answers) => Some(expected_of(function, answers)),
        Judged::Refused(number, value) => Some(Outcome::refused(function, *number, *value)),
        Judged::Unanswered(_) => None,
    }
}

pub fn expected_of(function: Function, answers: &Answers) -> Outcome<'_> {
    match &answers.placed {
        Ok(placed) => {
            let answer = answers.place_number(placed);
            Outcome::placed(answer, &answers.units, answers.last_words(), &placed.result)
        }
        Err((number, value)) => Outcome::refused(function, *number, *value),
    }
}
