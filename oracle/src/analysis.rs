//! Holds the library to the original: the five queries, live sets and passes, interference and copies, with every lent
//! word and for each length of the buffers.

use crate::call::{Call, Function, Lending, Outcome};
use crate::difference::Difference;
use crate::entry::Library;
use crate::generate;
use crate::original::answers::{Answers, Judged, StepAnswer};

/// The refusal of a place or a function number that is not there.
const ABSENT: u32 = 6;

/// What became of one file.
#[derive(Clone, Copy, Debug, PartialEq, Eq)]
pub enum Compared {
    Accepted,
    Refused,
    /// The original gave no answer, for this reason.
    Unanswered(&'static str),
}

/// The files of a run.
#[derive(Clone, Copy, Debug, Default, PartialEq, Eq)]
pub struct Totals {
    pub files: u64,
    pub accepted: u64,
    pub unanswered: u64,
}

/// About how many places of a file the queries are asked: each costs a check of the whole file.
#[derive(Clone, Copy, Debug)]
pub enum Asked {
    Everywhere,
    About(usize),
}

impl Asked {
    /// Those of the places that are asked about, with their positions; which ones depends on the file's length.
    fn of<'a, T>(self, places: &'a [T], file: &[u8]) -> impl Iterator<Item = (usize, &'a T)> {
        let stride = match self {
            Self::Everywhere => 1,
            Self::About(count) => places.len().div_ceil(count).max(1),
        };
        places.iter().enumerate().skip(file.len() % stride).step_by(stride)
    }
}

/// Counts the generated files that agree, up to the first difference.
pub fn compare_generated(library: &Library, files: u64, seed: u64) -> Result<Totals, Difference> {
    let mut totals = Totals::default();
    for index in 0..files {
        let (_, file) = generate::analysis_file(seed, index);
        totals.files += 1;
        match compare_file(library, &file)? {
            Compared::Accepted => totals.accepted += 1,
            Compared::Refused => {}
            Compared::Unanswered(reason) => {
                println!("the original {reason} on file {index} of seed {seed}, which is left out");
                totals.unanswered += 1;
            }
        }
    }
    Ok(totals)
}

pub fn compare_file(library: &Library, file: &[u8]) -> Result<Compared, Difference> {
    let judged = Judged::of(file);
    compare_judged(library, file, &judged, Asked::Everywhere)?;
    Ok(match judged {
        Judged::Answered(_) => Compared::Accepted,
        Judged::Refused(..) => Compared::Refused,
        Judged::Unanswered(reason) => Compared::Unanswered(reason),
    })
}

/// The same for a file that is judged already.
pub fn compare_judged(library: &Library, file: &[u8], judged: &Judged, asked: Asked) -> Result<(), Difference> {
    compare_short(library, file)?;
    match judged {
        Judged::Answered(answers) => {
            compare_steps(library, file, answers, asked)?;
            compare_absent_places(library, file, &answers.steps, asked)?;
            compare_live(library, file, answers)?;
            compare_absent_functions(library, file, answers)?;
            compare_graph(library, file, answers)
        }
        Judged::Refused(number, value) => compare_refused(library, file, *number, *value),
        Judged::Unanswered(_) => Ok(()),
    }
}

/// A buffer that is too short is refused before the file is looked at, and nothing is touched.
fn compare_short(library: &Library, file: &[u8]) -> Result<(), Difference> {
    for function in Function::analysis(library) {
        let call = Call::of(function);
        for buffer in 0..function.lengths().len() {
            call.compare(file, Lending::Short(buffer), &Outcome::too_short())?;
        }
        call.compare(file, Lending::Empty, &Outcome::too_short())?;
    }
    Ok(())
}

/// The fault of the file comes before the number that is asked for.
fn compare_refused(library: &Library, file: &[u8], number: u32, value: u32) -> Result<(), Difference> {
    for function in Function::analysis(library) {
        let outcome = Outcome::refused(function, number, value);
        for (argument, lending) in [(0, Lending::Exact), (file.len() / 2, Lending::Longer)] {
            Call { function, argument }.compare(file, lending, &outcome)?;
        }
    }
    Ok(())
}

fn compare_steps(library: &Library, file: &[u8], answers: &Answers, asked: Asked) -> Result<(), Difference> {
    for (index, step) in asked.of(&answers.steps, file) {
        for function in Function::queries(library) {
            let call = Call {
                function,
                argument: step.place,
            };
            let outcome = match function {
                Function::Set(set, _) => Outcome::given(0, &answers.units, vec![&step.sets[set]]),
                _ => Outcome::given(step.effect.into(), &answers.units, Vec::new()),
            };
            call.compare(file, Lending::in_turn(index), &outcome)?;
        }
    }
    Ok(())
}

fn compare_absent_places(library: &Library, file: &[u8], steps: &[StepAnswer], asked: Asked) -> Result<(), Difference> {
    for (index, &place) in asked.of(&absent_places(file, steps), file) {
        for function in Function::queries(library) {
            let call = Call {
                function,
                argument: place,
            };
            let outcome = Outcome::refused(function, ABSENT, place as u32);
            call.compare(file, Lending::in_turn(index), &outcome)?;
        }
    }
    Ok(())
}

/// Offsets all over the file, beside steps, at its end and far beyond it, where no step begins.
fn absent_places(file: &[u8], steps: &[StepAnswer]) -> Vec<usize> {
    let length = file.len();
    let mut places: Vec<usize> = (0..8).map(|part| length * part / 8).collect();
    places.extend([length - 1, length, length + 1, u32::MAX as usize]);
    let ends = [steps.first(), steps.get(steps.len() / 2), steps.last()];
    for place in ends.into_iter().flatten().map(|step| step.place) {
        places.extend([place - 1, place + 1, place + 4, place + 65_536]);
    }
    places.sort_unstable();
    places.dedup();
    places.retain(|place| steps.iter().all(|step| step.place != *place));
    places
}

fn compare_live(library: &Library, file: &[u8], answers: &Answers) -> Result<(), Difference> {
    let Some(live) = library.live else {
        return Ok(());
    };
    for (index, answer) in answers.functions.iter().enumerate() {
        let call = Call {
            function: Function::Live(live),
            argument: answer.number.into(),
        };
        let outcome = Outcome::given(answer.passes, &answers.units, vec![&answer.live]);
        call.compare(file, Lending::in_turn(index + file.len()), &outcome)?;
    }
    Ok(())
}

/// Numbers without a record, among them some that end in the bits of one that is there.
fn compare_absent_functions(library: &Library, file: &[u8], answers: &Answers) -> Result<(), Difference> {
    let Some(live) = library.live else {
        return Ok(());
    };
    let function = Function::Live(live);
    let present: Vec<usize> = answers.functions.iter().map(|answer| answer.number.into()).collect();
    let absent = (0..256).find(|number| !present.contains(number));
    let numbers = [256 + present[0], 65_536 + present[0], u32::MAX as usize];
    for (index, argument) in absent.into_iter().chain(numbers).enumerate() {
        let outcome = Outcome::refused(function, ABSENT, argument as u32);
        Call { function, argument }.compare(file, Lending::in_turn(index), &outcome)?;
    }
    Ok(())
}

/// The live sets that remain are those of the last function.
fn compare_graph(library: &Library, file: &[u8], answers: &Answers) -> Result<(), Difference> {
    let Some(graph) = library.graph else {
        return Ok(());
    };
    let call = Call::of(Function::Graph(graph));
    let outcome = Outcome::given(answers.passes(), &answers.units, answers.last_words());
    call.compare(file, Lending::Exact, &outcome)?;
    call.compare(file, Lending::Longer, &outcome)
}
