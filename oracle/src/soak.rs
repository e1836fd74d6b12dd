//! Runs every comparison on files of all mixes, seed after seed, for a given time. The first file that shows a difference is
//! made as small as can be.

use std::fmt;
use std::time::{Duration, Instant};

use crate::analysis::Asked;
use crate::difference::Difference;
use crate::entry::Library;
use crate::original::answers::Judged;
use crate::place::{self, Totals};
use crate::shrink::shrink;
use crate::{analysis, compare, generate};

/// The files of each mix that are made from one seed before the next one is taken.
const FILES_PER_SEED: u64 = 1_000;
/// A difference is made smaller for this long at most.
const SHRINKING: Duration = Duration::from_secs(300);
/// The queries are asked at about so many steps of a file, and at as many places without one, so that a run gets through more files.
const PLACES: usize = 6;
/// How often a long run says how far it is.
const REPORT: Duration = Duration::from_secs(60);

/// Makes the file of a seed and an index.
type Mix = fn(u64, u64) -> Vec<u8>;

/// The mixes by the command whose files they are.
const MIXES: [(&str, Mix); 3] = [
    ("check-compare", |seed, index| generate::file(seed, index).1),
    ("analysis-compare", |seed, index| generate::analysis_file(seed, index).1),
    ("place-compare", place::run_file),
];

type Comparison = fn(&Library, &[u8], &Judged) -> Result<(), Difference>;

/// What the library does not have is not compared.
const COMPARISONS: [Comparison; 3] = [
    |library, file, _| match library.check {
        Some(checker) => compare::compare_file(checker, file),
        None => Ok(()),
    },
    |library, file, judged| analysis::compare_judged(library, file, judged, Asked::About(PLACES)),
    |library, file, judged| match library.place {
        Some(placer) => place::compare_judged(placer, file, judged),
        None => Ok(()),
    },
];

/// A difference, where it was met, and the smallest file that shows one in the same comparison.
#[derive(Debug)]
pub struct Found {
    pub mix: &'static str,
    pub seed: u64,
    pub index: u64,
    pub first: Difference,
    pub smallest: Difference,
}

impl fmt::Display for Found {
    fn fmt(&self, f: &mut fmt::Formatter<'_>) -> fmt::Result {
        let (from, to) = (self.first.file.len(), self.smallest.file.len());
        writeln!(f, "file {} of {} --seed {}", self.index, self.mix, self.seed)?;
        writeln!(f, "made smaller from {from} to {to} bytes")?;
        write!(f, "{}", self.smallest)
    }
}

/// What the files came to where none showed a difference.
pub fn run(library: &Library, time: Duration, first_seed: u64) -> Result<Totals, Box<Found>> {
    let start = Instant::now();
    let mut totals = Totals::default();
    let mut reported = Duration::ZERO;
    for number in 0.. {
        for (mix, make) in MIXES {
            let (seed, index) = (
                first_seed.wrapping_add(number / FILES_PER_SEED),
                number % FILES_PER_SEED,
            );
            let file = make(seed, index);
            totals.count_judged(&compare_all(library, &file).map_err(|(comparison, first)| {
                let smallest = smallest(library, comparison, &first);
                Box::new(Found {
                    mix,
                    seed,
                    index,
                    first,
                    smallest,
                })
            })?);
        }
        let spent = start.elapsed();
        if spent >= time {
            break;
        }
        if spent >= reported + REPORT {
            reported = spent;
            println!("{} seconds, {} files, 0 differences", spent.as_secs(), totals.files);
        }
    }
    Ok(totals)
}

/// What the Rust says about the file, or the difference with the comparison that found it.
fn compare_all(library: &Library, file: &[u8]) -> Result<Judged, (Comparison, Difference)> {
    let judged = Judged::of(file);
    for comparison in COMPARISONS {
        comparison(library, file, &judged).map_err(|difference| (comparison, difference))?;
    }
    Ok(judged)
}

fn smallest(library: &Library, comparison: Comparison, first: &Difference) -> Difference {
    let difference_in = |file: &[u8]| comparison(library, file, &Judged::of(file)).err();
    let deadline = Instant::now() + SHRINKING;
    let file = shrink(&first.file, deadline, |file| difference_in(file).is_some());
    difference_in(&file).unwrap_or_else(|| first.clone())
}
