//! Times live sets of every function and the graph. The original starts from programs in its own types; the library starts
//! from the files and checks them.

use super::{made, mean_length, report, timed, Maker, Timed, FILES};
use crate::entry::Library;
use crate::generate::{self, chain, realistic};
use crate::original::Original;
use crate::program::decode;
use crate::random::Random;
use crate::records::*;

/// Names, numbers of files and makers. The original takes long on the last set, so one file is enough.
const SETS: [(&str, usize, Maker); 3] = [
    ("analysis, 4 KB", FILES, |random| {
        generate::small_realistic(random).bytes()
    }),
    ("analysis, 13 to 16 KB", FILES, |random| {
        generate::large_realistic(random).bytes()
    }),
    ("analysis, 129 passes", 1, |random| {
        chain::backward_chain(random, MOST_BLOCKS, 300).bytes()
    }),
];

/// The sizes, in bytes, of the realistic files on which the graph alone is timed.
const SIZES: [usize; 5] = [1_024, 2_048, 4_096, 8_192, 16_384];

pub fn run(library: &Library, seed: u64) {
    for (name, count, maker) in SETS {
        let files = made(maker, count, seed);
        time_both(library, name, &files);
    }
    for size in SIZES {
        let mut random = Random::new(seed);
        let files: Vec<Vec<u8>> = (0..FILES)
            .map(|_| realistic::realistic_file(&mut random, size).bytes())
            .collect();
        time_both(library, &format!("realistic, {} KB", size / 1_024), &files);
    }
}

/// The original's live sets and graph, the library's graph alone, and the library's calls all together.
fn time_both(library: &Library, name: &str, files: &[Vec<u8>]) {
    let bytes = mean_length(files);
    let originals: Vec<Original> = files.iter().map(|file| Original::new(&decode(file))).collect();
    let original = timed(&originals, |original| original.analyse() as u64);
    report(name, bytes, "original", original);
    if let Some(times) = time_graph(library, files) {
        report(name, bytes, "graph_of", times);
    }
    if let Some(times) = time_all(library, files) {
        report(name, bytes, "all calls", times);
    }
}

/// The graph alone, which checks the file and settles all live sets; nothing where the library lacks it.
fn time_graph(library: &Library, files: &[Vec<u8>]) -> Option<Timed> {
    let graph_of = library.graph?;
    let (mut units, mut live) = (vec![0; MOST_UNITS], vec![0; LIVE_WORDS]);
    let (mut graph, mut copies) = (vec![0; GRAPH_WORDS], vec![0; GRAPH_WORDS]);
    Some(timed(files, |file| {
        graph_of(file, &mut units, &mut live, &mut graph, &mut copies)
    }))
}

/// Check, live sets of every function and graph, in lent buffers; nothing where the library lacks one of them.
fn time_all(library: &Library, files: &[Vec<u8>]) -> Option<Timed> {
    let (check, live_of, graph_of) = (library.check?, library.live?, library.graph?);
    let (mut units, mut live) = (vec![0; MOST_UNITS], vec![0; LIVE_WORDS]);
    let (mut graph, mut copies) = (vec![0; GRAPH_WORDS], vec![0; GRAPH_WORDS]);
    let with_numbers: Vec<(&Vec<u8>, Vec<u8>)> = files.iter().map(|file| (file, function_numbers(file))).collect();
    Some(timed(&with_numbers, |(file, numbers)| {
        let mut sum = check(file, &mut units);
        for number in numbers {
            sum += live_of(file, usize::from(*number), &mut units, &mut live);
        }
        sum + graph_of(file, &mut units, &mut live, &mut graph, &mut copies)
    }))
}

fn function_numbers(file: &[u8]) -> Vec<u8> {
    decode(file).functions.iter().map(|function| function.number).collect()
}
