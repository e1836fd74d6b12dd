//! Times both sides on realistic files and on files at the limits.

#[cfg(original)]
mod analysis;
#[cfg(original)]
mod place;

use std::hint::black_box;
use std::time::Instant;

use crate::entry::Library;
use crate::generate::{self, limits};
use crate::random::Random;
use crate::reader::check;
use crate::records::MOST_UNITS;

const FILES: usize = 16;
/// One round takes about this long: the clock's own cost does not show, and on a busy machine some round is undisturbed.
const ROUND_NANOSECONDS: u128 = 1_000_000;
/// There are at least so many rounds, and as many as fit into this time.
const LEAST_ROUNDS: usize = 12;
const NANOSECONDS: u128 = 300_000_000;

type Maker = fn(&mut Random) -> Vec<u8>;

const SETS: [(&str, Maker); 5] = [
    ("realistic 4 KB", |random| generate::small_realistic(random).bytes()),
    ("realistic 13 to 16 KB", |random| {
        generate::large_realistic(random).bytes()
    }),
    ("16,384 bytes, any records", |random| {
        limits::at_length(random, 0).bytes()
    }),
    ("512 units", |random| limits::at_units(random, 0).bytes()),
    ("128 blocks", |random| limits::at_blocks(random, 0).bytes()),
];

pub fn run(library: &Library, seed: u64) {
    for (name, maker) in SETS {
        let files = made(maker, FILES, seed);
        let bytes = mean_length(&files);
        let reader = timed(&files, |file| check(file).map_or(0, |units| units.len() as u64));
        report(name, bytes, "Rust reader", reader);
        if let Some(checker) = library.check {
            let mut units = vec![0; MOST_UNITS];
            let library = timed(&files, |file| checker(file, &mut units));
            report(name, bytes, "check_file", library);
        }
    }
    if library.check.is_none() {
        println!("built without the proved library: only the Rust was timed");
    }
    #[cfg(original)]
    {
        analysis::run(library, seed);
        place::run(library, seed);
    }
    #[cfg(not(original))]
    println!("built without the original: analysis and placing were not timed");
}

fn made(maker: Maker, count: usize, seed: u64) -> Vec<Vec<u8>> {
    let mut random = Random::new(seed);
    (0..count).map(|_| maker(&mut random)).collect()
}

fn mean_length(files: &[Vec<u8>]) -> usize {
    files.iter().map(Vec::len).sum::<usize>() / files.len()
}

/// Nanoseconds per file: in the best round, and in the mean of all.
struct Timed {
    best: f64,
    mean: f64,
}

fn report(name: &str, bytes: usize, who: &str, Timed { best, mean }: Timed) {
    let per_byte = best / bytes as f64;
    println!(
        "{name:26} {bytes:6} bytes  {who:12} {best:10.0} ns per file, mean {mean:10.0} {per_byte:7.2} ns per byte"
    );
}

fn timed<T>(files: &[T], mut call: impl FnMut(&T) -> u64) -> Timed {
    let mut repeats = 1;
    while round(files, repeats, &mut call) < ROUND_NANOSECONDS {
        repeats *= 2;
    }
    let (mut rounds, mut sum, mut fastest) = (0, 0, u128::MAX);
    while rounds < LEAST_ROUNDS || sum < NANOSECONDS {
        let time = round(files, repeats, &mut call);
        (rounds, sum, fastest) = (rounds + 1, sum + time, fastest.min(time));
    }
    let calls = (repeats * files.len()) as f64;
    Timed {
        best: fastest as f64 / calls,
        mean: sum as f64 / calls / rounds as f64,
    }
}

fn round<T>(files: &[T], repeats: usize, call: &mut impl FnMut(&T) -> u64) -> u128 {
    let start = Instant::now();
    for _ in 0..repeats {
        for file in files {
            black_box(call(black_box(file)));
        }
    }
    start.elapsed().as_nanos()
}
