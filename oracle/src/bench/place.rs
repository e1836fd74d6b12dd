//! Times placing as a whole. The library starts from the file and checks it; the original starts from a program in its own
//! types, analyses it and allocates. Only files that are placed to the last storage are timed.

use super::{made, mean_length, report, timed, Maker, Timed, FILES};
use crate::draft::Draft;
use crate::entry::{Library, Placer};
use crate::generate::{self, chain, limits, realistic, worst};
use crate::original::ease::eased;
use crate::original::Original;
use crate::program::{decode, Program};
use crate::random::Random;
use crate::records::*;

/// Few, since storages of these are eased one after the other before the clock starts.
const LIMIT_FILES: usize = 4;

/// Names, numbers of files and makers. The original takes long on the last sets, so one file is enough.
const SETS: [(&str, usize, Maker); 8] = [
    ("place, 4 KB", FILES, |random| generate::small_realistic(random).bytes()),
    ("place, 13 to 16 KB", FILES, |random| {
        generate::large_realistic(random).bytes()
    }),
    ("place, 16,384 bytes", LIMIT_FILES, |random| {
        roomy(limits::at_length(random, 0))
    }),
    ("place, 512 units", LIMIT_FILES, |random| {
        roomy(limits::at_units(random, 0))
    }),
    ("place, 128 blocks", LIMIT_FILES, |random| {
        roomy(limits::at_blocks(random, 0))
    }),
    ("place, 129 passes", 1, |random| {
        roomy(chain::backward_chain(random, MOST_BLOCKS, 300))
    }),
    ("place, windows", 1, |_| worst::windows().bytes()),
    ("place, slots", 1, |_| worst::slots().bytes()),
];

/// Realistic sizes; the last is the largest that such a file reaches.
const SIZES: [(&str, Maker); 5] = [
    ("place, realistic 1 KB", |random| sized(random, 1_024)),
    ("place, realistic 2 KB", |random| sized(random, 2_048)),
    ("place, realistic 4 KB", |random| sized(random, 4_096)),
    ("place, realistic 8 KB", |random| sized(random, 8_192)),
    ("place, realistic 16 KB", |random| sized(random, MOST_BYTES)),
];

pub fn run(library: &Library, seed: u64) {
    for (name, count, maker) in SETS {
        time(library, name, &made(maker, count, seed));
    }
    for (name, maker) in SIZES {
        time(library, name, &made(maker, FILES, seed));
    }
    if library.place.is_none() {
        println!("not in the library, so not timed: place_file");
    }
}

fn sized(random: &mut Random, bytes: usize) -> Vec<u8> {
    realistic::realistic_file(random, bytes).bytes()
}

/// The file with the sizes of a realistic one, and with the storages eased that these refuse.
fn roomy(mut draft: Draft) -> Vec<u8> {
    let mut opening = Draft::default();
    opening.header(256, 16, 512);
    draft.records[0] = opening.bytes();
    eased(&draft.bytes())
}

fn time(library: &Library, name: &str, files: &[Vec<u8>]) {
    let bytes = mean_length(files);
    let programs: Vec<Program> = files.iter().map(|file| decode(file)).collect();
    let originals: Vec<(Original, &Program)> = programs
        .iter()
        .map(|program| (Original::new(program), program))
        .collect();
    assert!(
        originals
            .iter()
            .all(|(original, program)| original.place(program).is_ok()),
        "{name}: every file is placed"
    );
    let nanoseconds = timed(&originals, |(original, program)| {
        original.allocate(program.header).unwrap_or(0)
    });
    report(name, bytes, "original", nanoseconds);
    if let Some(placer) = library.place {
        report(name, bytes, "place_file", time_placer(placer, files));
    }
}

fn time_placer(placer: Placer, files: &[Vec<u8>]) -> Timed {
    let (mut units, mut live) = (vec![0; MOST_UNITS], vec![0; LIVE_WORDS]);
    let (mut graph, mut copies) = (vec![0; GRAPH_WORDS], vec![0; GRAPH_WORDS]);
    let mut result = vec![0; RESULT_BYTES];
    timed(files, |file| {
        placer(file, &mut units, &mut live, &mut graph, &mut copies, &mut result)
    })
}
