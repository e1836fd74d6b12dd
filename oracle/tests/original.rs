//! The original on the worked run, on stored vectors and on generated files.
#![cfg(original)]

use std::fs;
use std::path::Path;

use oracle::generate;
use oracle::original::text::explain_whole;
use oracle::original::Original;
use oracle::program::{decode, Fixed};
use oracle::reader::check;

/// Two byte storages joined by a copy and a bit, A = 32, F = 16, W = 8.
const WORKED_RUN: [u8; 101] = [
    0, 32, 0, 16, 0, 8, 0, // header
    1, 0, 0, 0, 0, 1, 1, 0, 4, 0, 0, 0, 0, 0, 0, 0, // byte
    1, 1, 0, 0, 0, 1, 1, 0, 4, 0, 0, 0, 0, 0, 0, 0, // byte
    1, 2, 0, 0, 0, 0, 1, 0, 0x44, 0, 0, 0, 0, 0, 0, 0, // bit
    2, 0, 4, 0, 0, // function and block
    5, 0, 0, 0, 6, 0, 1, 0, 0, 0, 0, 6, 1, 0, 0, 0, 5, 0, // copy 5 to the first byte
    5, 0, 0, 0, 6, 0, 1, 1, 0, 0, 0, 6, 1, 1, 0, 0, 0, 0, // copy it to the second
    7, 5, 0, 0, 9, // return and end
];

#[test]
fn worked_run_is_placed_as_described() {
    assert_eq!(check(&WORKED_RUN), Ok(vec![0x0100_0000, 0x0101_0000]));
    let program = decode(&WORKED_RUN);
    let original = Original::new(&program);
    let live = original.live(0);
    assert_eq!(live.passes, 1);
    assert!(live
        .blocks
        .iter()
        .all(|(live_in, live_out)| live_in.is_empty() && live_out.is_empty()));
    let graph = original.graph();
    assert!(graph.neighbours.is_empty());
    assert_eq!(graph.copies.into_iter().collect::<Vec<_>>(), [(0, 1)]);
    let placed = original.place(&program).expect("everything fits");
    let at = |code, a| Fixed { code, a, b: 0 };
    assert_eq!(placed.placements, [(0, at(3, 16)), (1, at(3, 16)), (2, at(4, 31))]);
    assert_eq!(placed.slots, 2);
}

#[test]
fn original_gives_the_stored_answers() {
    let folder = Path::new(env!("CARGO_MANIFEST_DIR")).join("../../shared/vectors");
    let Ok(entries) = fs::read_dir(folder) else {
        println!("no stored vectors here: nothing compared");
        return;
    };
    let (mut placed, mut refused) = (0, 0);
    for path in entries.filter_map(|entry| entry.ok().map(|entry| entry.path())) {
        if path.extension().is_some_and(|extension| extension == "bin") {
            let file = fs::read(&path).expect("a vector can be read");
            let answer = fs::read_to_string(path.with_extension("txt")).expect("a vector has its answer");
            assert_eq!(explain_whole(&file), answer, "{}", path.display());
            placed += usize::from(answer.contains("\nplaced "));
            refused += usize::from(answer.contains("\nplace refused "));
        }
    }
    assert!(
        placed > 0 && refused > 0,
        "the vectors have placements and refusals of them"
    );
    println!("the stored answers agree, {placed} placed and {refused} refused by placing");
}

#[test]
fn generated_files_pass_through_the_original() {
    let (mut placed, mut refused) = (0, 0);
    for index in 0..400 {
        let (_, file) = generate::file(11, index);
        if check(&file).is_err() || file.len() > 6_000 {
            continue;
        }
        let program = decode(&file);
        let original = Original::new(&program);
        for function in 0..program.functions.len() {
            assert!(original.live(function).passes >= 1);
        }
        match original.place(&program) {
            Ok(_) => placed += 1,
            Err(_) => refused += 1,
        }
    }
    assert!(placed >= 10 && refused >= 10, "placed {placed}, refused {refused}");
}
