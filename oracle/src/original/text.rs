//! The whole answer for one file in the lines of the program `explain`, from the reader and the original.

use std::collections::{BTreeSet, HashMap};
use std::fmt::{Display, Write};

use super::{Original, Uses};
use crate::explain::explain;
use crate::program::{decode, Function, Program};
use crate::reader::check;

/// Units, live sets, queries, graph and copies, then the placement.
pub fn explain_whole(file: &[u8]) -> String {
    let mut text = explain(file);
    if let Ok(units) = check(file) {
        let program = decode(file);
        let original = Original::new(&program);
        let passes = analysis_part(&mut text, &program, &original, &units);
        place_part(&mut text, &program, &original, passes);
    }
    text
}

/// Gives the passes summed over the functions.
fn analysis_part(text: &mut String, program: &Program, original: &Original, units: &[u32]) -> usize {
    let numbers = units.iter().enumerate().map(|(number, word)| (*word, number)).collect();
    let passes = live_part(text, program, original, &numbers);
    graph_part(text, program, original, passes);
    passes
}

/// Writing to a string cannot fail, so one place says so.
fn line(text: &mut String, words: impl Display) {
    writeln!(text, "{words}").expect("a string takes every line");
}

fn list<T: Display>(items: impl IntoIterator<Item = T>) -> String {
    items.into_iter().map(|item| format!(" {item}")).collect()
}

fn unit_list(words: &BTreeSet<u32>, numbers: &HashMap<u32, usize>) -> String {
    list(words.iter().map(|word| numbers[word]).collect::<BTreeSet<usize>>())
}

/// Writes live sets and queries; gives the passes summed over the functions.
fn live_part(text: &mut String, program: &Program, original: &Original, numbers: &HashMap<u32, usize>) -> usize {
    let mut passes = 0;
    for (index, function) in program.functions.iter().enumerate() {
        let live = original.live(index);
        passes += live.passes;
        let (number, blocks) = (function.number, function.blocks.len());
        line(
            text,
            format_args!("function {number} blocks {blocks} passes {}", live.passes),
        );
        for (block, (live_in, live_out)) in live.blocks.iter().enumerate() {
            let (live_in, live_out) = (unit_list(live_in, numbers), unit_list(live_out, numbers));
            line(
                text,
                format_args!("block {} in{live_in} out{live_out}", function.blocks[block].id),
            );
            steps_part(text, function, block, &original.uses(index, block), numbers);
        }
    }
    passes
}

fn steps_part(text: &mut String, function: &Function, block: usize, uses: &[Uses], numbers: &HashMap<u32, usize>) {
    let block = &function.blocks[block];
    for (step, uses) in block.instructions.iter().chain([&block.terminator]).zip(uses) {
        let (reads, writes) = (unit_list(&uses.reads, numbers), unit_list(&uses.writes, numbers));
        let (read, written) = (list(&uses.storages_read), list(&uses.storages_written));
        let effect = if uses.effect { "yes" } else { "no" };
        line(
            text,
            format_args!(
                "at {} reads{reads} writes{writes} storages-read{read} storages-written{written} effect {effect}",
                step.place
            ),
        );
    }
}

fn graph_part(text: &mut String, program: &Program, original: &Original, passes: usize) {
    let graph = original.graph();
    line(text, format_args!("graph passes {passes}"));
    for storage in &program.storages {
        if let Some(others) = graph.neighbours.get(&storage.id) {
            line(text, format_args!("storage {} interferes{}", storage.id, list(others)));
        }
    }
    for (one, other) in graph.copies {
        line(text, format_args!("copy {one} {other}"));
    }
}

fn place_part(text: &mut String, program: &Program, original: &Original, passes: usize) {
    match original.place(program) {
        Err((number, value)) => line(text, format_args!("place refused {number} {value}")),
        Ok(placed) => {
            for (id, fixed) in &placed.placements {
                line(text, format_args!("place {id} {} {} {}", fixed.code, fixed.a, fixed.b));
            }
            let (count, slots) = (placed.placements.len(), placed.slots);
            line(text, format_args!("placed {count} slots {slots} passes {passes}"));
        }
    }
}
