//! Counts what a run of generated files reaches, so that a gap in the shapes can be seen.

#[cfg(original)]
pub mod placement;

use std::collections::BTreeMap;
use std::fmt;

use crate::generate;
use crate::program::{decode, Program, Step};
use crate::reader::{judge, Refusal};
use crate::records::{KIND_NAMES, MOST_BYTES};

#[derive(Default)]
pub struct Stats {
    pub files: usize,
    pub shapes: BTreeMap<String, [usize; 2]>,
    pub accepted: usize,
    /// By refusal number and the kind of record at the value's place.
    pub refused: BTreeMap<(u32, String), usize>,
    pub causes: BTreeMap<(u32, &'static str), usize>,
    pub parts: BTreeMap<String, usize>,
    pub most_units: usize,
}

pub fn collect(files: u64, seed: u64) -> Stats {
    let mut stats = Stats::default();
    for index in 0..files {
        let (shape, file) = generate::file(seed, index);
        let answer = judge(&file);
        stats.shapes.entry(format!("{shape:?}")).or_default()[usize::from(answer.is_err())] += 1;
        stats.files += 1;
        match answer {
            Ok(units) => stats.count_accepted(&file, units.len()),
            Err(refusal) => stats.count_refused(&file, refusal),
        }
    }
    stats
}

fn place_name(file: &[u8], value: usize) -> String {
    if file.len() > MOST_BYTES {
        return "length".into();
    }
    match file.get(value) {
        None => "end of file".into(),
        Some(&kind) => KIND_NAMES
            .get(usize::from(kind))
            .map_or("unknown kind", |name| name)
            .into(),
    }
}

impl Stats {
    fn count_refused(&mut self, file: &[u8], refusal: Refusal) {
        let place = place_name(file, refusal.value as usize);
        *self.refused.entry((refusal.number, place)).or_default() += 1;
        *self.causes.entry((refusal.number, refusal.cause)).or_default() += 1;
    }

    fn count_accepted(&mut self, file: &[u8], units: usize) {
        self.accepted += 1;
        self.most_units = self.most_units.max(units);
        let program = decode(file);
        for part in parts_of(&program) {
            *self.parts.entry(part).or_default() += 1;
        }
    }
}

/// Names of the different things that a program has.
fn parts_of(program: &Program) -> Vec<String> {
    let mut parts = Vec::new();
    for storage in &program.storages {
        parts.push(format!("storage kind {}", storage.kind));
        parts.push(format!("fixed code {:2}", storage.fixed.map_or(0, |fixed| fixed.code)));
    }
    for function in &program.functions {
        parts.extend(function.abi.iter().map(|entry| format!("ABI role {}", entry.role)));
        for block in &function.blocks {
            parts.extend(block.instructions.iter().map(|step| step_name("instruction", step)));
            parts.push(step_name("terminator", &block.terminator));
        }
        if function.blocks.is_empty() {
            parts.push("function without block".into());
        }
    }
    parts.sort();
    parts.dedup();
    parts
}

fn step_name(kind: &str, step: &Step) -> String {
    format!("{kind} {:2} sub {}", step.op, step.sub)
}

impl fmt::Display for Stats {
    fn fmt(&self, f: &mut fmt::Formatter<'_>) -> fmt::Result {
        writeln!(
            f,
            "files {} accepted {} most units {}",
            self.files, self.accepted, self.most_units
        )?;
        writeln!(f, "\nshape: accepted, refused")?;
        for (shape, [accepted, refused]) in &self.shapes {
            writeln!(f, "{accepted:8} {refused:8}  {shape}")?;
        }
        writeln!(f, "\nrefusal, record at the value's place: files")?;
        for ((number, place), count) in &self.refused {
            writeln!(f, "{count:8}  {number} {place}")?;
        }
        writeln!(f, "\nrefusal, cause: files")?;
        for ((number, cause), count) in &self.causes {
            writeln!(f, "{count:8}  {number} {cause}")?;
        }
        writeln!(f, "\nparts of accepted files: files that have them")?;
        for (part, count) in &self.parts {
            writeln!(f, "{count:8}  {part}")?;
        }
        Ok(())
    }
}
