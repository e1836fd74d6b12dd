//! Counts what the files for the placer come to and what their placements have, by the original alone.

use std::collections::BTreeMap;
use std::fmt;

use crate::original::{Original, Placed};
use crate::place::{run_file, Totals};
use crate::program::{decode, Fixed, Program, Storage};
use crate::reader::check;
use crate::records::*;

#[derive(Default)]
pub struct PlacementStats {
    pub totals: Totals,
    /// The files that have each part.
    pub parts: BTreeMap<String, usize>,
}

pub fn collect(files: u64, seed: u64) -> PlacementStats {
    let mut stats = PlacementStats::default();
    for index in 0..files {
        let file = run_file(seed, index);
        let refusal = match check(&file) {
            Ok(_) => stats.count_accepted(&decode(&file)),
            Err((number, _)) => Some(number),
        };
        stats.totals.count(refusal);
    }
    stats
}

impl PlacementStats {
    /// Gives the number of the refusal, if there is one.
    fn count_accepted(&mut self, program: &Program) -> Option<u32> {
        let placed = Original::new(program).place(program);
        let mut parts = match &placed {
            Ok(placed) => placed_parts(program, placed),
            Err((number, value)) => vec![refused_part(program, *number, *value)],
        };
        parts.sort();
        parts.dedup();
        for part in parts {
            *self.parts.entry(part).or_default() += 1;
        }
        placed.err().map(|(number, _)| number)
    }
}

fn refused_part(program: &Program, number: u32, value: u32) -> String {
    if number < 10 {
        let bytes = if value == 1 { "one byte or bit" } else { "bytes" };
        return format!("refusal {number:2}, {bytes}");
    }
    let refused = program.storages.iter().find(|storage| u32::from(storage.id) == value);
    let (kind, code) = refused.map_or((0, 0), |storage| (storage.kind, code_of(storage)));
    format!("refusal {number:2}, kind {kind} code {code:2}")
}

fn code_of(storage: &Storage) -> u8 {
    storage.fixed.map_or(0, |fixed| fixed.code)
}

fn placed_parts(program: &Program, placed: &Placed) -> Vec<String> {
    let mut parts = Vec::new();
    let placements = || {
        program
            .storages
            .iter()
            .zip(placed.placements.iter().map(|(_, place)| place))
    };
    for (storage, place) in placements() {
        let how = if storage.fixed.is_some() { "fixed" } else { "found" };
        parts.push(format!("code {:2} {how}, kind {}", place.code, storage.kind));
        parts.extend(owner_part(program, storage).map(str::to_string));
        if storage.direct && storage.fixed.is_none() && !matches!(place.code, 2..=4) {
            parts.push("direct, but not in application RAM".into());
        }
    }
    let sharers = program.storages.iter().filter(|storage| may_share(storage)).count();
    match sharers - placed.slots {
        0 => {}
        shared => parts.push(format!("shared slots, {} storages", size_name(shared))),
    }
    parts.extend(full_parts(
        program,
        placements().map(|(storage, place)| (storage.length, place)),
    ));
    parts
}

/// Whether a storage looks for a slot, and opens one where it finds none.
fn may_share(storage: &Storage) -> bool {
    storage.fixed.is_none() && storage.owner.is_some() && storage.kind != KIND_CARRY
}

fn owner_part(program: &Program, storage: &Storage) -> Option<&'static str> {
    match storage.owner {
        None => Some("owned by the program"),
        Some(owner) if program.functions.iter().all(|function| function.number != owner) => {
            Some("owned by a function without a record")
        }
        Some(_) => None,
    }
}

fn size_name(count: usize) -> &'static str {
    match count {
        1 => "  1",
        2..=9 => "  2 to 9",
        _ => " 10 and more",
    }
}

/// Which memories have no clear bit left at the end.
fn full_parts<'a>(program: &Program, placements: impl Iterator<Item = (u16, &'a Fixed)>) -> Vec<String> {
    let header = program.header;
    let mut application = vec![0u8; header.application.into()];
    application[..header.first.into()].fill(u8::MAX);
    let mut work = vec![0u8; header.work.into()];
    for (length, place) in placements {
        let (map, bit) = match place.code {
            3 => (&mut application, false),
            4 => (&mut application, true),
            5 | 10 => (&mut work, false),
            6 | 7 => (&mut work, true),
            _ => continue,
        };
        let start = usize::from(place.a);
        let length = if bit { 1 } else { usize::from(length) };
        let mask = if bit { 1 << place.b } else { u8::MAX };
        map[start..start + length].iter_mut().for_each(|byte| *byte |= mask);
    }
    let maps = [("application RAM", application), ("work RAM", work)];
    let full = maps
        .into_iter()
        .filter(|(_, map)| map.iter().all(|byte| *byte == u8::MAX));
    full.map(|(name, _)| format!("{name} full")).collect()
}

impl fmt::Display for PlacementStats {
    fn fmt(&self, f: &mut fmt::Formatter<'_>) -> fmt::Result {
        writeln!(f, "\nfiles for the placer\n{}", self.totals)?;
        writeln!(f, "\nparts of placements: files that have them")?;
        for (part, count) in &self.parts {
            writeln!(f, "{count:8}  {part}")?;
        }
        Ok(())
    }
}
