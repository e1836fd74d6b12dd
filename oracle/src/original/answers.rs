//! What the original says about an accepted file, as the answers and words that the library must give.

use std::collections::{BTreeSet, HashMap};
use std::sync::mpsc::{self, RecvTimeoutError};
use std::thread;
use std::time::Duration;

use super::{Graph, Live, Original, Placed, Uses};
use crate::compare::padded;
use crate::program::{decode, Program};
use crate::reader::check;
use crate::records::{GRAPH_WORDS, LIVE_WORDS, PLACE, RESULT_BYTES, STORAGE_ROW, UNIT_ROW};

/// No file of the format keeps the original this long.
const LONGEST: Duration = Duration::from_secs(120);

#[derive(Clone, Debug)]
pub struct Answers {
    pub units: Vec<u32>,
    pub functions: Vec<FunctionAnswer>,
    pub steps: Vec<StepAnswer>,
    pub graph: Vec<u64>,
    pub copies: Vec<u64>,
    /// The placement, or the number and value of its refusal.
    pub placed: Result<PlaceAnswer, (u32, u32)>,
}

#[derive(Clone, Debug)]
pub struct PlaceAnswer {
    pub storages: u64,
    pub slots: u64,
    /// The bytes of the result, zeros up to the needed length.
    pub result: Vec<u8>,
}

#[derive(Clone, Debug)]
pub struct FunctionAnswer {
    pub number: u8,
    pub passes: u64,
    pub live: Vec<u64>,
}

#[derive(Clone, Debug)]
pub struct StepAnswer {
    pub place: usize,
    /// Units read, units written, storages read, storages written.
    pub sets: [Vec<u64>; 4],
    pub effect: bool,
}

/// What the Rust says about a file.
pub enum Judged {
    Answered(Box<Answers>),
    /// The reader's number and value.
    Refused(u32, u32),
    /// The original gave no answer, for this reason.
    Unanswered(&'static str),
}

impl Judged {
    pub fn of(file: &[u8]) -> Self {
        let units = match check(file) {
            Ok(units) => units,
            Err((number, value)) => return Self::Refused(number, value),
        };
        match Answers::in_time(file, &units) {
            Ok(answers) => Self::Answered(answers),
            Err(reason) => Self::Unanswered(reason),
        }
    }
}

impl Answers {
    /// The units are those that the reader found.
    pub fn of(file: &[u8], units: &[u32]) -> Self {
        let program = decode(file);
        let original = Original::new(&program);
        let numbers: Numbers = units.iter().enumerate().map(|(number, word)| (*word, number)).collect();
        let (graph, copies) = graph_words(&original.graph());
        Self {
            units: padded(units),
            functions: function_answers(&program, &original, &numbers),
            steps: step_answers(&program, &original, &numbers),
            graph,
            copies,
            placed: original.place(&program).map(place_answer),
        }
    }

    /// The same from a thread of its own, so that a panic or a loop without end costs one file. Says what happened where
    /// there is no answer.
    pub fn in_time(file: &[u8], units: &[u32]) -> Result<Box<Self>, &'static str> {
        let (sender, receiver) = mpsc::channel();
        let (file, units) = (file.to_vec(), units.to_vec());
        thread::spawn(move || sender.send(Box::new(Self::of(&file, &units))));
        receiver.recv_timeout(LONGEST).map_err(|error| match error {
            RecvTimeoutError::Timeout => "does not end",
            RecvTimeoutError::Disconnected => "panics",
        })
    }

    pub fn passes(&self) -> u64 {
        self.functions.iter().map(|function| function.passes).sum()
    }

    /// The words besides the units that graph and placing leave: the live sets of the last function, graph and copies.
    pub fn last_words(&self) -> Vec<&[u64]> {
        let last = self.functions.last().expect("an accepted file has a function");
        vec![&last.live, &self.graph, &self.copies]
    }

    /// Passes, slots and storages in the one number that placing answers.
    pub fn place_number(&self, placed: &PlaceAnswer) -> u64 {
        self.passes() * PASS_UNIT + placed.slots * SLOT_UNIT + placed.storages
    }
}

/// What one slot and one pass count in the answer of placing: at most 256 storages stand below a slot, at most 256 slots
/// below a pass.
const SLOT_UNIT: u64 = 512;
const PASS_UNIT: u64 = 512 * SLOT_UNIT;

fn place_answer(placed: Placed) -> PlaceAnswer {
    let mut result = Vec::with_capacity(RESULT_BYTES);
    for (id, fixed) in &placed.placements {
        result.push(PLACE);
        result.extend(id.to_le_bytes());
        result.push(fixed.code);
        result.extend(fixed.a.to_le_bytes());
        result.extend(fixed.b.to_le_bytes());
    }
    result.resize(RESULT_BYTES, 0);
    PlaceAnswer {
        storages: placed.placements.len() as u64,
        slots: placed.slots as u64,
        result,
    }
}

/// The number of each unit word.
type Numbers = HashMap<u32, usize>;

fn set_bits(row: &mut [u64], numbers: impl IntoIterator<Item = usize>) {
    for number in numbers {
        row[number / 64] |= 1 << (number % 64);
    }
}

fn set_units(row: &mut [u64], words: &BTreeSet<u32>, numbers: &Numbers) {
    set_bits(row, words.iter().map(|word| numbers[word]));
}

fn unit_row(words: &BTreeSet<u32>, numbers: &Numbers) -> Vec<u64> {
    let mut row = vec![0; UNIT_ROW];
    set_units(&mut row, words, numbers);
    row
}

fn storage_row(ids: &BTreeSet<u16>) -> Vec<u64> {
    let mut row = vec![0; STORAGE_ROW];
    set_bits(&mut row, ids.iter().map(|id| usize::from(*id)));
    row
}

fn function_answers(program: &Program, original: &Original, numbers: &Numbers) -> Vec<FunctionAnswer> {
    let functions = program.functions.iter().enumerate();
    functions
        .map(|(index, function)| {
            let live = original.live(index);
            FunctionAnswer {
                number: function.number,
                passes: live.passes as u64,
                live: live_words(&live, numbers),
            }
        })
        .collect()
}

/// Live-in from the front, live-out from the middle, a row for each block.
fn live_words(live: &Live, numbers: &Numbers) -> Vec<u64> {
    let mut words = vec![0; LIVE_WORDS];
    let (ins, outs) = words.split_at_mut(LIVE_WORDS / 2);
    let rows = ins.chunks_mut(UNIT_ROW).zip(outs.chunks_mut(UNIT_ROW));
    for ((live_in, live_out), (row_in, row_out)) in live.blocks.iter().zip(rows) {
        set_units(row_in, live_in, numbers);
        set_units(row_out, live_out, numbers);
    }
    words
}

fn step_answers(program: &Program, original: &Original, numbers: &Numbers) -> Vec<StepAnswer> {
    let mut answers = Vec::new();
    for (index, function) in program.functions.iter().enumerate() {
        let uses = (0..function.blocks.len()).flat_map(|block| original.uses(index, block));
        let steps = function.steps().zip(uses);
        answers.extend(steps.map(|(step, uses)| step_answer(step.place, &uses, numbers)));
    }
    answers
}

fn step_answer(place: usize, uses: &Uses, numbers: &Numbers) -> StepAnswer {
    StepAnswer {
        place,
        sets: [
            unit_row(&uses.reads, numbers),
            unit_row(&uses.writes, numbers),
            storage_row(&uses.storages_read),
            storage_row(&uses.storages_written),
        ],
        effect: uses.effect,
    }
}

/// The graph holds each pair in both rows; a copy stands in the row of the smaller id.
fn graph_words(graph: &Graph) -> (Vec<u64>, Vec<u64>) {
    let (mut neighbours, mut copies) = (vec![0; GRAPH_WORDS], vec![0; GRAPH_WORDS]);
    let at = |id: u16| usize::from(id) * STORAGE_ROW;
    for (id, others) in &graph.neighbours {
        set_bits(
            &mut neighbours[at(*id)..],
            others.iter().map(|other| usize::from(*other)),
        );
    }
    for (one, other) in &graph.copies {
        let (smaller, larger) = (*one.min(other), *one.max(other));
        set_bits(&mut copies[at(smaller)..], [usize::from(larger)]);
    }
    (neighbours, copies)
}
