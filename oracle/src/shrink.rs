//! Makes a file smaller by leaving out functions, blocks, steps, storages and single records, as long as what was seen in it
//! stays.

use std::time::Instant;

use crate::records::*;

/// A file as records. Bytes that are no whole record are pieces of one byte.
type Pieces = Vec<Vec<u8>>;

/// Proposes the lists of pieces that could be left out together.
type Proposal = fn(&Pieces) -> Vec<Vec<usize>>;

/// From large parts to small ones, since a part that goes takes its own parts along.
const PROPOSALS: [Proposal; 5] = [functions, blocks, storages, steps, runs];

/// The smallest file that was found before the deadline. Every part is tried until none can be left out.
pub fn shrink(file: &[u8], deadline: Instant, stays: impl Fn(&[u8]) -> bool) -> Vec<u8> {
    let mut pieces = pieces_of(file);
    loop {
        let before = pieces.len();
        for proposal in PROPOSALS {
            pieces = leave_out(pieces, deadline, proposal, &stays);
        }
        if pieces.len() == before || Instant::now() >= deadline {
            return pieces.concat();
        }
    }
}

/// Leaves out each proposed part that the finding does not need. The parts are proposed anew after each that goes, and the
/// search goes on where it stood.
fn leave_out(mut pieces: Pieces, deadline: Instant, proposal: Proposal, stays: &impl Fn(&[u8]) -> bool) -> Pieces {
    let mut parts = proposal(&pieces);
    let mut next = 0;
    while next < parts.len() && Instant::now() < deadline {
        let smaller = without(&pieces, &parts[next]);
        if stays(&smaller.concat()) {
            pieces = smaller;
            parts = proposal(&pieces);
        } else {
            next += 1;
        }
    }
    pieces
}

fn without(pieces: &Pieces, part: &[usize]) -> Pieces {
    let kept = pieces.iter().enumerate().filter(|(index, _)| !part.contains(index));
    kept.map(|(_, piece)| piece.clone()).collect()
}

fn pieces_of(file: &[u8]) -> Pieces {
    let mut pieces = Vec::new();
    let mut rest = file;
    while let Some(kind) = rest.first() {
        let length = record_length(*kind).filter(|length| *length <= rest.len()).unwrap_or(1);
        let (piece, after) = rest.split_at(length);
        pieces.push(piece.to_vec());
        rest = after;
    }
    pieces
}

/// The stretches that begin with a piece of the first kind and go on to the next of any of the kinds.
fn stretches(pieces: &Pieces, kinds: &[u8]) -> Vec<Vec<usize>> {
    let is_start = |index: &usize| kinds.contains(&pieces[*index][0]);
    let starts: Vec<usize> = (0..pieces.len()).filter(is_start).collect();
    let ends = starts.iter().skip(1).copied().chain([pieces.len()]);
    let all = starts.iter().copied().zip(ends);
    let wanted = all.filter(|(start, _)| pieces[*start][0] == kinds[0]);
    wanted.map(|(start, end)| (start..end).collect()).collect()
}

fn functions(pieces: &Pieces) -> Vec<Vec<usize>> {
    stretches(pieces, &[FUNCTION, END])
}

fn blocks(pieces: &Pieces) -> Vec<Vec<usize>> {
    stretches(pieces, &[BLOCK, FUNCTION, END])
}

/// Instructions with their operands.
fn steps(pieces: &Pieces) -> Vec<Vec<usize>> {
    stretches(pieces, &[INSTRUCTION, TERMINATOR, BLOCK, FUNCTION, END])
}

/// Each storage with the ABI records and the instructions that name it.
fn storages(pieces: &Pieces) -> Vec<Vec<usize>> {
    let declared = (0..pieces.len()).filter(|index| is_whole(&pieces[*index], STORAGE));
    declared.map(|index| with_uses(pieces, index)).collect()
}

fn is_whole(piece: &[u8], kind: u8) -> bool {
    piece[0] == kind && Some(piece.len()) == record_length(kind)
}

fn with_uses(pieces: &Pieces, storage: usize) -> Vec<usize> {
    let id = u16_at(&pieces[storage], 1);
    let names = |index: &usize, kind: u8| is_whole(&pieces[*index], kind) && u16_at(&pieces[*index], 3) == id;
    let mut part = vec![storage];
    part.extend((0..pieces.len()).filter(|index| names(index, ABI)));
    let steps = steps(pieces);
    let naming = steps
        .iter()
        .filter(|step| step.iter().any(|index| names(index, OPERAND)));
    part.extend(naming.flatten());
    part
}

/// Runs of pieces, from halves of the file down to single ones.
fn runs(pieces: &Pieces) -> Vec<Vec<usize>> {
    let mut runs = Vec::new();
    let mut length = pieces.len() / 2;
    while length >= 1 {
        let starts = (0..pieces.len()).step_by(length);
        runs.extend(starts.map(|start| (start..pieces.len().min(start + length)).collect()));
        length /= 2;
    }
    runs
}
