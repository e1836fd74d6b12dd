//! The original analysis and allocator, unchanged, on decoded programs.

pub mod answers;
pub mod ease;
mod steps;
pub mod text;

use std::collections::{BTreeMap, BTreeSet};

use crate::program::{AbiEntry, Block, Fixed, Function, Header, Program, Storage, Value};
use crate::records::*;
use original::shared::lir::{self, BlockId, FunctionAbi, PhysicalPlacement, StorageId, StorageOwner, StorageRegion};
use original::shared::lir_analysis::{self as analysis, ProgramSemantics, StorageUnit};

/// What the original's placement gives for a program.
#[derive(Clone, Debug, PartialEq, Eq)]
pub struct Placed {
    /// Id, code, a and b in file order.
    pub placements: Vec<(u16, Fixed)>,
    pub slots: usize,
}

/// Live sets of one function as unit words, by block in file order.
#[derive(Clone, Debug, PartialEq, Eq)]
pub struct Live {
    pub blocks: Vec<(BTreeSet<u32>, BTreeSet<u32>)>,
    pub passes: usize,
}

/// What one instruction or terminator does.
#[derive(Clone, Debug, Default, PartialEq, Eq)]
pub struct Uses {
    pub reads: BTreeSet<u32>,
    pub writes: BTreeSet<u32>,
    pub storages_read: BTreeSet<u16>,
    pub storages_written: BTreeSet<u16>,
    pub effect: bool,
}

/// The interfering storages of each storage, and the copy pairs.
#[derive(Clone, Debug, PartialEq, Eq)]
pub struct Graph {
    pub neighbours: BTreeMap<u16, BTreeSet<u16>>,
    pub copies: BTreeSet<(u16, u16)>,
}

/// A program in the original's types.
pub struct Original {
    program: lir::VirtualProgram,
    semantics: ProgramSemantics,
}

impl Original {
    pub fn new(program: &Program) -> Self {
        let mut functions = program.functions.iter().map(function);
        let program = lir::VirtualProgram {
            main: functions.next().expect("an accepted file has a function"),
            interrupt_handlers: Default::default(),
            functions: functions.collect(),
            statics: Vec::new(),
            storages: program.storages.iter().map(storage).collect(),
        };
        let semantics = ProgramSemantics::new(&program);
        Self { program, semantics }
    }

    fn function(&self, index: usize) -> &lir::Function {
        self.program
            .all_functions()
            .nth(index)
            .expect("the function is in the file")
    }

    /// The live sets of the function of this index in the file.
    pub fn live(&self, index: usize) -> Live {
        let function = self.function(index);
        let sets = analysis::liveness(function, &self.semantics);
        let of = |sets: &BTreeMap<BlockId, analysis::UnitSet>, id| words(&sets[id]);
        Live {
            blocks: function
                .blocks
                .iter()
                .map(|block| (of(&sets.live_in, &block.id), of(&sets.live_out, &block.id)))
                .collect(),
            passes: analysis::liveness_passes(function, &self.semantics),
        }
    }

    /// What each step of a block does, the terminator last.
    pub fn uses(&self, function: usize, block: usize) -> Vec<Uses> {
        let function = self.function(function);
        let block = &function.blocks[block];
        let mut all: Vec<Uses> = block
            .instructions
            .iter()
            .map(|step| self.instruction_uses(&step.kind))
            .collect();
        let kind = &block.terminator.kind;
        all.push(Uses {
            reads: words(&analysis::terminator_unit_uses(kind, function, &self.semantics)),
            writes: words(&analysis::terminator_unit_definitions(kind, &self.semantics)),
            storages_read: ids(&analysis::terminator_uses(kind, function, &self.semantics)),
            storages_written: ids(&analysis::terminator_definitions(kind, &self.semantics)),
            effect: false,
        });
        all
    }

    fn instruction_uses(&self, kind: &lir::InstructionKind) -> Uses {
        Uses {
            reads: words(&analysis::instruction_unit_uses(kind, &self.semantics)),
            writes: words(&analysis::instruction_unit_definitions(kind, &self.semantics)),
            storages_read: ids(&analysis::instruction_uses(kind, &self.semantics)),
            storages_written: ids(&analysis::instruction_definitions(kind, &self.semantics)),
            effect: analysis::has_observable_effect(kind),
        }
    }

    pub fn graph(&self) -> Graph {
        let (graph, copies) = analysis::interference_graph(&self.program);
        Graph {
            neighbours: graph.iter().map(|(id, others)| (number(*id), ids(others))).collect(),
            copies: copies
                .into_iter()
                .map(|(one, other)| (number(one), number(other)))
                .collect(),
        }
    }

    /// Live sets of every function and the graph, in the original's types, to be timed. Gives their sizes added up.
    pub fn analyse(&self) -> usize {
        let functions = self.program.all_functions();
        let live = functions.map(|function| analysis::liveness(function, &self.semantics));
        let lanes: usize = live
            .map(|sets| sets.live_in.values().map(BTreeSet::len).sum::<usize>())
            .sum();
        let (graph, copies) = analysis::interference_graph(&self.program);
        lanes + graph.len() + copies.len()
    }

    /// The placement by the allocator of the header's sizes. Where it was built for other sizes only, the one of the
    /// largest answers for it.
    pub fn place(&self, program: &Program) -> Result<Placed, (u32, u32)> {
        match original::allocator(sizes(program.header)) {
            Some(allocator) => place_by(allocator, &self.program, program),
            None => self.place_in_largest(program),
        }
    }

    /// The placement in the largest memories, where fixed storages before all others take the bytes that the header's
    /// sizes leave out and those below F. A full byte refuses whatever a missing one does, so the answers are the same.
    pub fn place_in_largest(&self, program: &Program) -> Result<Placed, (u32, u32)> {
        let allocator = original::allocator(LARGEST).expect("the allocator is built for the largest sizes");
        let mut filled = self.program.clone();
        filled.storages.splice(0..0, fillings(program.header));
        place_by(allocator, &filled, program)
    }

    /// Analysis and allocation in the original's types, to be timed. Gives the storages placed, or the refusal's number.
    pub fn allocate(&self, header: Header) -> Option<u64> {
        let allocator = original::allocator(sizes(header))?;
        Some(match allocator(&self.program) {
            Ok((placements, _)) => placements.len() as u64,
            Err((number, _)) => number.into(),
        })
    }
}

/// The sizes that hold all others.
const LARGEST: (u16, u16, u16) = (256, 0, 512);

fn sizes(header: Header) -> (u16, u16, u16) {
    (header.application, header.first, header.work)
}

/// The last placements are those of the file's storages.
fn place_by(allocator: original::Place, given: &lir::VirtualProgram, program: &Program) -> Result<Placed, (u32, u32)> {
    let (placements, slots) = allocator(given).map_err(|(number, value)| (number, value as u32))?;
    let own = &placements[placements.len() - program.storages.len()..];
    Ok(Placed {
        placements: program.storages.iter().zip(own).map(placement_numbers).collect(),
        slots,
    })
}

/// Fixed storages of the program, with ids that no file has, in the bytes of the largest memories that are not free.
fn fillings(header: Header) -> Vec<lir::Storage<lir::VirtualPlacement>> {
    let (largest_application, _, largest_work) = LARGEST;
    let parts = [
        (3, 0, header.first),
        (3, header.application, largest_application - header.application),
        (10, header.work, largest_work - header.work),
    ];
    let parts = parts.into_iter().filter(|(_, _, length)| *length > 0);
    let forms = parts.zip(LARGEST_ID + 1..).map(|((code, a, length), id)| Storage {
        place: 0,
        id,
        owner: None,
        kind: KIND_BYTES,
        length,
        regions: 0,
        direct: false,
        fixed: Some(Fixed { code, a, b: 0 }),
    });
    forms.map(|form| storage(&form)).collect()
}

fn number(id: StorageId) -> u16 {
    id.0 as u16
}

fn ids(storages: &analysis::StorageSet) -> BTreeSet<u16> {
    storages.iter().copied().map(number).collect()
}

fn words(units: &analysis::UnitSet) -> BTreeSet<u32> {
    units.iter().filter_map(|unit| unit_value(*unit).word()).collect()
}

fn unit_value(unit: StorageUnit) -> Value {
    match unit {
        StorageUnit::Byte(byte) => Value::Lane {
            storage: number(byte.storage),
            offset: byte.offset as u16,
        },
        StorageUnit::Bit(storage) => Value::Bit(number(storage)),
        StorageUnit::Object(storage) => Value::Object(number(storage)),
    }
}

fn storage(storage: &Storage) -> lir::Storage<lir::VirtualPlacement> {
    lir::Storage {
        id: StorageId(storage.id.into()),
        name: None,
        owner: storage
            .owner
            .map_or(StorageOwner::Program, |owner| StorageOwner::Function(owner.to_string())),
        kind: storage_kind(storage),
        placement: lir::VirtualPlacement {
            allowed_regions: regions(storage.regions),
            must_be_direct: storage.direct,
            fixed: storage.fixed.map(fixed_placement),
        },
    }
}

fn storage_kind(storage: &Storage) -> lir::StorageKind {
    match storage.kind {
        KIND_BIT => lir::StorageKind::Bit,
        KIND_BYTE => lir::StorageKind::Byte,
        KIND_CARRY => lir::StorageKind::Carry,
        _ => lir::StorageKind::Bytes {
            length: usize::from(storage.length)
                .try_into()
                .expect("an accepted length is not 0"),
        },
    }
}

fn regions(mask: u16) -> Vec<StorageRegion> {
    let all = [
        StorageRegion::Accumulator,
        StorageRegion::CarryFlag,
        StorageRegion::ApplicationRam,
        StorageRegion::SpecialRegister,
        StorageRegion::IndirectRegister,
        StorageRegion::ShadowStack,
        StorageRegion::WorkRam,
        StorageRegion::Flash,
        StorageRegion::XRam,
    ];
    let allowed = all.into_iter().enumerate().filter(|(bit, _)| mask >> bit & 1 == 1);
    allowed.map(|(_, region)| region).collect()
}

/// The registers and banks of codes 8, 9 and 12 stand for all their numbers: the allocator does not look at them.
fn fixed_placement(fixed: Fixed) -> PhysicalPlacement {
    let bit = lir::BitIndex::new(fixed.b as u8 % 8).expect("below 8");
    let work = lir::WorkRamOffset::new(fixed.a % 512).expect("below 512");
    match fixed.code {
        1 => PhysicalPlacement::Accumulator,
        2 => PhysicalPlacement::CarryFlag,
        3 => PhysicalPlacement::ApplicationRam { offset: fixed.a as u8 },
        4 => PhysicalPlacement::ApplicationBit {
            offset: fixed.a as u8,
            bit,
        },
        5 => PhysicalPlacement::ShadowStack { frame_offset: work },
        6 => PhysicalPlacement::ShadowStackBit {
            frame_offset: work,
            bit,
        },
        7 => PhysicalPlacement::WorkRamBit { offset: work, bit },
        8 => PhysicalPlacement::SpecialRegister(lir::SpecialRegister::B),
        9 => PhysicalPlacement::IndirectRegister {
            bank: lir::IndirectRegisterBank::Bank0,
            register: lir::IndirectRegister::R0,
        },
        10 => PhysicalPlacement::WorkRam { offset: work },
        11 => PhysicalPlacement::Flash,
        _ => PhysicalPlacement::XRam {
            bank: lir::XRamBank::Icons,
            offset: lir::XRamOffset::new(fixed.a as u8).expect("every offset passes"),
        },
    }
}

/// A fixed storage keeps its numbers, since the original's types do not carry all of them.
fn placement_numbers((storage, placement): (&Storage, &PhysicalPlacement)) -> (u16, Fixed) {
    let (code, a, b) = match *placement {
        PhysicalPlacement::Accumulator => (1, 0, 0),
        PhysicalPlacement::CarryFlag => (2, 0, 0),
        PhysicalPlacement::ApplicationRam { offset } => (3, offset.into(), 0),
        PhysicalPlacement::ApplicationBit { offset, bit } => (4, offset.into(), bit.get().into()),
        PhysicalPlacement::ShadowStack { frame_offset } => (5, frame_offset.get(), 0),
        PhysicalPlacement::ShadowStackBit { frame_offset, bit } => (6, frame_offset.get(), bit.get().into()),
        PhysicalPlacement::WorkRamBit { offset, bit } => (7, offset.get(), bit.get().into()),
        PhysicalPlacement::SpecialRegister(_) => (8, 0, 0),
        PhysicalPlacement::IndirectRegister { .. } => (9, 0, 0),
        PhysicalPlacement::WorkRam { offset } => (10, offset.get(), 0),
        PhysicalPlacement::Flash => (11, 0, 0),
        PhysicalPlacement::XRam { .. } => (12, 0, 0),
    };
    (storage.id, storage.fixed.unwrap_or(Fixed { code, a, b }))
}

fn function(function: &Function) -> lir::Function {
    lir::Function {
        name: function.number.to_string(),
        kind: lir::FunctionKind::Normal,
        abi: function_abi(&function.abi),
        blocks: function.blocks.iter().map(block).collect(),
        entry: BlockId(function.blocks.first().map_or(0, |block| block.id.into())),
    }
}

fn function_abi(entries: &[AbiEntry]) -> FunctionAbi {
    let of = |role| {
        entries
            .iter()
            .filter(move |entry| entry.role == role)
            .map(|entry| entry.value)
    };
    steps::abi(of(ROLE_PARAMETER), of(ROLE_RESULT), of(ROLE_CLOBBERED))
}

fn block(block: &Block) -> lir::Block {
    lir::Block {
        id: BlockId(block.id.into()),
        name: None,
        instructions: block.instructions.iter().map(steps::instruction).collect(),
        terminator: steps::terminator(&block.terminator),
    }
}
