//! Instructions and terminators in the original's types. A file does not carry operations, widths and offsets that the
//! analysis never looks at; any value stands for them.

use crate::program::{Step, Value};
use original::shared::intrinsics::Intrinsic;
use original::shared::lir::*;

fn lane(value: Value) -> ByteStorage {
    match value {
        Value::Lane { storage, offset } => ByteStorage {
            storage: StorageId(storage.into()),
            offset: offset.into(),
        },
        _ => unreachable!("an accepted file has a lane here"),
    }
}

fn storage_id(value: Value) -> StorageId {
    match value {
        Value::Bit(storage) | Value::Object(storage) => StorageId(storage.into()),
        _ => unreachable!("an accepted file has a bit or an object here"),
    }
}

fn byte_operand(value: Value) -> ByteOperand {
    match value {
        Value::Immediate(number) => ByteOperand::Immediate(number),
        _ => ByteOperand::Storage(lane(value)),
    }
}

fn bit_operand(value: Value) -> BitOperand {
    match value {
        Value::Immediate(number) => BitOperand::Constant(number == 1),
        _ => BitOperand::Storage(storage_id(value)),
    }
}

fn value_operand(value: Value) -> ValueOperand {
    match value {
        Value::Bit(_) => ValueOperand::Bit(bit_operand(value)),
        _ => ValueOperand::Byte(byte_operand(value)),
    }
}

fn value_storage(value: Value) -> ValueStorage {
    match value {
        Value::Bit(_) => ValueStorage::Bit(storage_id(value)),
        _ => ValueStorage::Byte(lane(value)),
    }
}

/// The operands of a step by field.
struct Fields<'a>(&'a Step);

impl Fields<'_> {
    fn one(&self, field: u8) -> Value {
        self.0.field(field).next().expect("an accepted file has the operand")
    }

    fn lane(&self, field: u8) -> ByteStorage {
        lane(self.one(field))
    }

    fn lanes(&self, field: u8) -> Vec<ByteStorage> {
        self.0.field(field).map(lane).collect()
    }

    fn byte(&self, field: u8) -> ByteOperand {
        byte_operand(self.one(field))
    }

    fn bytes(&self, field: u8) -> Vec<ByteOperand> {
        self.0.field(field).map(byte_operand).collect()
    }

    fn id(&self, field: u8) -> StorageId {
        storage_id(self.one(field))
    }

    fn optional_id(&self, field: u8) -> Option<StorageId> {
        self.0.field(field).next().map(storage_id)
    }

    fn bit(&self, field: u8) -> BitOperand {
        bit_operand(self.one(field))
    }

    /// Without a computed address the call names a function, which reads nothing.
    fn code_address(&self, field: u8) -> CodeAddress {
        match self.bytes(field)[..] {
            [low, high] => CodeAddress::Computed { low, high },
            _ => CodeAddress::Function(String::new()),
        }
    }

    fn indirect_abi(&self) -> FunctionAbi {
        abi(self.0.field(3), self.0.field(0), self.0.field(1))
    }
}

pub fn abi(
    parameters: impl Iterator<Item = Value>,
    results: impl Iterator<Item = Value>,
    clobbered: impl Iterator<Item = Value>,
) -> FunctionAbi {
    let abi_value = |(logical_index, value)| AbiValue {
        logical_index,
        pieces: vec![value_storage(value)],
    };
    FunctionAbi {
        parameters: parameters.enumerate().map(abi_value).collect(),
        results: results.enumerate().map(abi_value).collect(),
        preserved: Vec::new(),
        clobbered: clobbered.map(storage_id).collect(),
    }
}

pub fn instruction(step: &Step) -> Instruction {
    let fields = Fields(step);
    let kind = match step.op {
        0..=6 => plain(step.op, &fields),
        7..=11 => arithmetic(step.op, &fields),
        12..=17 => memory(step, &fields),
        18 | 19 | 24..=26 => wide(step, &fields),
        20..=23 => choice(step.op, &fields),
        _ => call(step, &fields),
    };
    Instruction { kind }
}

fn plain(op: u8, fields: &Fields) -> InstructionKind {
    match op {
        0 => InstructionKind::CopyByte {
            destination: fields.lane(0),
            source: fields.byte(1),
        },
        1 => InstructionKind::CopyBit {
            destination: fields.id(0),
            source: fields.bit(1),
        },
        2 => InstructionKind::SetBit(fields.id(0)),
        3 => InstructionKind::ClearBit(fields.id(0)),
        4 => InstructionKind::ToggleBit(fields.id(0)),
        5 => InstructionKind::ByteUnary {
            op: ByteUnaryOp::Not,
            destination: fields.lane(0),
            input: fields.byte(1),
        },
        _ => InstructionKind::ByteBinary {
            op: ByteBinaryOp::And,
            destination: fields.lane(0),
            left: fields.byte(1),
            right: fields.byte(2),
        },
    }
}

fn arithmetic(op: u8, fields: &Fields) -> InstructionKind {
    match op {
        7 => InstructionKind::Add {
            destination: fields.lane(0),
            carry_out: fields.optional_id(1),
            left: fields.byte(2),
            right: fields.byte(3),
            carry_in: fields.optional_id(4),
        },
        8 => InstructionKind::Subtract {
            destination: fields.lane(0),
            borrow_out: fields.optional_id(1),
            left: fields.byte(2),
            right: fields.byte(3),
            borrow_in: fields.optional_id(4),
        },
        9 | 10 => product_or_quotient(op, fields),
        _ => InstructionKind::Rotate {
            direction: RotateDirection::Left,
            through_carry: false,
            destination: fields.lane(0),
            carry_out: fields.optional_id(1),
            input: fields.byte(2),
            carry_in: fields.optional_id(3),
        },
    }
}

fn product_or_quotient(op: u8, fields: &Fields) -> InstructionKind {
    if op == 9 {
        return InstructionKind::Multiply {
            result_high: fields.lane(0),
            result_middle: fields.lane(1),
            result_low: fields.lane(2),
            left_high: fields.byte(3),
            left_low: fields.byte(4),
            right: fields.byte(5),
        };
    }
    InstructionKind::Divide {
        quotient_high: fields.lane(0),
        quotient_low: fields.lane(1),
        remainder: fields.lane(2),
        dividend_high: fields.byte(3),
        dividend_low: fields.byte(4),
        divisor: fields.byte(5),
    }
}

fn memory(step: &Step, fields: &Fields) -> InstructionKind {
    match step.op {
        12 => InstructionKind::LoadIndirect {
            destination: fields.lane(0),
            address: Address::of_any_bytes(fields.bytes(1)),
        },
        13 => InstructionKind::StoreIndirect {
            address: Address::of_any_bytes(fields.bytes(0)),
            value: fields.byte(1),
        },
        14 => InstructionKind::Push(fields.byte(0)),
        15 => InstructionKind::Pop(fields.lane(0)),
        16 => InstructionKind::AddressOf {
            destination_low: fields.lane(0),
            destination_high: fields.lane(1),
            storage: fields.id(2),
            offset: 0,
        },
        _ => InstructionKind::FunctionAddress {
            destination_low: fields.lane(0),
            destination_high: fields.lane(1),
            function: step.function.to_string(),
        },
    }
}

fn wide(step: &Step, fields: &Fields) -> InstructionKind {
    match step.op {
        18 => InstructionKind::ShiftBytes {
            op: ShiftOp::Left,
            destinations: fields.lanes(0),
            value: fields.bytes(1),
            amount: fields.bytes(2),
            width: 8,
        },
        19 => InstructionKind::CompareBytes {
            op: CompareOp::Equal,
            destination: fields.id(0),
            left: fields.bytes(1),
            right: fields.bytes(2),
            width: 8,
        },
        24 => InstructionKind::SignExtend {
            destinations: fields.lanes(0),
            source: fields.bytes(1),
            source_width: 8,
        },
        25 => InstructionKind::IntegerUnaryBytes {
            op: IntegerUnaryBytesOp::PopulationCount,
            destinations: fields.lanes(0),
            input: fields.bytes(1),
            width: 8,
        },
        _ => InstructionKind::IntegerBinaryBytes {
            op: integer_binary_op(step.sub),
            destinations: fields.lanes(0),
            left: fields.bytes(1),
            right: fields.bytes(2),
            width: 8,
        },
    }
}

fn integer_binary_op(sub: u8) -> IntegerBinaryBytesOp {
    [
        IntegerBinaryBytesOp::Multiply,
        IntegerBinaryBytesOp::DivideUnsigned,
        IntegerBinaryBytesOp::DivideSigned,
        IntegerBinaryBytesOp::RemainderUnsigned,
        IntegerBinaryBytesOp::RemainderSigned,
        IntegerBinaryBytesOp::SaturatingAddUnsigned,
        IntegerBinaryBytesOp::SaturatingAddSigned,
        IntegerBinaryBytesOp::SaturatingSubtractUnsigned,
        IntegerBinaryBytesOp::SaturatingSubtractSigned,
    ][usize::from(sub)]
}

fn choice(op: u8, fields: &Fields) -> InstructionKind {
    match op {
        20 => InstructionKind::SelectByte {
            destination: fields.lane(0),
            condition: fields.bit(1),
            when_true: fields.byte(2),
            when_false: fields.byte(3),
        },
        21 => InstructionKind::SelectBit {
            destination: fields.id(0),
            condition: fields.bit(1),
            when_true: fields.bit(2),
            when_false: fields.bit(3),
        },
        22 => InstructionKind::BitToByte {
            destination: fields.lane(0),
            source: fields.bit(1),
        },
        _ => InstructionKind::ByteToBit {
            destination: fields.id(0),
            source: fields.byte(1),
        },
    }
}

fn call(step: &Step, fields: &Fields) -> InstructionKind {
    match step.op {
        27 => InstructionKind::Call {
            function: step.function.to_string(),
        },
        28 => InstructionKind::CallIndirect {
            target: fields.code_address(2),
            abi: fields.indirect_abi(),
        },
        _ => InstructionKind::Intrinsic {
            operation: Intrinsic::XramRead,
            outputs: step.field(0).map(value_storage).collect(),
            inputs: step.field(1).map(value_operand).collect(),
        },
    }
}

pub fn terminator(step: &Step) -> Terminator {
    let fields = Fields(step);
    let targets: Vec<BlockId> = step.targets.iter().map(|target| BlockId(target.block.into())).collect();
    let kind = match step.op {
        0 => TerminatorKind::Jump(targets[0]),
        1 => TerminatorKind::Branch {
            condition: branch_condition(step.sub, &fields),
            when_true: targets[0],
            when_false: targets[1],
        },
        2 => TerminatorKind::Switch {
            value: fields.bytes(0),
            width: 8,
            cases: targets[1..]
                .iter()
                .enumerate()
                .map(|(case, block)| (case as u128, *block))
                .collect(),
            default: targets[0],
        },
        3 => TerminatorKind::TailCall {
            function: step.function.to_string(),
        },
        4 => TerminatorKind::TailCallIndirect {
            target: fields.code_address(2),
            abi: fields.indirect_abi(),
        },
        5 => TerminatorKind::Return,
        6 => TerminatorKind::Trap,
        _ => TerminatorKind::Unreachable,
    };
    Terminator { kind }
}

fn branch_condition(sub: u8, fields: &Fields) -> BranchCondition {
    match sub {
        0 => BranchCondition::BitSet(fields.id(0)),
        1 => BranchCondition::BitClear(fields.id(0)),
        2 => BranchCondition::ByteZero(fields.byte(0)),
        3 => BranchCondition::ByteNonZero(fields.byte(0)),
        4 => BranchCondition::CarrySet(fields.id(0)),
        5 => BranchCondition::CarryClear(fields.id(0)),
        6 => BranchCondition::Equal {
            left: fields.byte(0),
            right: fields.byte(1),
        },
        _ => BranchCondition::NotEqual {
            left: fields.byte(0),
            right: fields.byte(1),
        },
    }
}
