//! What the original takes from its own module `legacy_lowering`, declared to
//! fit document 01's layout.
//!
//! The list below is the only table of commands in the harness: the commands in
//! the order of `is_crystalfold_barrier`, the operands in the order in which the
//! arms of `fold_constants_and_identities` name them. `table.rs` reads both
//! orders from the original's text and compares.

use crate::cells::Cell;
use crate::codec::{
    ActivationSite, Bool, List, Name, Number, OptionalRegister, Quad, Register, WriteSite, F64,
    I32, U32,
};
use crate::codec::{Command, Operand, OperandKind, Reader, Writer};

#[derive(Debug, Clone, Copy, PartialEq, Eq, Hash)]
pub struct ActivationSiteId(pub u32);

#[derive(Debug, Clone, Copy, PartialEq, Eq, Hash)]
pub struct WriteSiteId(pub u32);

#[derive(Debug, Clone, Copy, PartialEq, Eq)]
pub enum OwnershipPathEventKind {
    Borrow,
    Write,
}

#[derive(Debug, Clone, PartialEq)]
pub struct OwnershipPathEvent {
    pub kind: OwnershipPathEventKind,
    pub activation_site: Option<ActivationSiteId>,
    pub write_site: Option<WriteSiteId>,
    /// The host's number for everything else in an event.
    pub rest: u32,
}

#[derive(Debug, Clone, PartialEq)]
pub struct IrFunction {
    pub name: String,
    pub instrs: Vec<IrInstr>,
    pub ownership_events: Vec<OwnershipPathEvent>,
}

macro_rules! commands {
    ($($byte:literal $command:ident { $($operand:ident: $kind:ident),* })*) => {
        #[derive(Debug, Clone, PartialEq)]
        pub enum IrInstr {
            $($command { $($operand: <$kind as OperandKind>::Value),* },)*
        }

        /// The 81 commands in the order of their bytes.
        pub const COMMANDS: &[Command] = &[
            $(Command {
                byte: $byte,
                name: stringify!($command),
                operands: &[$(Operand { name: stringify!($operand), form: <$kind as OperandKind>::FORM }),*],
            },)*
        ];

        /// The command bytes by name.
        #[allow(non_upper_case_globals)]
        pub mod byte {
            $(pub const $command: u8 = $byte;)*
        }

        impl IrInstr {
            /// The instruction of a cell that has passed the image check.
            pub fn decode(cell: &Cell) -> IrInstr {
                let mut reader = Reader::new(cell);
                match reader.byte() {
                    $($byte => IrInstr::$command { $($operand: $kind::read(&mut reader)),* },)*
                    other => panic!("command {other:02X}"),
                }
            }

            pub fn encode(&self) -> Cell {
                let mut writer = Writer::default();
                match self {
                    $(IrInstr::$command { $($operand),* } => {
                        writer.byte($byte);
                        $($kind::write($operand, &mut writer);)*
                    })*
                }
                writer.cell
            }
        }
    };
}

commands! {
    // The barriers.
    0x01 Assert { cond: Register }
    0x02 Call { dst: OptionalRegister, name: Name, args: List }
    0x03 ClockRead { dst: Register }
    0x04 ClosureCall { dst: OptionalRegister, closure: Number, arg: Number }
    0x05 EventPost { signal: Name }
    0x06 GateRead { dst: Register, device_id: Number, port: Number }
    0x07 GateWrite { device_id: Number, port: Number, src: Register }
    0x08 Jmp { label: Name }
    0x09 JmpIf { cond: Register, label: Name }
    0x0A Label { name: Name }
    0x0B PulseEmit { signal: Name }
    0x0C Ret { src: OptionalRegister }
    0x0D RngNextI32 { dst: Register, lo: Number, hi: Number }
    0x0E RngSeed { dst: Register, seed: Number }
    0x0F StateQuery { dst: Register, key: Name }
    0x10 StateUpdate { key: Name, src: Register }
    // The others.
    0x11 AddF64 { dst: Register, lhs: Register, rhs: Register }
    0x12 AddFx { dst: Register, lhs: Register, rhs: Register }
    0x13 AddI32 { dst: Register, lhs: Register, rhs: Register }
    0x14 AdtGet { dst: Register, src: Register, adt_name: Name, index: Number }
    0x15 AdtTag { dst: Register, src: Register, adt_name: Name }
    0x16 BoolAnd { dst: Register, lhs: Register, rhs: Register }
    0x17 BoolNot { dst: Register, src: Register }
    0x18 BoolOr { dst: Register, lhs: Register, rhs: Register }
    0x19 CmpEq { dst: Register, lhs: Register, rhs: Register }
    0x1A CmpI32Le { dst: Register, lhs: Register, rhs: Register }
    0x1B CmpI32Lt { dst: Register, lhs: Register, rhs: Register }
    0x1C CmpU32Le { dst: Register, lhs: Register, rhs: Register }
    0x1D CmpU32Lt { dst: Register, lhs: Register, rhs: Register }
    0x1E AddU32 { dst: Register, lhs: Register, rhs: Register }
    0x1F SubU32 { dst: Register, lhs: Register, rhs: Register }
    0x20 MulU32 { dst: Register, lhs: Register, rhs: Register }
    0x21 DivU32 { dst: Register, lhs: Register, rhs: Register }
    0x22 ModU32 { dst: Register, lhs: Register, rhs: Register }
    0x23 CmpNe { dst: Register, lhs: Register, rhs: Register }
    0x24 ConcatText { dst: Register, lhs: Register, rhs: Register }
    0x25 DivF64 { dst: Register, lhs: Register, rhs: Register }
    0x26 DivFx { dst: Register, lhs: Register, rhs: Register }
    0x27 DivI32 { dst: Register, lhs: Register, rhs: Register }
    0x28 LoadBool { dst: Register, val: Bool }
    0x29 LoadF64 { dst: Register, val: F64 }
    0x2A LoadFx { dst: Register, val: I32 }
    0x2B LoadI32 { dst: Register, val: I32 }
    0x2C LoadQ { dst: Register, val: Quad }
    0x2D LoadText { dst: Register, val: Name }
    0x2E LoadU32 { dst: Register, val: U32 }
    0x2F LoadVar { dst: Register, name: Name }
    0x30 MakeAdt { dst: Register, adt_name: Name, variant_name: Name, tag: U32, items: List }
    0x31 MakeClosure { dst: Register, name: Name, captures: List }
    0x32 MakeRecord { dst: Register, name: Name, items: List, write_site: WriteSite }
    0x33 MakeSequence { dst: Register, items: List }
    0x34 MakeTuple { dst: Register, items: List }
    0x35 MapContains { dst: Register, map: Number, key: Number }
    0x36 MapEmpty { dst: Register }
    0x37 MapGet { dst: Register, map: Number, key: Number, default_val: Number }
    0x38 MapSet { dst: Register, map: Number, key: Number, val: Number }
    0x39 ModI32 { dst: Register, lhs: Register, rhs: Register }
    0x3A MulF64 { dst: Register, lhs: Register, rhs: Register }
    0x3B MulFx { dst: Register, lhs: Register, rhs: Register }
    0x3C MulI32 { dst: Register, lhs: Register, rhs: Register }
    0x3D QAnd { dst: Register, lhs: Register, rhs: Register }
    0x3E QImpl { dst: Register, lhs: Register, rhs: Register }
    0x3F QNot { dst: Register, src: Register }
    0x40 QOr { dst: Register, lhs: Register, rhs: Register }
    0x41 QTruthAnd { dst: Register, lhs: Register, rhs: Register }
    0x42 QTruthImpl { dst: Register, lhs: Register, rhs: Register }
    0x43 QTruthNot { dst: Register, src: Register }
    0x44 QTruthOr { dst: Register, lhs: Register, rhs: Register }
    0x45 RecordGet { dst: Register, src: Register, record_name: Name, index: Number }
    0x46 SequenceContains { dst: Register, seq: Number, val: Number }
    0x47 SequenceGet { dst: Register, src: Register, index: Number }
    0x48 SequenceIsEmpty { dst: Register, src: Register }
    0x49 SequenceLen { dst: Register, src: Register }
    0x4A SequencePop { dst: Register, src: Register }
    0x4B SequencePrepend { dst: Register, seq: Number, val: Number }
    0x4C SequencePush { dst: Register, seq: Number, val: Number }
    0x4D StoreVar { name: Name, src: Register, activation_site: ActivationSite, write_site: WriteSite }
    0x4E SubF64 { dst: Register, lhs: Register, rhs: Register }
    0x4F SubFx { dst: Register, lhs: Register, rhs: Register }
    0x50 SubI32 { dst: Register, lhs: Register, rhs: Register }
    0x51 TupleGet { dst: Register, src: Register, index: Number }
}
