//! Instruction words, operand fields and status words from their parts.

use crate::emulator::codes::{operation, Op};

/// The code of an operation, its low bits zero.
const fn code(op: Op) -> u16 {
    match operation(op) {
        Some(operation) => operation.code,
        None => panic!("an operation without a row"),
    }
}

pub const NOP: u16 = code(Op::Nop);
pub const SVC: u16 = code(Op::Svc);
pub const MOV: u16 = code(Op::Mov);
pub const CLR: u16 = code(Op::Clr);
pub const ONE: u16 = code(Op::One);
pub const NOT: u16 = code(Op::Not);
pub const EOR: u16 = code(Op::Eor);
pub const EQV: u16 = code(Op::Eqv);
pub const NAND: u16 = code(Op::Nand);
pub const NOR: u16 = code(Op::Nor);
pub const OR: u16 = code(Op::Or);
pub const BITCLR: u16 = code(Op::Bitclr);
pub const BITSET: u16 = code(Op::Bitset);
pub const ENCODE0: u16 = code(Op::Encode0);
pub const ENCODE1: u16 = code(Op::Encode1);
pub const DEC: u16 = code(Op::Dec);
pub const INC: u16 = code(Op::Inc);
pub const ADD: u16 = code(Op::Add);
pub const SUB: u16 = code(Op::Sub);
pub const MUL: u16 = code(Op::Mul);
pub const LODI: u16 = code(Op::Lodi);
pub const LODX: u16 = code(Op::Lodx);
pub const STOI: u16 = code(Op::Stoi);
pub const STOX: u16 = code(Op::Stox);

/// Low code bits of the data operations.
pub const BYTE: u16 = 0x10;
pub const SAC_FULL: u16 = 0x4;
pub const SAC_TAKE: u16 = 0x8;
pub const DAC_EMPTY: u16 = 0x2;

/// The test that always holds.
pub const ALWAYS: u16 = 7;

/// Operand bits.
pub const INDEXED: u16 = 0x8000;
pub const CONSTANT: u16 = 0x4000;

pub fn register(displacement: u16) -> u16 {
    displacement & 0x7FF
}

/// A register under an access code.
pub fn accessed(access: u16, displacement: u16) -> u16 {
    access << 11 | register(displacement)
}

pub fn constant(displacement: u16) -> u16 {
    CONSTANT | displacement & 0x1FFF
}

pub fn word(code: u16, d: u16, s1: u16, s2: u16) -> u64 {
    [code, d, s1, s2].iter().fold(0, |word, &field| word << 16 | u64::from(field))
}

pub fn branch(test: u16, target: u32, s1: u16, s2: u16) -> u64 {
    let target = target & 0xF_FFFF;
    let code = code(Op::Branch) | test << 4 | (target >> 16) as u16;
    word(code, target as u16, s1, s2)
}

pub fn call(test: u16, d: u16, s1: u16, s2: u16) -> u64 {
    word(code(Op::Call) | test << 4, d, s1, s2)
}

pub fn create(test: u16, act: u16, s1: u16, s2: u16) -> u64 {
    word(code(Op::Create) | test << 4 | act, 0, s1, s2)
}

pub fn quit(test: u16, s2: u16) -> u64 {
    word(code(Op::Quit) | test << 4, 0, 0, s2)
}

pub fn psw(ci: u64, ri: u64, utm: u64, pc: u64) -> u64 {
    (ci & 0x1FFF) << 43 | (ri & 0x7FF) << 32 | (utm & 0xFF) << 24 | pc & 0xF_FFFF
}
