//! The fields of a status word.

pub const CI: u64 = 0x1FFF << 43;
pub const RI: u64 = 0x7FF << 32;
pub const UTM: u64 = 0xFF << 24;
pub const PC: u64 = 0xF_FFFF;

/// The bits of a status word that are always zero.
pub const ZERO: u64 = !(CI | RI | UTM | PC);

/// What ACT takes from S1.
const ACTION: [u64; 16] = actions();

const fn actions() -> [u64; 16] {
    let mut table = [0; 16];
    let mut act = 0;
    while act < 16 {
        let ci = if act & 8 != 0 { CI } else { 0 };
        let ri = if act & 4 != 0 { RI } else { 0 };
        let utm = if act & 2 != 0 { UTM } else { 0 };
        let pc = if act & 1 != 0 { PC } else { 0 };
        table[act] = ci | ri | utm | pc;
        act += 1;
    }
    table
}

#[inline(always)]
pub fn ci(psw: u64) -> u64 {
    psw >> 43 & 0x1FFF
}

#[inline(always)]
pub fn ri(psw: u64) -> u64 {
    psw >> 32 & 0x7FF
}

#[inline(always)]
pub fn utm(psw: u64) -> u64 {
    psw >> 24 & 0xFF
}

#[inline(always)]
pub fn pc(psw: u64) -> u64 {
    psw & PC
}

/// The status word with PC + 1.
#[inline(always)]
pub fn next(psw: u64) -> u64 {
    psw & !PC | (psw + 1) & PC
}

/// The fields that ACT names from `other`, the rest from `psw`.
#[inline(always)]
pub fn merge(psw: u64, other: u64, act: u64) -> u64 {
    let taken = ACTION[(act & 15) as usize];
    psw & !taken | other & taken
}

/// Each field of `other` added to its field of `psw`, modulo the width.
#[inline(always)]
pub fn add(psw: u64, other: u64) -> u64 {
    let field = |mask| ((psw & mask) + (other & mask)) & mask;
    field(CI) | field(RI) | field(UTM) | field(PC)
}
