//! Results of the operations: a word and its quality.

const GOOD: u8 = 0;
const CARRY: u8 = 1;
const OVERFLOW: u8 = 4;

/// The answer of ENCODE0 and ENCODE1 when there is no such bit: -2^63.
const NO_BIT: u64 = 1 << 63;

#[inline(always)]
fn quality(carry: bool, overflow: bool) -> u8 {
    match (overflow, carry) {
        (true, _) => OVERFLOW,
        (false, true) => CARRY,
        (false, false) => GOOD,
    }
}

#[inline(always)]
pub fn add(a: u64, b: u64) -> (u64, u8) {
    let (sum, carry) = a.overflowing_add(b);
    let (_, overflow) = (a as i64).overflowing_add(b as i64);
    (sum, quality(carry, overflow))
}

#[inline(always)]
pub fn sub(a: u64, b: u64) -> (u64, u8) {
    let (difference, borrow) = a.overflowing_sub(b);
    let (_, overflow) = (a as i64).overflowing_sub(b as i64);
    (difference, quality(!borrow, overflow))
}

#[inline(always)]
pub fn mul(a: u64, b: u64) -> (u64, u8) {
    let (product, overflow) = (a as i64).overflowing_mul(b as i64);
    (product as u64, quality(false, overflow))
}

/// The bit that `b` modulo 64 names, 0 being the leftmost.
#[inline(always)]
pub fn bit(b: u64) -> u64 {
    1 << 63 >> (b & 63)
}

/// The place of the leftmost one.
#[inline(always)]
pub fn leftmost(a: u64) -> u64 {
    if a == 0 {
        NO_BIT
    } else {
        u64::from(a.leading_zeros())
    }
}
