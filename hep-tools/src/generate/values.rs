//! Words that make operations and addresses interesting.

use crate::emulator::assemble::psw;
use crate::generate::random::Random;

/// What a word is meant for. Constants take turns by their place modulo 4.
#[derive(Clone, Copy, PartialEq, Eq)]
pub enum Use {
    Zero,
    Address,
    Status,
    Number,
}

pub const USES: [Use; 4] = [Use::Zero, Use::Address, Use::Status, Use::Number];

/// The quality that solvers give to constants that aren't set, and its bit of UTM.
pub const UNSET: u8 = 5;
pub const UNSET_MASK: u64 = 0x80 >> UNSET;

/// A word for this use.
pub fn word(purpose: Use, random: &mut Random) -> u64 {
    match purpose {
        Use::Zero => 0,
        Use::Address => address(random),
        Use::Status => status(random, 16),
        Use::Number => number(random),
    }
}

/// A word for any use.
pub fn any(random: &mut Random) -> u64 {
    let purpose = random.pick(&USES);
    word(purpose, random)
}

/// A word of data: half of the time with something in each of its parts.
pub fn data(random: &mut Random) -> u64 {
    if random.chance(50) {
        random.draw()
    } else {
        any(random)
    }
}

/// A word that serves as a byte address and as a status word: PC 0 or 8, mostly.
pub fn held(random: &mut Random) -> u64 {
    if random.chance(5) {
        return address(random);
    }
    let (ci, ri) = (field(random, 8, 0x1FFF), field(random, 4, 0x7FF));
    psw(ci, ri, 0, 8 * random.below(2) + low(random))
}

/// A status word with PC below `program`, now and then a wilder one.
pub fn status(random: &mut Random, program: u64) -> u64 {
    let ci = field(random, 8, 0x1FFF);
    let ri = field(random, 4, 0x7FF);
    let utm = match random.below(50) {
        0 => random.draw(),
        1..=9 => random.draw() & 0x7F & random.draw(),
        10..=12 => UNSET_MASK,
        _ => 0,
    };
    let stray = random.rarely(8);
    let pc = if stray { random.draw() } else { random.below(program.max(1)) };
    psw(ci, ri, utm, pc)
}

/// An index: mostly zero, sometimes small, seldom anything.
fn field(random: &mut Random, small: u64, most: u64) -> u64 {
    match random.below(100) {
        0 => most - random.below(most) * random.below(2),
        1..=25 => random.below(small),
        _ => 0,
    }
}

/// A byte address: mostly near the start.
fn address(random: &mut Random) -> u64 {
    match random.below(200) {
        0 => random.draw(),
        1 => random.below(512),
        2 => random.pick(&[1 << 31, (1 << 31) - 8, (1 << 32) - 8, (1 << 32) - 3, 0xF8, 0x100]),
        3..=20 => (random.draw() << 32) | near(random),
        _ => near(random),
    }
}

/// A byte address in the first words, half of the time in so few that two add up to another.
fn near(random: &mut Random) -> u64 {
    let words = random.pick(&[4, 32]);
    8 * random.below(words) + low(random)
}

/// The low three bits of a byte address: mostly of a whole word, else of a part; seldom those
/// that name no part with B = 0.
fn low(random: &mut Random) -> u64 {
    match random.below(100) {
        0..=2 => 4,
        3..=42 => random.pick(&[1, 2, 3, 5, 6, 7]),
        _ => 0,
    }
}

fn number(random: &mut Random) -> u64 {
    match random.below(8) {
        0 => random.draw(),
        1 => random.pick(&[1 << 63, (1 << 63) - 1, (1 << 63) + 1, u64::MAX, 1 << 62]),
        2 => random.pick(&[1 << 31, 1 << 32, (1 << 32) - 1, 3_037_000_500, u64::MAX << 31]),
        3 => 1 << random.below(64),
        4 => u64::MAX << random.below(64),
        5 => random.below(20).wrapping_neg(),
        _ => random.below(70),
    }
}
