//! Parts of a data word: bytes, quarter words and half words.

/// A part: its width in bits, and its place among the parts of that width, counted from
/// the left, from 0.
#[derive(Clone, Copy, PartialEq, Eq, Debug)]
pub struct Part {
    pub width: u32,
    pub place: u32,
}

impl Part {
    /// The part that B of an instruction and the low three bits of its address name.
    pub fn named(instruction: u64, address: u64) -> Option<Part> {
        let low = (address & 7) as u32;
        if instruction >> 52 & 1 != 0 {
            return Some(Part { width: 8, place: low });
        }
        let (width, place) = match low {
            0 => (64, 0),     // the word
            2 => (32, 0),     // the left half
            6 => (32, 1),     // the right half
            1 => (16, 0),     // the first quarter from the left
            3 => (16, 1),     // the second quarter
            5 => (16, 2),     // the third quarter
            7 => (16, 3),     // the fourth quarter
            _ => return None, // 4: no part
        };
        Some(Part { width, place })
    }

    /// How many bits of the word stand right of the part.
    fn shift(self) -> u32 {
        64 - self.width * (self.place + 1)
    }

    /// Ones in the part's width, right-justified.
    fn ones(self) -> u64 {
        u64::MAX >> (64 - self.width)
    }

    /// The part of a word, right-justified with zeros before it.
    fn extracted(self, word: u64) -> u64 {
        word >> self.shift() & self.ones()
    }

    /// The word with the low bits of a value in the part.
    fn placed(self, word: u64, value: u64) -> u64 {
        let mask = self.ones() << self.shift();
        word & !mask | value << self.shift() & mask
    }
}

/// What a load gives of a data word, if a part of it is named. The whole word is tested first,
/// since most accesses are of it.
#[inline(always)]
pub fn loaded(instruction: u64, address: u64, word: u64) -> Option<u64> {
    if whole(instruction, address) {
        return Some(word);
    }
    part_loaded(instruction, address, word)
}

/// What a store of a value leaves of a data word, if a part of it is named.
#[inline(always)]
pub fn stored(instruction: u64, address: u64, word: u64, value: u64) -> Option<u64> {
    if whole(instruction, address) {
        return Some(value);
    }
    part_stored(instruction, address, word, value)
}

#[inline(always)]
fn whole(instruction: u64, address: u64) -> bool {
    instruction >> 52 & 1 == 0 && address & 7 == 0
}

#[cold]
#[inline(never)]
fn part_loaded(instruction: u64, address: u64, word: u64) -> Option<u64> {
    Some(Part::named(instruction, address)?.extracted(word))
}

#[cold]
#[inline(never)]
fn part_stored(instruction: u64, address: u64, word: u64, value: u64) -> Option<u64> {
    Some(Part::named(instruction, address)?.placed(word, value))
}
