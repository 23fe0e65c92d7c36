//! What a run is lent.

use hep::sys::{self, COUNTS, REPORT_ROOM, SIZES};
use hep_tools::emulator::machine::{Counts, RunCounts};

/// What every element holds before a call, and how many are there beyond the lent ones.
const BYTE: u8 = 0xA5;
const WORD: u64 = 0xA5A5_A5A5_A5A5_A5A5;
pub const SPARE: usize = 2;

const BUFFERS: usize = 10;

/// A length for each buffer, or a place in it, in the order of `hep_run`'s parameters.
pub type Lengths = [usize; BUFFERS];

/// No room in any buffer, and the start of each.
pub const NONE: Lengths = [0; BUFFERS];

/// The buffers of a run, in the order of its parameters.
pub struct Buffers {
    pub constant_tags: Vec<u8>,
    pub constant_words: Vec<u64>,
    pub register_tags: Vec<u8>,
    pub register_words: Vec<u64>,
    pub program: Vec<u64>,
    pub data_tags: Vec<u8>,
    pub data_words: Vec<u64>,
    pub output: Vec<u8>,
    pub counts: Vec<u64>,
    pub report: Vec<u8>,
}

/// The lengths that a run of this image asks for, or the number of its refusal.
pub fn asked(image: &[u8]) -> Result<Lengths, u32> {
    let mut sizes = [0; SIZES];
    match sys::sizes(image, &mut sizes) {
        sys::ACCEPTED => {
            let [_, c, r, p, d] = sizes.map(|n| n as usize);
            let output = sys::output_room(image.len());
            Ok([c, c, r, r, p, d, d, output, COUNTS, REPORT_ROOM])
        }
        number => Err(number),
    }
}

/// Marked bytes.
pub fn bytes(length: usize) -> Vec<u8> {
    vec![BYTE; length]
}

/// Marked words.
pub fn words(length: usize) -> Vec<u64> {
    vec![WORD; length]
}

/// Whether all of these are as they were before the call.
pub fn bytes_stay(bytes: &[u8]) -> bool {
    bytes.iter().all(|&byte| byte == BYTE)
}

/// Whether all of these are as they were before the call.
pub fn words_stay(words: &[u64]) -> bool {
    words.iter().all(|&word| word == WORD)
}

impl Buffers {
    /// Marked buffers, each a little longer than that.
    pub fn new(lengths: &Lengths) -> Self {
        let [ct, cw, rt, rw, p, dt, dw, o, n, r] = lengths.map(|length| length + SPARE);
        Buffers {
            constant_tags: bytes(ct),
            constant_words: words(cw),
            register_tags: bytes(rt),
            register_words: words(rw),
            program: words(p),
            data_tags: bytes(dt),
            data_words: words(dw),
            output: bytes(o),
            counts: words(n),
            report: bytes(r),
        }
    }

    /// `hep_run` with as much of each buffer as that.
    pub fn run(&mut self, image: &[u8], schedule: &[u8], lengths: &Lengths) -> u32 {
        let [ct, cw, rt, rw, p, dt, dw, o, n, r] = *lengths;
        sys::run(
            image,
            schedule,
            &mut self.constant_tags[..ct],
            &mut self.constant_words[..cw],
            &mut self.register_tags[..rt],
            &mut self.register_words[..rw],
            &mut self.program[..p],
            &mut self.data_tags[..dt],
            &mut self.data_words[..dw],
            &mut self.output[..o],
            &mut self.counts[..n],
            &mut self.report[..r],
        )
    }

    /// Whether every buffer is from there on as it was before the call.
    pub fn stays_from(&self, places: &Lengths) -> bool {
        let [ct, cw, rt, rw, p, dt, dw, o, n, r] = *places;
        bytes_stay(&self.constant_tags[ct..])
            && words_stay(&self.constant_words[cw..])
            && bytes_stay(&self.register_tags[rt..])
            && words_stay(&self.register_words[rw..])
            && words_stay(&self.program[p..])
            && bytes_stay(&self.data_tags[dt..])
            && words_stay(&self.data_words[dw..])
            && bytes_stay(&self.output[o..])
            && words_stay(&self.counts[n..])
            && bytes_stay(&self.report[r..])
    }

    /// What the run counted, in all and for each task number.
    pub fn counted(&self) -> RunCounts {
        let own = |task| match task {
            0 => Counts::default(),
            _ => self.counts_from(sys::own_place(task)),
        };
        RunCounts { counts: self.counts_from(0), own: std::array::from_fn(own) }
    }

    /// The five counts that start at this place.
    fn counts_from(&self, place: usize) -> Counts {
        let [executed, waved, trapped, idle, tries] =
            std::array::from_fn(|i| self.counts[place + i]);
        Counts { executed, waved, trapped, idle, tries }
    }

    /// How long image and report are.
    pub fn lengths(&self) -> [usize; 2] {
        [self.counts[5] as usize, self.counts[6] as usize]
    }

    /// The image after the run.
    pub fn image(&self) -> &[u8] {
        &self.output[..self.lengths()[0]]
    }

    /// The report of the batch program.
    pub fn report(&self) -> &[u8] {
        &self.report[..self.lengths()[1]]
    }
}
