//! What the calls refuse and what they leave alone: refusals 7, 9 and 10 at both sides of their boundaries, which batch inputs cannot show, and
//! 2 at the largest memories. No call takes a state from outside, so 8 cannot come.

use crate::buffers::{self, asked, Buffers, Lengths, NONE, SPARE};
use hep::sys::{self, COUNT_OVER_LIMIT, ITEM_OUT_OF_RANGE, LIST_TOO_LONG, SHORT_BUFFER, SIZES};
use hep_tools::emulator::draft::{Draft, Task};
use hep_tools::emulator::image::{MOST_CONSTANTS, MOST_WORDS};
use hep_tools::emulator::machine::REGISTERS;
use hep_tools::generate;

const MOST_ITEMS: usize = 65_535;

/// Generated images whose calls are tried.
const IMAGES: u64 = 200;

/// How many calls were tried, or what differed.
pub type Tried = Result<u64, String>;

/// Every trial of the calls.
pub fn all() -> Tried {
    let mut tried = 0;
    for n in 0..IMAGES {
        let image = generate::image(1, n);
        for calls in [sizes, short_buffers, long_buffers] {
            tried += calls(&image).map_err(|reason| format!("image {n} of seed 1: {reason}"))?;
        }
    }
    Ok(tried + schedules(&hep::example_image())? + batches()? + largest()?)
}

fn require(holds: bool, reason: impl Fn() -> String) -> Result<(), String> {
    holds.then_some(()).ok_or_else(reason)
}

/// `hep_sizes` with room, and with a number's room less.
fn sizes(image: &[u8]) -> Tried {
    for (length, number) in [(SIZES - 1, SHORT_BUFFER), (SIZES, 0)] {
        let mut sizes = buffers::words(SIZES + 1);
        let found = sys::sizes(image, &mut sizes[..length]);
        let written = if number == 0 { SIZES } else { 0 };
        let right = found == number && buffers::words_stay(&sizes[written..]);
        require(right, || format!("hep_sizes with {length} numbers answers {found}"))?;
    }
    Ok(2)
}

/// `hep_run` with each buffer as long as asked, and one shorter; 7 comes before 9 and 10.
fn short_buffers(image: &[u8]) -> Tried {
    let lengths = asked(image).map_err(|number| format!("refused by {number}"))?;
    run(image, &[1; 3], &lengths, 0)?;
    run(image, &[8; MOST_ITEMS + 1], &NONE, SHORT_BUFFER)?;
    let mut tried = 2;
    for buffer in (0..lengths.len()).filter(|&buffer| lengths[buffer] > 0) {
        let mut short = lengths;
        short[buffer] -= 1;
        run(image, &[8], &short, SHORT_BUFFER)?;
        tried += 1;
    }
    Ok(tried)
}

/// `hep_run` with each buffer longer than asked: what lies beyond stays.
fn long_buffers(image: &[u8]) -> Tried {
    let lengths = asked(image).map_err(|number| format!("refused by {number}"))?;
    let mut left = Buffers::new(&lengths);
    let found = left.run(image, &[1, 7, 1], &lengths.map(|length| length + SPARE));
    let right = found == 0 && left.stays_from(&lengths);
    require(right, || format!("hep_run with long buffers answers {found} or wrote beyond"))?;
    Ok(1)
}

/// A run that must answer this number, and write nothing if it is refused.
fn run(image: &[u8], schedule: &[u8], lengths: &Lengths, number: u32) -> Result<(), String> {
    let mut left = Buffers::new(lengths);
    let found = left.run(image, schedule, lengths);
    require(found == number, || format!("hep_run with {lengths:?} answers {found}, not {number}"))?;
    require(number == 0 || left.stays_from(&NONE), || format!("hep_run, {number}: it wrote"))
}

/// The longest schedule and one item more, the numbers of tasks and those beside them; 9 comes before 10.
fn schedules(image: &[u8]) -> Tried {
    let lengths = asked(image).map_err(|number| format!("refused by {number}"))?;
    let long = |item: u8, length: usize| vec![item; length];
    let late = [long(7, MOST_ITEMS - 1), vec![8]].concat();
    let cases = [
        (long(7, MOST_ITEMS), 0),
        (long(7, MOST_ITEMS + 1), LIST_TOO_LONG),
        (long(8, MOST_ITEMS + 1), LIST_TOO_LONG),
        (late, ITEM_OUT_OF_RANGE),
        (vec![], 0),
    ];
    for (schedule, number) in &cases {
        run(image, schedule, &lengths, *number)?;
    }
    for item in 0..=255 {
        let number = if (1..=7).contains(&item) { 0 } else { ITEM_OUT_OF_RANGE };
        run(image, &[1, item], &lengths, number)?;
    }
    Ok(cases.len() as u64 + 256)
}

/// `hep_batch` with exactly its answer's room, and a byte less.
fn batches() -> Tried {
    for n in 0..IMAGES {
        let input = generate::input(1, n);
        let answer = hep::batch(&input);
        let mut output = buffers::bytes(answer.len());
        let short = sys::batch(&input, &mut output[1..]);
        let stays = short == 0 && buffers::bytes_stay(&output);
        require(stays, || format!("input {n} of seed 1: hep_batch without room answers {short}"))?;
        let found = sys::batch(&input, &mut output);
        let same = found == answer.len() && output == answer.as_bytes();
        require(same, || format!("input {n} of seed 1: hep_batch with room answers {found}"))?;
    }
    Ok(2 * IMAGES)
}

/// Images that are longer than a batch input: each memory as large as it may be, and all of them at once, comes back; one cell more in a
/// memory is refused.
fn largest() -> Tried {
    let most = [MOST_CONSTANTS, REGISTERS, MOST_WORDS, MOST_WORDS];
    let some = [MOST_CONSTANTS, REGISTERS, 9, 1_125];
    for sizes in [most, some, [1, 2, 8_181, 2]] {
        let image = memories(sizes);
        let same = hep::run(&image, &[]).is_ok_and(|outcome| outcome.image == image);
        require(same, || format!("the image of {sizes:?} cells doesn't come back"))?;
    }
    for memory in 0..most.len() {
        let mut sizes = most;
        sizes[memory] += 1;
        let found = sys::check(&memories(sizes));
        let refused = found == COUNT_OVER_LIMIT;
        require(refused, || format!("{sizes:?} cells: hep_check answers {found}"))?;
    }
    Ok(3 + most.len() as u64)
}

/// An image of a row with empty windows, and so many constants, registers, program words and data words.
fn memories([constants, registers, program, data]: [usize; 4]) -> Vec<u8> {
    let word = |i: usize| (i as u64).wrapping_mul(0x9E37_79B9_7F4A_7C15);
    Draft {
        tasks: vec![Task::empty(1)],
        constants: (0..constants).map(|i| ((i % 7) as u8, word(i))).collect(),
        registers: (0..registers).map(|i| ((i % 7) as u8, word(i))).collect(),
        program: (0..program).map(word).collect(),
        data: (0..data).map(|i| (i as u8 & 1, word(i))).collect(),
        ..Draft::default()
    }
    .bytes()
}
