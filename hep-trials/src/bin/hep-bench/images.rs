//! Reading and writing of the largest image beside a memcpy of its bytes.
//!
//! `benchmark` (the proved reading and writing of images without rows and processes) tells them apart, which `hep_run` does not.

use crate::clock::best;
use hep_tools::emulator::draft::Draft;
use hep_tools::emulator::image::{MOST_CONSTANTS, MOST_WORDS};
use hep_trials::buffers::{asked, Buffers};
use std::hint::black_box;

const ROUNDS: usize = 200;
const REGISTERS: usize = 2_048;

// A slice is lent as its address and its length.
#[rustfmt::skip]
#[link(name = "benchmark", kind = "static")]
extern "C" {
    fn benchmark_read(
        constant_tags: *mut u8, constant_tags_len: usize,
        constant_words: *mut u64, constant_words_len: usize,
        register_tags: *mut u8, register_tags_len: usize,
        register_words: *mut u64, register_words_len: usize,
        program: *mut u64, program_len: usize,
        data_tags: *mut u8, data_tags_len: usize,
        data_words: *mut u64, data_words_len: usize,
        image: *const u8, image_len: usize,
    ) -> bool;
    fn benchmark_write(
        constant_tags: *const u8, constant_tags_len: usize,
        constant_words: *const u64, constant_words_len: usize,
        register_tags: *const u8, register_tags_len: usize,
        register_words: *const u64, register_words_len: usize,
        program: *const u64, program_len: usize,
        data_tags: *const u8, data_tags_len: usize,
        data_words: *const u64, data_words_len: usize,
        output: *mut u8, output_len: usize,
    ) -> usize;
}

#[rustfmt::skip]
fn read(image: &[u8], to: &mut Buffers) {
    // SAFETY: the borrows of the buffers.
    let accepted = unsafe {
        benchmark_read(
            to.constant_tags.as_mut_ptr(), MOST_CONSTANTS,
            to.constant_words.as_mut_ptr(), MOST_CONSTANTS,
            to.register_tags.as_mut_ptr(), REGISTERS,
            to.register_words.as_mut_ptr(), REGISTERS,
            to.program.as_mut_ptr(), MOST_WORDS,
            to.data_tags.as_mut_ptr(), MOST_WORDS,
            to.data_words.as_mut_ptr(), MOST_WORDS,
            image.as_ptr(), image.len(),
        )
    };
    assert!(accepted, "the largest image is refused");
}

#[rustfmt::skip]
fn write(from: &mut Buffers, length: usize) {
    // SAFETY: the borrows of the buffers.
    let written = unsafe {
        benchmark_write(
            from.constant_tags.as_ptr(), MOST_CONSTANTS,
            from.constant_words.as_ptr(), MOST_CONSTANTS,
            from.register_tags.as_ptr(), REGISTERS,
            from.register_words.as_ptr(), REGISTERS,
            from.program.as_ptr(), MOST_WORDS,
            from.data_tags.as_ptr(), MOST_WORDS,
            from.data_words.as_ptr(), MOST_WORDS,
            from.output.as_mut_ptr(), from.output.len(),
        )
    };
    assert_eq!(written, length);
}

fn largest() -> Vec<u8> {
    let word = |i: usize| (i as u64).wrapping_mul(0x9E37_79B9_7F4A_7C15);
    Draft {
        constants: (0..MOST_CONSTANTS).map(|i| ((i % 7) as u8, word(i))).collect(),
        registers: (0..REGISTERS).map(|i| ((i % 7) as u8, word(i))).collect(),
        program: (0..MOST_WORDS).map(word).collect(),
        data: (0..MOST_WORDS).map(|i| ((i % 2) as u8, word(i))).collect(),
        ..Draft::default()
    }
    .bytes()
}

/// The table of speeds.
pub fn speeds() {
    let image = largest();
    let lengths = asked(&image).expect("the largest image is accepted");
    let mut memories = Buffers::new(&lengths);
    let mut copied = vec![0; image.len()];
    let [mut copy, mut reading, mut writing, mut whole] = [f64::INFINITY; 4];
    for _ in 0..ROUNDS {
        best(&mut copy, || copied.copy_from_slice(black_box(&image)));
        best(&mut reading, || read(&image, &mut memories));
        best(&mut writing, || write(&mut memories, image.len()));
        best(&mut whole, || assert_eq!(memories.run(&image, &[], &lengths), 0));
    }
    assert!(memories.image() == image, "the largest image doesn't come back");
    println!("| The largest image, {} bytes | ms | GB/s | Times a memcpy | Bar |", image.len());
    println!("|---|---|---|---|---|");
    let rows = [
        ("memcpy", copy, ""),
        ("read", reading, "1.35"),
        ("write", writing, "1.1"),
        ("hep_run without items", whole, ""),
    ];
    for (name, time, bar) in rows {
        let speed = image.len() as f64 / time;
        println!("| {name} | {:.2} | {speed:.1} | {:.2} | {bar} |", time / 1e6, time / copy);
    }
}
