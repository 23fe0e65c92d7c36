//! The functions of include/hep.h on slices. A slice is lent as its address and its length; its borrow keeps the header's two rules.

#![allow(clippy::too_many_arguments)]

/// The answers: 0, or the number of a refusal.
pub const ACCEPTED: u32 = 0;
pub const INPUT_ENDS: u32 = 1;
pub const COUNT_OVER_LIMIT: u32 = 2;
pub const TASK_FIELD: u32 = 3;
pub const PROCESS_FIELD: u32 = 12;
pub const CONSTANT_FIELD: u32 = 14;
pub const CELL_FIELD: u32 = 13;
pub const BYTES_LEFT_OVER: u32 = 4;
pub const WINDOW_PAST_MEMORY: u32 = 5;
pub const PROCESSES_CLASH: u32 = 6;
pub const SHORT_BUFFER: u32 = 7;
pub const LIST_TOO_LONG: u32 = 9;
pub const ITEM_OUT_OF_RANGE: u32 = 10;
pub const BAD_JOBS: u32 = 17;
pub const NO_TRIES: u32 = 18;

/// How many numbers `hep_sizes` writes.
pub const SIZES: usize = 5;
/// How many numbers `hep_run` writes.
pub const COUNTS: usize = 42;
/// How many numbers `hep_fill` writes.
pub const FILLING: usize = 4;
/// Bytes with room for any report, and for any output of `hep_batch`.
pub const REPORT_ROOM: usize = 2048;

/// Bytes with room for the image after a run of an image of this length.
pub const fn output_room(image_len: usize) -> usize {
    image_len + 640
}

/// The place of a task's own counts, task 1 to 7, among the numbers that `hep_run` writes: five, in the order of the run's.
pub const fn own_place(task: usize) -> usize {
    7 + 5 * (task - 1)
}

mod c {
    #[rustfmt::skip]
    extern "C" {
        pub fn hep_check(image: *const u8, image_len: usize) -> u32;
        pub fn hep_sizes(image: *const u8, image_len: usize, sizes: *mut u64, sizes_len: usize) -> u32;
        pub fn hep_run(
            image: *const u8, image_len: usize,
            schedule: *const u8, schedule_len: usize,
            constant_tags: *mut u8, constant_tags_len: usize,
            constant_words: *mut u64, constant_words_len: usize,
            register_tags: *mut u8, register_tags_len: usize,
            register_words: *mut u64, register_words_len: usize,
            program: *mut u64, program_len: usize,
            data_tags: *mut u8, data_tags_len: usize,
            data_words: *mut u64, data_words_len: usize,
            output: *mut u8, output_len: usize,
            counts: *mut u64, counts_len: usize,
            report: *mut u8, report_len: usize,
        ) -> u32;
        pub fn hep_batch(input: *const u8, input_len: usize, output: *mut u8, output_len: usize) -> usize;
        pub fn hep_fill(needs: *const u64, needs_len: usize, tries: u64, filling: *mut u64, filling_len: usize) -> u32;
    }
}

/// `hep_check`.
pub fn check(image: &[u8]) -> u32 {
    // SAFETY: the borrow of the slice.
    unsafe { c::hep_check(image.as_ptr(), image.len()) }
}

/// `hep_sizes`.
pub fn sizes(image: &[u8], sizes: &mut [u64]) -> u32 {
    // SAFETY: the borrows of the slices.
    unsafe { c::hep_sizes(image.as_ptr(), image.len(), sizes.as_mut_ptr(), sizes.len()) }
}

/// `hep_run`.
#[rustfmt::skip]
pub fn run(
    image: &[u8], schedule: &[u8],
    constant_tags: &mut [u8], constant_words: &mut [u64],
    register_tags: &mut [u8], register_words: &mut [u64],
    program: &mut [u64], data_tags: &mut [u8], data_words: &mut [u64],
    output: &mut [u8], counts: &mut [u64], report: &mut [u8],
) -> u32 {
    // SAFETY: the borrows of the slices.
    unsafe {
        c::hep_run(
            image.as_ptr(), image.len(),
            schedule.as_ptr(), schedule.len(),
            constant_tags.as_mut_ptr(), constant_tags.len(),
            constant_words.as_mut_ptr(), constant_words.len(),
            register_tags.as_mut_ptr(), register_tags.len(),
            register_words.as_mut_ptr(), register_words.len(),
            program.as_mut_ptr(), program.len(),
            data_tags.as_mut_ptr(), data_tags.len(),
            data_words.as_mut_ptr(), data_words.len(),
            output.as_mut_ptr(), output.len(),
            counts.as_mut_ptr(), counts.len(),
            report.as_mut_ptr(), report.len(),
        )
    }
}

/// `hep_batch`.
pub fn batch(input: &[u8], output: &mut [u8]) -> usize {
    // SAFETY: the borrows of the slices.
    unsafe { c::hep_batch(input.as_ptr(), input.len(), output.as_mut_ptr(), output.len()) }
}

/// `hep_fill`.
pub fn fill(needs: &[u64], tries: u64, filling: &mut [u64]) -> u32 {
    // SAFETY: the borrows of the slices.
    unsafe { c::hep_fill(needs.as_ptr(), needs.len(), tries, filling.as_mut_ptr(), filling.len()) }
}
