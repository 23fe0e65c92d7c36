//! Valid random images: memories, windows, processes.

use super::program;
use super::values::{self, UNSET, UNSET_MASK, USES};
use crate::emulator::assemble::psw;
use crate::emulator::draft::{Draft, Process, Task};
use crate::generate::random::Random;

/// How the windows of an image lie.
#[derive(Clone, Copy)]
enum Mode {
    Shared,
    Disjoint,
    Random,
}

/// Addresses of each memory in a unit of its windows.
const REGISTER_UNIT: u64 = 2;
const PROGRAM_UNIT: u64 = 16;
const DATA_UNIT: u64 = 32;

/// How many processes in a hundred start in an SFU queue.
pub const WAITING: [u64; 6] = [0, 0, 20, 60, 100, 100];

/// How large an image is.
#[derive(Clone, Copy, PartialEq, Eq)]
pub enum Size {
    Any,
    /// Small enough to be computed by the prover.
    Small,
}

/// A valid image.
pub fn draft(size: Size, random: &mut Random) -> Draft {
    let mut draft = Draft::default();
    fill_memories(&mut draft, size, random);
    let mode = random.pick(&[Mode::Shared, Mode::Disjoint, Mode::Disjoint, Mode::Random]);
    let numbers = task_numbers(random);
    let count = numbers.len() as u64;
    for (n, number) in numbers.into_iter().enumerate() {
        let task = windows(&draft, number, mode, n as u64, count, random);
        draft.tasks.push(task);
    }
    add_processes(&mut draft, random);
    program::fill(&mut draft, size, random);
    draft
}

/// How many constants, registers, instructions and data words.
fn counts(size: Size, random: &mut Random) -> [u64; 4] {
    if size == Size::Small {
        let program = random.pick(&[1, 1, 2, 3]) * PROGRAM_UNIT;
        let data = random.pick(&[0, 1, 1, 2, 2, 2]) * DATA_UNIT;
        return [random.below(12), random.between(4, 16), program, data];
    }
    let large = random.chance(3);
    let constants = match random.below(20) {
        0 => 0,
        1 if large => 4_096,
        _ => random.between(4, 40),
    };
    let registers = if large { random.between(1_000, 2_048) } else { random.between(0, 90) };
    let program = random.between(1, 10) * PROGRAM_UNIT + random.below(PROGRAM_UNIT);
    let units = if random.chance(5) { 0 } else { random.between(1, 9) };
    [constants, registers, program, units * DATA_UNIT + random.below(DATA_UNIT)]
}

fn fill_memories(draft: &mut Draft, size: Size, random: &mut Random) {
    let [constants, registers, program, data] = counts(size, random);
    let purpose = |i: u64| USES[i as usize % 4];
    let marked = random.pick(if size == Size::Small { &[0, 0, 30, 60] } else { &[0, 0, 5, 30] });
    let constant =
        |i, random: &mut Random| (quality(random, marked), values::word(purpose(i), random));
    draft.constants = (0..constants).map(|i| constant(i, random)).collect();
    let empties = random.pick(&[0, 10, 30]);
    let held = |i: u64, random: &mut Random| match i % 2 {
        0 => values::any(random),
        _ => values::held(random),
    };
    draft.registers = (0..registers).map(|i| (tag(random, empties), held(i, random))).collect();
    draft.program = (0..program).map(|_| values::any(random)).collect();
    let full = |random: &mut Random| u8::from(!random.chance(empties));
    draft.data = (0..data).map(|_| (full(random), values::data(random))).collect();
}

/// The quality of a constant, of which so many in a hundred don't have 0.
fn quality(random: &mut Random, marked: u64) -> u8 {
    if random.chance(marked) {
        random.pick(&[1, 2, 3, 4, 6, UNSET, UNSET, UNSET, UNSET, UNSET])
    } else {
        0
    }
}

fn tag(random: &mut Random, empties: u64) -> u8 {
    let quality = if random.chance(15) { random.below(7) as u8 } else { 0 };
    quality | u8::from(random.chance(empties)) << 3
}

/// Ascending task numbers.
fn task_numbers(random: &mut Random) -> Vec<u8> {
    let most = random.pick(&[1, 1, 2, 3, 7]);
    let mut numbers: Vec<u8> = (1..=7).collect();
    let count = if random.rarely(10) { 0 } else { random.between(1, most) };
    while numbers.len() as u64 > count {
        numbers.remove(random.below(numbers.len() as u64) as usize);
    }
    numbers
}

fn windows(draft: &Draft, number: u8, mode: Mode, n: u64, of: u64, random: &mut Random) -> Task {
    let mut window = |size: usize, unit: u64, most: u64| {
        let units = size as u64 / unit;
        window(mode, n, of, units, most, random)
    };
    let (rb, rl) = window(draft.registers.len(), REGISTER_UNIT, 0x3FF);
    let (pb, pl) = window(draft.program.len(), PROGRAM_UNIT, 0xFFFF);
    let (db, dl) = window(draft.data.len(), DATA_UNIT, 0xFF_FFFF);
    let mut task = Task {
        cb: if random.chance(70) { 0 } else { constant_base(random) },
        rb: rb as u16,
        rl: rl as u16,
        pb: pb as u16,
        pl: pl as u16,
        db: db as u32,
        dl: dl as u32,
        ..Task::empty(number)
    };
    if random.chance(3) {
        task.kind = random.pick(&[0x00, 0x12, 0x14, 0x16, 0x1A, 0x1C, 0x1E]);
        task.trapped = values::status(random, 1 << 20);
    }
    task
}

fn constant_base(random: &mut Random) -> u16 {
    match random.below(4) {
        0 => random.below(0x1000) as u16,
        1 => 0x1000 - random.between(1, 4) as u16,
        _ => random.below(10) as u16,
    }
}

/// Base and limit of the nth task's window over `units` units.
fn window(mode: Mode, n: u64, of: u64, units: u64, most: u64, random: &mut Random) -> (u64, u64) {
    if units == 0 || random.rarely(8) {
        return empty_window(most, random);
    }
    let chunk = units / of;
    match mode {
        Mode::Shared => (0, units - 1),
        Mode::Disjoint if chunk > 0 => (n * chunk, (n + 1) * chunk - 1),
        _ => {
            let base = random.below(units);
            (base, random.between(base, units - 1))
        }
    }
}

fn empty_window(most: u64, random: &mut Random) -> (u64, u64) {
    let limit = if random.chance(50) { 0 } else { random.below(most) };
    (random.between(limit + 1, most), limit)
}

fn add_processes(draft: &mut Draft, random: &mut Random) {
    if draft.tasks.is_empty() {
        draft.flag = u8::from(random.chance(10));
        return;
    }
    let tasks = draft.tasks.len() as u64;
    let count = match random.below(12) {
        0 => random.pick(&[58, 60, 61, 62, 62, 63, 63, 63, 63, 64]),
        1 => random.between(0, 64),
        2 => tasks,
        _ => random.between(tasks, 3 * tasks),
    };
    let waiting = random.pick(&WAITING);
    let owned = |i| (owner(draft, i, random), random.chance(waiting));
    let mut owners: Vec<(Task, bool)> = (0..count).map(owned).collect();
    owners.sort_by_key(|(task, sfu)| (task.number, *sfu));
    let numbers = process_numbers(random);
    let marked = draft.constants.iter().any(|constant| constant.0 == UNSET);
    for ((task, sfu), pt) in owners.into_iter().zip(numbers) {
        let program = (u64::from(task.pl) + 1).saturating_sub(u64::from(task.pb)) * PROGRAM_UNIT;
        // A mask for the constants that aren't set.
        let utm = if marked && random.chance(30) { UNSET_MASK } else { 0 };
        let psw = if random.chance(60) {
            psw(0, 0, utm, random.below(program.max(1)))
        } else {
            values::status(random, program) | psw(0, 0, utm, 0)
        };
        draft.processes.push(Process { pt, task: task.number, sfu, psw });
    }
    draft.flag = u8::from(count == 64 || random.chance(4));
}

/// The task of the ith process: each in turn once, then any.
fn owner(draft: &Draft, i: u64, random: &mut Random) -> Task {
    match draft.tasks.get(i as usize) {
        Some(&task) => task,
        None => random.pick(&draft.tasks),
    }
}

/// The process numbers in some order, half of the time the natural one.
pub fn process_numbers(random: &mut Random) -> Vec<u8> {
    let mut numbers: Vec<u8> = (0..64).collect();
    if random.chance(50) {
        for i in (1..numbers.len()).rev() {
            numbers.swap(i, random.below(i as u64 + 1) as usize);
        }
    }
    numbers
}
