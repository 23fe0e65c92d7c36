//! Workloads for timing: an image and a schedule of 60,000 items each.

use crate::emulator::assemble::*;
use crate::emulator::draft::{Draft, Process, Task};

const ITEMS: usize = 60_000;

/// A named workload.
pub struct Workload {
    pub name: &'static str,
    pub build: fn() -> (Vec<u8>, Vec<u8>),
}

pub const ALL: [Workload; 6] = [
    Workload { name: "arithmetic", build: arithmetic },
    Workload { name: "loadstore", build: loadstore },
    Workload { name: "waved", build: waved },
    Workload { name: "tried", build: tried },
    Workload { name: "create", build: create_and_quit },
    Workload { name: "seven", build: seven },
];

/// Constants of every workload: zero, three numbers, then byte addresses.
const CONSTANTS: [u64; 8] = [0, 3, 0x5DEE_CE66, !0, 0, 8, 64, 120];
const ZERO: u16 = CONSTANT;

/// A schedule that takes the tasks 1 to `tasks` in turn.
fn in_turn(tasks: usize) -> Vec<u8> {
    (0..ITEMS).map(|i| (i % tasks) as u8 + 1).collect()
}

/// The nth task: 16 registers, one program unit and one data unit of its own.
fn task(n: u16) -> Task {
    let base = u32::from(n);
    let (rb, rl) = (n * 8, n * 8 + 7);
    Task { rb, rl, pb: n, pl: n, db: base, dl: base, ..Task::empty(n as u8 + 1) }
}

/// `tasks` tasks without processes; the nth runs the nth program.
fn draft(programs: &[Vec<u64>]) -> Draft {
    let constants = CONSTANTS.map(|word| (0, word)).to_vec();
    let mut draft = Draft { constants, ..Draft::default() };
    for (n, program) in programs.iter().enumerate() {
        draft.tasks.push(task(n as u16));
        draft.registers.extend((0..16).map(|i| (0, 0x1234_5678_9ABC * i + 7)));
        draft.program.extend(program);
        draft.program.resize(16 * (n + 1), 0);
        draft.data.extend((0..32).map(|i| (1, i * 8)));
    }
    draft
}

/// Starts a process of the task at this PC.
fn start(draft: &mut Draft, task: u8, pc: u64) {
    let pt = draft.processes.len() as u8;
    draft.processes.push(Process::new(pt, task, psw(0, 0, 0, pc)));
}

/// Fifteen operations and a branch to the first.
fn looped(operations: impl Fn(u16) -> u64) -> Vec<u64> {
    let mut program: Vec<u64> = (0..15).map(operations).collect();
    program.push(branch(ALWAYS, 0, ZERO, ZERO));
    program
}

fn arithmetic_operation(i: u16) -> u64 {
    let (d, a, b) = (register(i), register((i + 5) % 16), register((i + 9) % 16));
    match i % 6 {
        0 => word(ADD, d, a, b),
        1 => word(MUL, d, a, constant(1)),
        2 => word(EOR, d, a, b),
        3 => word(ADD, d, a, constant(2)),
        4 => word(MUL, d, a, b),
        _ => word(EOR, d, constant(3), b),
    }
}

fn data_operation(i: u16) -> u64 {
    let (r, address, index) = (register(i), constant(4 + i % 4), constant(4 + i / 4));
    match i % 4 {
        0 => word(LODI, r, address, 0),
        1 => word(LODX, r, address, index),
        2 => word(STOI, 0, address, r),
        _ => word(STOX, r, address, index),
    }
}

/// Straight ADD, MUL and EOR on registers and constants, looping by B.
pub fn arithmetic() -> (Vec<u8>, Vec<u8>) {
    let mut draft = draft(&[looped(arithmetic_operation)]);
    start(&mut draft, 1, 0);
    (draft.bytes(), in_turn(1))
}

/// LODI, LODX, STOI and STOX, looping by B.
pub fn loadstore() -> (Vec<u8>, Vec<u8>) {
    let mut draft = draft(&[looped(data_operation)]);
    start(&mut draft, 1, 0);
    (draft.bytes(), in_turn(1))
}

/// Straight arithmetic in an image with so many data words, which no window shows.
pub fn arithmetic_beside(data_words: usize) -> (Vec<u8>, Vec<u8>) {
    let mut draft = draft(&[looped(arithmetic_operation)]);
    (draft.tasks[0].db, draft.tasks[0].dl) = (1, 0);
    draft.data = vec![(1, 0); data_words];
    start(&mut draft, 1, 0);
    (draft.bytes(), in_turn(1))
}

/// Loads and stores all over so many data words, at least 32.
pub fn loadstore_over(data_words: usize) -> (Vec<u8>, Vec<u8>) {
    let mut draft = draft(&[looped(data_operation)]);
    draft.tasks[0].dl = (data_words / 32 - 1) as u32;
    // An eighth of the memory apart: the sum of two is inside it.
    (4..8).for_each(|i| draft.constants[i].1 = (i as u64 - 4) * data_words as u64);
    draft.data = vec![(1, 0); data_words];
    start(&mut draft, 1, 0);
    (draft.bytes(), in_turn(1))
}

/// A process that waits on an empty register, in its task's own queue.
pub fn waved() -> (Vec<u8>, Vec<u8>) {
    let mut draft = draft(&[vec![word(MOV, register(0), accessed(1, 1), 0)]]);
    draft.registers[1].0 = 8;
    start(&mut draft, 1, 0);
    (draft.bytes(), in_turn(1))
}

/// A process that waits on an empty data word, in its task's SFU queue: every item is a try.
pub fn tried() -> (Vec<u8>, Vec<u8>) {
    let mut draft = draft(&[vec![word(LODI | SAC_FULL, register(0), constant(5), 0)]]);
    draft.data[1].0 = 0;
    start(&mut draft, 1, 0);
    draft.processes[0].sfu = true;
    (draft.bytes(), in_turn(1))
}

/// A process creates its successor at the same place and quits.
pub fn create_and_quit() -> (Vec<u8>, Vec<u8>) {
    let program = vec![create(ALWAYS, 1, ZERO, ZERO), quit(ALWAYS, ZERO)];
    let mut draft = draft(&[program]);
    start(&mut draft, 1, 0);
    (draft.bytes(), in_turn(1))
}

/// Seven tasks of one or two processes each, in turn.
pub fn seven() -> (Vec<u8>, Vec<u8>) {
    let mixed = |i| if i % 3 == 2 { data_operation(i) } else { arithmetic_operation(i) };
    let mut draft = draft(&vec![looped(mixed); 7]);
    for task in 1..=7 {
        start(&mut draft, task, 0);
        if task % 2 == 0 {
            start(&mut draft, task, 5);
        }
    }
    (draft.bytes(), in_turn(7))
}
