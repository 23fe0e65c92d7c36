//! Damage: spoilt fields of a draft, damaged bytes, and wild inputs.

use super::layout::Size;
use crate::emulator::draft::{batch_input, Draft, Process};
use crate::generate::random::Random;

/// Spoils one field of a valid draft, where it has such a field.
pub fn field(draft: &mut Draft, size: Size, random: &mut Random) {
    match random.below(4) {
        0 => task(draft, random),
        1 => process(draft, random),
        2 => window(draft, random),
        _ => memory(draft, size, random),
    }
}

fn task(draft: &mut Draft, random: &mut Random) {
    if draft.tasks.is_empty() {
        return;
    }
    let place = random.below(draft.tasks.len() as u64) as usize;
    let task = &mut draft.tasks[place];
    match random.below(8) {
        0 => task.number = random.pick(&[0, 1, 7, 8, 255]),
        1 => task.cb |= 0x1000 << random.below(4),
        2 => task.rb |= 0x400 << random.below(6),
        3 => task.rl |= 0x400 << random.below(6),
        4 => task.db |= 0x100_0000 << random.below(8),
        5 => task.dl |= 0x100_0000 << random.below(8),
        6 => task.kind = random.draw() as u8,
        _ => task.trapped ^= 1 << random.below(64),
    }
}

fn process(draft: &mut Draft, random: &mut Random) {
    if draft.processes.is_empty() {
        return;
    }
    let count = draft.processes.len() as u64;
    let place = random.below(count) as usize;
    let other = draft.processes[random.below(count) as usize];
    let process = &mut draft.processes[place];
    match random.below(9) {
        0 => process.pt = other.pt,
        1 => process.pt |= 0x40 << random.below(2),
        2 => process.task = random.below(9) as u8,
        3 => process.psw ^= 1 << random.below(64),
        4 => draft.flag = random.draw() as u8,
        5 => crowd(draft, random.pick(&[64, 65])),
        6 => process.task |= 8 << random.below(5),
        7 => process.sfu = !process.sfu,
        _ => draft.processes.reverse(),
    }
}

/// As many processes as that, all of the last one's task and half in its SFU queue, with the flag down.
fn crowd(draft: &mut Draft, count: u8) {
    let task = draft.processes[draft.processes.len() - 1].task;
    let process = |pt| Process { sfu: pt >= count / 2, ..Process::new(pt, task, 0) };
    draft.processes = (0..count).map(process).collect();
    draft.flag = 0;
}

/// Moves a limit, mostly past the end of its memory.
fn window(draft: &mut Draft, random: &mut Random) {
    if draft.tasks.is_empty() {
        return;
    }
    let more = random.between(1, 3);
    let (registers, program, data) =
        (draft.registers.len() / 2, draft.program.len() / 16, draft.data.len() / 32);
    let place = random.below(draft.tasks.len() as u64) as usize;
    let task = &mut draft.tasks[place];
    match random.below(3) {
        0 => task.rl = (registers as u64 + more - 1).min(0x3FF) as u16,
        1 => task.pl = (program as u64 + more - 1) as u16,
        _ => task.dl = (data as u64 + more - 1) as u32,
    }
}

fn memory(draft: &mut Draft, size: Size, random: &mut Random) {
    let least = if size == Size::Small { 2 } else { 0 };
    match random.between(least, 4) {
        0 => draft.constants.resize(random.between(4_095, 4_098) as usize, (5, 5)),
        1 => draft.registers.resize(random.between(2_047, 2_050) as usize, (0, 5)),
        2 => cell(&mut draft.constants, &[7, 8, 15, 255], random),
        3 => cell(&mut draft.registers, &[7, 15, 16, 255], random),
        _ => cell(&mut draft.data, &[2, 3, 128, 255], random),
    }
}

/// Gives a cell one of these tags.
fn cell(cells: &mut [(u8, u64)], tags: &[u8], random: &mut Random) {
    if !cells.is_empty() {
        cells[random.below(cells.len() as u64) as usize].0 = random.pick(tags);
    }
}

/// A few edits of the bytes.
pub fn bytes(mut input: Vec<u8>, random: &mut Random) -> Vec<u8> {
    for _ in 0..random.between(1, 3) {
        edit(&mut input, random);
    }
    input
}

fn edit(input: &mut Vec<u8>, random: &mut Random) {
    if input.is_empty() {
        return;
    }
    let place = place(input, random);
    match random.below(8) {
        0..=1 => input[place] ^= 1 << random.below(8),
        2 => input[place] = random.draw() as u8,
        3 => input.truncate(place),
        4 => input.truncate(input.len() - 1),
        5 => drop(input.drain(place..input.len().min(place + random.between(1, 9) as usize))),
        6 => input.insert(place, random.draw() as u8),
        _ => input.push(random.draw() as u8),
    }
}

/// A place: half of the time among the first fields of the image.
fn place(input: &[u8], random: &mut Random) -> usize {
    let length = input.len() as u64;
    if input.len() < 2 || random.chance(50) {
        return random.below(length) as usize;
    }
    let image = 2 + u64::from(u16::from_be_bytes([input[0], input[1]]));
    (image + random.below(200)).min(length - 1) as usize
}

/// Bytes of little or no order.
pub fn wild(random: &mut Random) -> Vec<u8> {
    match random.below(7) {
        0 => noise(200, random),
        1 => batch_input(&[1; 5], &noise(200, random)),
        2 => vec![0; random.below(60) as usize],
        3 => vec![0; random.between(65_535, 65_537) as usize],
        4 => long(random),
        5 => sparse(random),
        _ => noise(70_001, random),
    }
}

/// Fewer than so many bytes of no order.
fn noise(most: u64, random: &mut Random) -> Vec<u8> {
    (0..random.below(most)).map(|_| random.draw() as u8).collect()
}

/// An input of an empty image, made 65,535 to 65,537 bytes long by its schedule.
fn long(random: &mut Random) -> Vec<u8> {
    let image = Draft::default().bytes();
    let length = random.between(65_535, 65_537) as usize;
    batch_input(&vec![1; length - 2 - image.len()], &image)
}

/// Small bytes, so that counts are often accepted.
fn sparse(random: &mut Random) -> Vec<u8> {
    let length = random.below(300);
    (0..length).map(|_| if random.chance(80) { 0 } else { random.below(4) as u8 }).collect()
}
