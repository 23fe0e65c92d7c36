//! Pairs of inputs that agree on one task and differ in its neighbours.

use super::layout::{self, Size};
use super::values::{self, UNSET};
use super::{program, schedule};
use crate::emulator::draft::{Draft, Process, Task};
use crate::emulator::image::MOST_CONSTANTS;
use crate::generate::random::Random;
use crate::tool::share;
use crate::tool::text::Source;

/// Two inputs and the task they agree on.
pub struct Pair {
    pub first: Source,
    pub second: Source,
    pub task: u8,
}

/// A pair; most meet the premises of isolation, some break one. The task may be one that neither image lists.
pub fn pair(random: &mut Random) -> Pair {
    let first = loop {
        let draft = layout::draft(Size::Any, random);
        if !draft.tasks.is_empty() {
            break draft;
        }
    };
    let listed = random.pick(&first.tasks).number;
    let task = if random.chance(5) { random.between(1, 7) as u8 } else { listed };
    let mut second = neighboured(&first, task, random);
    let items = schedule(&first, Size::Any, random);
    let mut items: Vec<u8> = items.into_iter().filter(|item| (1..=7).contains(item)).collect();
    items.extend(vec![task; random.below(4) as usize]);
    let mut other = reordered(&items, task, &second, random);
    match random.below(40) {
        0 => other.push(task),
        1 => disagree(&mut second, task),
        2 => disagree_on_constants(&mut second, random),
        3 => disagree_on_the_queue(&mut second, task),
        _ => {}
    }
    Pair {
        first: Source { schedule: Some(items), draft: first },
        second: Source { schedule: Some(other), draft: second },
        task,
    }
}

/// The draft with all that isn't the task's made anew.
fn neighboured(first: &Draft, number: u8, random: &mut Random) -> Draft {
    let mut draft = first.clone();
    let own = *draft.tasks.iter().find(|task| task.number == number).unwrap_or(&draft.tasks[0]);
    draft.tasks.retain(|task| task.number == number || random.chance(70));
    draft
        .tasks
        .iter_mut()
        .filter(|task| task.number != number)
        .for_each(|task| alter(task, random));
    let any = |random: &mut Random| {
        (random.below(7) as u8 | random.pick(&[0, 0, 8]), values::any(random))
    };
    draft.registers.iter_mut().for_each(|cell| *cell = any(random));
    draft.data.iter_mut().for_each(|cell| *cell = (random.below(2) as u8, values::data(random)));
    add_zeros(&mut draft, random);
    program::fill(&mut draft, Size::Any, random);
    keep(&mut draft.registers, &first.registers, share::registers(&own));
    keep(&mut draft.data, &first.data, share::data(&own));
    keep(&mut draft.program, &first.program, share::program(&own));
    add_processes(&mut draft, first, number, random);
    draft
}

/// Now and then more constants, which read as the addresses past the count did.
fn add_zeros(draft: &mut Draft, random: &mut Random) {
    if random.chance(10) {
        let more = draft.constants.len() + random.between(1, 9) as usize;
        draft.constants.resize(more.min(MOST_CONSTANTS), (0, 0));
    }
}

/// Gives some constants another quality.
fn disagree_on_constants(draft: &mut Draft, random: &mut Random) {
    for constant in draft.constants.iter_mut().filter(|_| random.chance(50)) {
        constant.0 = (constant.0 + UNSET) % 7;
    }
}

/// Turns a bit of the first register in the task's window, or of a status word of its own.
fn disagree(draft: &mut Draft, number: u8) {
    let own = draft.tasks.iter().find(|task| task.number == number).map(share::registers);
    match own.filter(|registers| !registers.is_empty()) {
        Some(registers) => draft.registers[registers.start].1 ^= 1,
        None => {
            let process = draft.processes.iter_mut().find(|process| process.task == number);
            process.into_iter().for_each(|process| process.psw ^= 1);
        }
    }
}

/// Puts the first process of the task's SFU queue at its own queue's tail, or else its own queue's last into the SFU queue.
fn disagree_on_the_queue(draft: &mut Draft, number: u8) {
    let in_queue =
        |sfu: bool| move |process: &&mut Process| (process.task, process.sfu) == (number, sfu);
    let waiting = draft.processes.iter_mut().find(in_queue(true));
    if let Some(process) = waiting {
        process.sfu = false;
        return;
    }
    let last = draft.processes.iter_mut().rfind(in_queue(false));
    last.into_iter().for_each(|process| process.sfu = true);
}

/// Puts back the cells of a window.
fn keep<T: Clone>(cells: &mut [T], from: &[T], window: std::ops::Range<usize>) {
    if !window.is_empty() {
        cells[window.clone()].clone_from_slice(&from[window]);
    }
}

/// Another constant base and trap record.
fn alter(task: &mut Task, random: &mut Random) {
    task.cb = random.below(0x1000) as u16;
    (task.kind, task.trapped) = (0xFF, 0);
    if random.chance(10) {
        task.kind = random.pick(&[0x00, 0x12, 0x14, 0x16, 0x1A, 0x1C, 0x1E]);
        task.trapped = values::status(random, 64);
    }
}

/// The task's own status words in their order, and others for its neighbours, under
/// process numbers of any order.
fn add_processes(draft: &mut Draft, first: &Draft, number: u8, random: &mut Random) {
    let own = first.processes.iter().filter(|process| process.task == number);
    let mut processes: Vec<Process> = own.copied().collect();
    let neighbours: Vec<u8> =
        draft.tasks.iter().map(|task| task.number).filter(|task| *task != number).collect();
    let room = 63_usize.saturating_sub(processes.len()).min(if random.chance(10) { 60 } else { 8 });
    let waiting = random.pick(&layout::WAITING);
    if !neighbours.is_empty() {
        for _ in 0..random.below(room as u64 + 1) {
            let (task, psw) = (random.pick(&neighbours), values::status(random, 48));
            let sfu = random.chance(waiting);
            processes.push(Process { sfu, ..Process::new(0, task, psw) });
        }
    }
    processes.sort_by_key(|process| (process.task, process.sfu));
    for (process, pt) in processes.iter_mut().zip(layout::process_numbers(random)) {
        process.pt = pt;
    }
    draft.processes = processes;
    draft.flag = u8::from(draft.processes.len() == 64);
}

/// A schedule with as many items of the task and others for the neighbours.
fn reordered(items: &[u8], task: u8, draft: &Draft, random: &mut Random) -> Vec<u8> {
    let own = items.iter().filter(|item| **item == task).count();
    let neighbours: Vec<u8> =
        draft.tasks.iter().map(|task| task.number).filter(|number| *number != task).collect();
    let mut other = vec![task; own];
    if !neighbours.is_empty() {
        for _ in 0..random.below(600) {
            let place = random.below(other.len() as u64 + 1) as usize;
            other.insert(place, random.pick(&neighbours));
        }
    }
    other
}
