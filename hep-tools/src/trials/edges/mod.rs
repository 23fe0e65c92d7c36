//! Edges: the fields of images and inputs on both sides of their boundaries, and the order of refusals.

mod images;
mod inputs;
mod memories;
mod processes;
mod rows;
mod sections;

use super::report::{self, Item};
use super::Trial;
use crate::emulator::batch::Answer;
use crate::emulator::draft::{batch_input, Draft, Process, Task};
use crate::emulator::machine::EMPTY;

/// The trials of every edge.
pub fn all() -> Vec<Trial> {
    let mut edges = Edges::default();
    for group in [images::all, sections::all, rows::all, processes::all, memories::all, inputs::all]
    {
        group(&mut edges);
    }
    edges.trials
}

/// The smallest image for each of the refusals that an image may have, with its number.
pub fn smallest() -> [(u8, Vec<u8>); 9] {
    let left_over = [&Draft::default().bytes()[..], &[0]].concat();
    let past = bare(|draft| draft.tasks[0].rb = 0);
    let clash = bare(|draft| draft.processes = vec![Process::new(0, 1, 0); 2]);
    [
        (1, vec![]),
        (2, vec![8]),
        (3, vec![1, 0]),
        (4, left_over),
        (5, past.bytes()),
        (6, clash.bytes()),
        (12, vec![0, 0, 2]),
        (13, vec![0, 0, 0, 0, 0, 0, 1, 7]),
        (14, vec![0, 0, 0, 0, 1, 7]),
    ]
}

#[derive(Default)]
struct Edges {
    trials: Vec<Trial>,
}

impl Edges {
    /// An input that is refused with this number, or by 0 accepted; then its steps are idle.
    fn input(&mut self, name: impl Into<String>, input: Vec<u8>, number: u8) {
        let expected = match number {
            0 => accepted(&input),
            _ => Answer::of(format!("R{number}\n").into_bytes()),
        };
        self.trials.push(Trial { name: name.into(), input, expected });
    }

    /// An image's bytes, in an input without items.
    fn bytes(&mut self, name: impl Into<String>, image: &[u8], number: u8) {
        self.input(name, batch_input(&[], image), number);
    }

    fn image(&mut self, name: impl Into<String>, draft: &Draft, number: u8) {
        self.bytes(name, &draft.bytes(), number);
    }

    /// A change of an image with one row and nothing else, and of the bench.
    fn both(&mut self, name: &str, number: u8, change: impl Fn(&mut Draft)) {
        self.image(format!("{name}, bare"), &bare(&change), number);
        self.image(name, &bench(&change), number);
    }
}

/// The answer to an input whose steps are all idle, from its bytes by their places.
fn accepted(input: &[u8]) -> Answer {
    let count = usize::from(input[0]) << 8 | usize::from(input[1]);
    let (items, image) = input[2..].split_at(count);
    let idle = |&task| Item { task, ending: "I", tried: false };
    let items: Vec<Item> = items.iter().map(idle).collect();
    let rows = usize::from(image[0]);
    let processes = &image[1 + 28 * rows..];
    let tasks: Vec<u8> = (0..usize::from(processes[0])).map(|i| processes[3 + 10 * i]).collect();
    let mut output = String::new();
    for row in image[1..].chunks(28).take(rows) {
        let live = tasks.iter().filter(|task| **task % 16 == row[0]).count();
        let pc = (u32::from(row[25] & 15) << 16) + (u32::from(row[26]) << 8) + u32::from(row[27]);
        let trap = match row[19] {
            0xFF => "-- -----".to_string(),
            kind => format!("{kind:02X} {pc:05X}"),
        };
        let own = items.iter().filter(|item| item.task == row[0]).count();
        output += &format!("{} {live} {trap} E0 W0 T0 I{own} S0\n", row[0]);
    }
    output += &format!("E0 W0 T0 I{count} S0 CF{}\n", processes[1]);
    report::printed(output, image.to_vec(), &items)
}

/// One row with empty windows, changed.
fn bare(change: impl Fn(&mut Draft)) -> Draft {
    let mut draft = Draft { tasks: vec![Task::empty(1)], ..Draft::default() };
    change(&mut draft);
    draft
}

/// A row over two registers, 16 instructions and 32 data words, a process and two constants, changed.
fn bench(change: impl Fn(&mut Draft)) -> Draft {
    let mut draft = Draft {
        tasks: vec![Task { rb: 0, rl: 0, pb: 0, pl: 0, db: 0, dl: 0, ..Task::empty(1) }],
        processes: vec![Process::new(0, 1, 0)],
        constants: vec![(0, 5), (6, 6)],
        registers: vec![(0, 1), (14, 2)],
        program: vec![3; 16],
        data: vec![(1, 4); 32],
        ..Draft::default()
    };
    change(&mut draft);
    draft
}

/// Two tasks, of which one is trapped, three processes, of which two are in SFU queues, and something in every memory.
pub fn full() -> Draft {
    let first = Task { cb: 2, rb: 0, rl: 1, pb: 0, pl: 0, db: 0, dl: 0, ..Task::empty(1) };
    let trapped = Task { kind: 0x14, trapped: 7, ..Task::empty(4) };
    let second = Task { cb: 0xFFF, rb: 1, rl: 1, pb: 0, pl: 0, ..trapped };
    let process = Process::new;
    let in_sfu = |pt, task, psw| Process { sfu: true, ..process(pt, task, psw) };
    Draft {
        tasks: vec![first, second],
        processes: vec![process(5, 1, 3), in_sfu(2, 1, 0), in_sfu(63, 4, 7)],
        flag: 1,
        constants: [cells(1, 5), cells(1, 0)].concat(),
        registers: [cells(3, 6), cells(2, EMPTY | 4)].concat(),
        program: words(16),
        data: [cells(31, 1), cells(1, 0)].concat(),
    }
}

/// Rows of these tasks, with empty windows.
fn rows_of(tasks: impl IntoIterator<Item = u8>) -> Vec<Task> {
    tasks.into_iter().map(Task::empty).collect()
}

/// Processes 0, 1, .. of task 1, and 0 again behind 63.
fn crowd(count: u8) -> Vec<Process> {
    (0..count).map(|i| Process::new(i % 64, 1, 0)).collect()
}

/// Words that differ in every byte.
fn words(count: usize) -> Vec<u64> {
    (1..=count as u64).map(|i| i.wrapping_mul(0x0123_4567_89AB_CDEF)).collect()
}

/// Constants, registers or data words of this quality, tag or state.
fn cells(count: usize, tag: u8) -> Vec<(u8, u64)> {
    words(count).into_iter().map(|word| (tag, word)).collect()
}
