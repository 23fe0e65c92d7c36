//! The input around the image: the schedule, the length, and the fullest inputs.

use super::*;
use crate::emulator::batch::MOST_BYTES;
use crate::emulator::machine::{NO_TRAP, PROTECTION};
use crate::trials::printed;

pub fn all(edges: &mut Edges) {
    schedules(edges);
    lengths(edges);
    around_the_printed_case(edges);
    fullest(edges);
}

/// An image that is good for any items: no process steps.
fn idle() -> Vec<u8> {
    bench(|draft| draft.processes.clear()).bytes()
}

fn schedules(edges: &mut Edges) {
    let (idle, empty) = (idle(), Draft::default().bytes());
    for (item, number) in [(0, 10), (1, 0), (7, 0), (8, 10), (255, 10)] {
        edges.input(format!("item {item}"), batch_input(&[1, item], &idle), number);
        let empty_image = batch_input(&[1, item], &empty);
        edges.input(format!("item {item}, empty image"), empty_image.clone(), number);
        let cut = empty_image[..empty_image.len() - 1].to_vec();
        edges.input(format!("item {item}, empty image cut"), cut, 1);
        let longer = [&empty_image[..], &[0]].concat();
        edges.input(format!("item {item}, a byte left over"), longer, 4);
    }
    for (number, image) in smallest() {
        edges.input(format!("{number} before 10"), batch_input(&[0], &image), number);
    }
    edges.input("1 before 10", batch_input(&[0], &idle[..9]), 1);
    edges.input("4 before 10", batch_input(&[8], &[&idle[..], &[0]].concat()), 4);
    let clash = bench(|draft| draft.processes = crowd(64)).bytes();
    edges.input("6 before 10", batch_input(&[8], &clash), 6);
}

fn lengths(edges: &mut Edges) {
    for (number, image) in smallest() {
        let items = |length: usize| batch_input(&vec![1; length - 2 - image.len()], &image);
        edges.input(format!("{number} in {MOST_BYTES} bytes"), items(MOST_BYTES), number);
        edges.input(format!("11 before {number}"), items(MOST_BYTES + 1), 11);
    }
    let idle = idle();
    for (length, number) in [(MOST_BYTES, 0), (MOST_BYTES + 1, 11)] {
        let items = vec![1; length - 2 - idle.len()];
        edges.input(format!("{length} bytes"), batch_input(&items, &idle), number);
        let number = if number == 0 { 1 } else { 11 };
        edges.input(format!("{length} bytes of ones"), vec![0xFF; length], number);
    }
}

/// Document 01's printed case cut everywhere, and with bytes behind it.
fn around_the_printed_case(edges: &mut Edges) {
    let whole = printed().input;
    for end in 0..whole.len() {
        edges.input(format!("the printed case's first {end} bytes"), whole[..end].to_vec(), 1);
    }
    for (length, number) in
        [(MOST_BYTES - 1, 4), (MOST_BYTES, 4), (MOST_BYTES + 1, 11), (70_000, 11)]
    {
        let mut longer = whole.clone();
        longer.resize(length, 0);
        edges.input(format!("the printed case in {length} bytes"), longer, number);
    }
}

/// An image of so many values of a section as an input has room for, or as its limit allows.
struct Fullest {
    name: &'static str,
    draft: Draft,
    /// Whether task 1 has instructions to run.
    runs: bool,
}

fn fullest_images() -> Vec<Fullest> {
    let make = |name, runs, change: fn(&mut Draft)| {
        let draft = bare(|draft| (draft.processes = crowd(1), change(draft)).1);
        Fullest { name, draft, runs }
    };
    vec![
        Fullest { name: "nothing", draft: Draft::default(), runs: false },
        make("a process", false, |_| ()),
        make("constants", false, |draft| draft.constants = cells(4_096, 6)),
        make("registers", false, |draft| {
            (draft.tasks[0].rb, draft.tasks[0].rl) = (0, 0x3FF);
            draft.registers = cells(2_048, 0);
        }),
        make("program", true, |draft| {
            (draft.tasks[0].pb, draft.tasks[0].pl) = (0, 510);
            draft.program = vec![0; 8_184];
        }),
        make("data", false, |draft| {
            (draft.tasks[0].db, draft.tasks[0].dl) = (0, 226);
            draft.data = cells(7_275, 0);
        }),
    ]
}

/// Each beside as many items, of tasks 1 to 3 in turn, as make the longest input, and a byte fewer and more.
fn fullest(edges: &mut Edges) {
    for of in fullest_images() {
        let image = of.draft.bytes();
        for length in [MOST_BYTES - 1, MOST_BYTES, MOST_BYTES + 1, MOST_BYTES + 2] {
            let items: Vec<u8> = (0..length - 2 - image.len()).map(|i| (i % 3) as u8 + 1).collect();
            let input = batch_input(&items, &image);
            let name = format!("{length} bytes with {}", of.name);
            if length > MOST_BYTES {
                edges.input(name, input, 11);
                continue;
            }
            if length == MOST_BYTES {
                edges.input(format!("{name}, the last cut"), input[..length - 1].to_vec(), 1);
            }
            let expected = of.answer(&items);
            edges.trials.push(Trial { name, input, expected });
        }
    }
}

impl Fullest {
    /// Task 1 runs through zeros, which are NOP, or traps at its first item since its program window is empty.
    fn answer(&self, schedule: &[u8]) -> Answer {
        let mut after = self.draft.clone();
        let ending = |place: usize, task: u8| match (task, place) {
            _ if self.draft.processes.is_empty() => "I",
            (1, _) if self.runs => "E",
            (1, 0) => "T14",
            _ => "I",
        };
        let item = |(place, &task)| Item { task, ending: ending(place, task), tried: false };
        let items: Vec<Item> = schedule.iter().enumerate().map(item).collect();
        for process in &mut after.processes {
            process.psw = items.iter().filter(|item| item.ending == "E").count() as u64;
            after.tasks[0].kind = if self.runs { NO_TRAP } else { PROTECTION };
        }
        report::answer(&after, &items)
    }
}
