//! The report by documents 01 and 02, from how the items ended.

use crate::emulator::batch::Answer;
use crate::emulator::draft::{Draft, Task};
use crate::emulator::machine::{Counts, NO_TRAP};

/// An item: its task number, how it ended, and whether it made a try.
#[derive(Clone, Copy)]
pub struct Item<'a> {
    pub task: u8,
    pub ending: &'a str,
    pub tried: bool,
}

/// What a run of these items must answer that leaves this image.
pub fn answer(draft: &Draft, items: &[Item]) -> Answer {
    let live = |task: &Task| draft.processes.iter().filter(|p| p.task == task.number).count();
    let lines = draft.tasks.iter().map(|task| task_line(task, live(task), items));
    let output = lines.collect::<String>() + &counts_line(items, draft.flag);
    printed(output, draft.bytes(), items)
}

/// The answer with this output and this image.
pub fn printed(output: String, image: Vec<u8>, items: &[Item]) -> Answer {
    let own = std::array::from_fn(|task| own(items, task as u8));
    Answer { output: output.into_bytes(), image: Some(image), own: Some(own) }
}

/// A task's line, with so many live processes.
pub fn task_line(task: &Task, live: usize, items: &[Item]) -> String {
    let trap = match task.kind {
        NO_TRAP => "-- -----".to_string(),
        kind => format!("{kind:02X} {:05X}", task.trapped & 0xF_FFFF),
    };
    format!("{} {live} {trap} {}\n", task.number, shown(own(items, task.number)))
}

/// The last line.
pub fn counts_line(items: &[Item], flag: u8) -> String {
    format!("{} CF{flag}\n", shown(counted(items.iter())))
}

/// The counts of a task number's items.
fn own(items: &[Item], task: u8) -> Counts {
    counted(items.iter().filter(|item| item.task == task))
}

fn counted<'a>(items: impl Iterator<Item = &'a Item<'a>> + Clone) -> Counts {
    let count = |letter| items.clone().filter(|item| item.ending.starts_with(letter)).count();
    let [executed, waved, trapped, idle] = ['E', 'W', 'T', 'I'].map(|letter| count(letter) as u64);
    let tries = items.filter(|item| item.tried).count() as u64;
    Counts { executed, waved, trapped, idle, tries }
}

fn shown(counts: Counts) -> String {
    let Counts { executed, waved, trapped, idle, tries } = counts;
    format!("E{executed} W{waved} T{trapped} I{idle} S{tries}")
}
