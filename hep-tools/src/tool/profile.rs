//! A run by instruction: how often each was executed, waved and trapped, in steps and tries.

use super::taken::{item, place, Taken};
use super::text::Symbols;
use crate::emulator::machine::{Attempt, Ending, Machine};
use std::collections::BTreeMap;

/// The attempts at an instruction: executed, waved, trapped, and how many of these were tries.
struct Counted {
    endings: [u64; 3],
    tries: u64,
    taken: Taken,
}

/// Runs the schedule; a line for each task and PC that was attempted at.
pub fn profile(machine: &mut Machine, schedule: &[u8], symbols: &Symbols) -> String {
    let mut counts: BTreeMap<(u8, u64), Counted> = BTreeMap::new();
    for &task in schedule {
        let count = |_: &Machine, taken: Taken, ending: Ending| {
            let none = Counted { endings: [0; 3], tries: 0, taken };
            let counted = counts.entry((task, taken.pc())).or_insert(none);
            counted.endings[place_of(ending)] += 1;
            counted.tries += u64::from(taken.attempt == Attempt::Try);
        };
        item(machine, task, |_, taken| taken, count);
    }
    let heading = format!(
        "task PC    {:<16} {:<32} executed    waved  trapped  tries of these\n",
        "place", "instruction"
    );
    let lines = counts.into_iter().map(|((task, pc), Counted { endings, tries, taken })| {
        let place = place(machine, symbols, task, pc).unwrap_or_default();
        let instruction = taken.instruction(machine, symbols);
        let [executed, waved, trapped] = endings;
        format!(
            "{task:4} {pc:05X} {place:<16} {instruction:<32} {executed:8} {waved:8} {trapped:8} {tries:15}\n"
        )
    });
    heading + &lines.collect::<String>()
}

/// The place of an attempt's ending; none is idle.
fn place_of(ending: Ending) -> usize {
    match ending {
        Ending::Executed | Ending::Idle => 0,
        Ending::Waved => 1,
        Ending::Trapped { .. } => 2,
    }
}
