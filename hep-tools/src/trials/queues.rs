//! Tries and steps: lines with both queues written out.
//!
//! A line has the parts of a line of the bench, which starts without a process. `own=0@3 7@5` is the task's own queue from head to tail,
//! process 0 at PC 3 and process 7 at PC 5; `sfu=` is its SFU queue; `own=-` is an empty one. `record=14@3` is the trap record, kind and PC.
//! What a change after the run doesn't name stays as it was before.
//!
//! An item is the ending of its try, `+` and the ending of its step: `W+E`. `E+` has no step, `E` no try; `2:` before it is an item of task 2.

use super::report::{self, Item};
use super::{bench, Trial};
use crate::emulator::draft::{batch_input, Draft, Process};

/// The trial of a line.
pub fn trials(line: &str) -> Result<Vec<Trial>, String> {
    let parts: Vec<&str> = line.split('|').map(str::trim).collect();
    let [name, before, program, items, after] = parts[..] else {
        return Err("a trial has five parts".to_string());
    };
    let mut state = bench::State::new();
    state.draft.processes.clear();
    changes(&mut state, before)?;
    state.program(program).map_err(|error| error.reason)?;
    let image = state.draft.bytes();
    let (schedule, items) = bench::items(items)?;
    changes(&mut state, after)?;
    let items = ended(&schedule, &items);
    let expected = report::answer(&state.draft, &items);
    Ok(vec![Trial { name: name.to_string(), input: batch_input(&schedule, &image), expected }])
}

/// Changes of queues and trap record, and those that the bench knows.
fn changes(state: &mut bench::State, text: &str) -> Result<(), String> {
    for change in text.split(',').map(str::trim) {
        match change.split_once('=') {
            Some(("own", list)) => queue(&mut state.draft, false, list),
            Some(("sfu", list)) => queue(&mut state.draft, true, list),
            Some(("record", record)) => {
                let task = &mut state.draft.tasks[0];
                pair(record, 16).map(|(kind, pc)| (task.kind, task.trapped) = (kind, pc))
            }
            _ => state.changes(change).map(Some).map_err(|error| error.reason)?,
        }
        .ok_or(format!("a bad change: {change}"))?;
    }
    Ok(())
}

/// Gives task 1 this list of processes for one of its queues.
fn queue(draft: &mut Draft, sfu: bool, list: &str) -> Option<()> {
    draft.processes.retain(|process| process.sfu != sfu);
    for process in list.split_whitespace().filter(|process| *process != "-") {
        let (pt, pc) = pair(process, 10)?;
        draft.processes.push(Process { sfu, ..Process::new(pt, 1, pc) });
    }
    bench::in_order(&mut draft.processes);
    Some(())
}

/// A number of this radix and a PC, `7@5`.
fn pair(text: &str, radix: u32) -> Option<(u8, u64)> {
    let (number, pc) = text.split_once('@')?;
    Some((u8::from_str_radix(number, radix).ok()?, pc.parse().ok()?))
}

/// The endings of an item's attempts in turn, each with whether it is a try's.
pub fn attempts(item: &str) -> Vec<(&str, bool)> {
    let (tried, stepped) = match item.split_once('+') {
        Some((tried, stepped)) => (tried, stepped),
        None => ("", item),
    };
    [(tried, true), (stepped, false)].into_iter().filter(|(ending, _)| !ending.is_empty()).collect()
}

/// The items as they count: by their last attempts.
pub fn ended<'a>(schedule: &[u8], items: &[&'a str]) -> Vec<Item<'a>> {
    let last = |item| attempts(item).last().map_or("", |(ending, _)| *ending);
    let item = |(&task, &item): (&u8, &&'a str)| Item {
        task,
        ending: last(item),
        tried: item.contains('+'),
    };
    schedule.iter().zip(items).map(item).collect()
}
