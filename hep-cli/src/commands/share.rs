//! `hep share`: what a task has after a run.

use super::{Command, OUTPUT};
use crate::arguments::{valued, Arguments};
use crate::files::{self, IMAGE, INPUT, SCHEDULE};
use crate::output;
use crate::runs;
use crate::status::{Failure, Status};
use hep_tools::tool::share::{cells_shown, program, share};
use std::ops::RangeInclusive;

pub const COMMAND: Command = Command {
    name: "share",
    operands: "TASK [FILE]",
    summary: "what a task has after the run",
    about: "Runs the schedule by the proved library and writes what the task has then: the counts of its own items, as in\n\
            the report (E executed, W waved, T trapped, I idle, S tries), trap record, status words from head to tail\n\
            (`sfu` for those in its SFU queue), registers and data words, each at its place in the window. Process\n\
            numbers are left out. An image alone is shown as it is, without counts.",
    options: &[
        valued("registers", "A..B", "only the registers A to B, or A alone, in decimal: place, value, state"),
        valued("data", "A..B", "only the data words A to B, or A alone, in decimal: place, value, state"),
        SCHEDULE,
        OUTPUT,
        INPUT,
        IMAGE,
    ],
    run,
};

fn run(arguments: &Arguments) -> Result<Status, Failure> {
    let task = files::task(arguments)?;
    let registers = range(arguments, "registers")?;
    let data = range(arguments, "data")?;
    let file = files::one(arguments, 1)?;
    let loaded = files::load(file, arguments)?;
    let outcome = runs::run(file, &loaded.source)?;
    let (draft, own) = (runs::draft(file, &outcome.image)?, outcome.own(task));
    let refused = |reason: String| Failure::refused(files::name(file), reason);
    let share = share(&draft, task).ok_or_else(|| refused(unlisted(task, own)))?;
    let mut out = String::new();
    if let Some(places) = &registers {
        out += &cells_shown(&share.registers, places, "registers", |tag| tag & 8 != 0)
            .map_err(refused)?;
    }
    if let Some(places) = &data {
        out +=
            &cells_shown(&share.data, places, "data words", |state| state == 0).map_err(refused)?;
    }
    if registers.is_none() && data.is_none() {
        let base =
            draft.tasks.iter().find(|row| row.number == task).map_or(0, |row| program(row).start);
        out = match loaded.source.schedule {
            Some(_) => format!("counts {own}\n"),
            None => String::new(),
        };
        out += &share.show(|pc| loaded.symbols.place(base, base + pc as usize));
    }
    output::answer(arguments, out)?;
    Ok(Status::Done)
}

/// Why there is nothing to show of a task.
fn unlisted(task: u8, own: hep::Counts) -> String {
    match own.idle {
        0 => format!("task {task} isn't listed"),
        items => format!("task {task} isn't listed: its items ({items}) are idle"),
    }
}

/// `5..7` or `5`.
fn range(arguments: &Arguments, long: &str) -> Result<Option<RangeInclusive<usize>>, Failure> {
    let Some(text) = arguments.value(long) else { return Ok(None) };
    let (first, last) = text.split_once("..").unwrap_or((text, text));
    match (first.parse(), last.parse()) {
        (Ok(first), Ok(last)) if first <= last => Ok(Some(first..=last)),
        _ => Err(Failure::usage(format!("--{long} needs places, as 0..7 or 5, not `{text}`"))),
    }
}
