//! `hep trace`: a line for each attempt, or the counts of each instruction.

use super::{Command, OUTPUT};
use crate::arguments::{flag, valued, Arguments, Opt};
use crate::files::{self, IMAGE, INPUT, SCHEDULE};
use crate::output::Sink;
use crate::runs;
use crate::status::{Failure, Status};
use hep_tools::tool::text::hint;
use hep_tools::tool::trace::{lines, Filter, ENDINGS};
use hep_tools::tool::{self, profile};

pub const FROM: Opt = valued("from", "ITEM", "only from this item on, counted from 0");
pub const TO: Opt = valued("to", "ITEM", "only up to this item");

pub const COMMAND: Command = Command {
    name: "trace",
    operands: "[FILE]",
    summary: "a line for each try and step: what it wrote, or why it waits or traps",
    about: "Runs the schedule and writes a line for each attempt of an item, a `try` of the SFU queue's head and a `step` of\n\
            the task's head: task, process number, PC in hex and as label+distance, instruction, ending, and what it\n\
            wrote or why it waits or traps, with the values that it read. `rN` and `data N` count from the window's\n\
            start. Behind a data word stands the part of it that was named, as `(byte 7)`, unless it is the whole. The\n\
            attempts are those of hep-tools' emulator, not proved; its counts and the image that they end in are held to\n\
            the proved library's.",
    options: &[
        valued("task", "N", "only this task"),
        FROM,
        TO,
        valued("only", "ENDINGS", "only lines with these endings, as `waved,trapped`"),
        flag("profile", "how often each instruction was executed, waved, trapped and tried, instead"),
        SCHEDULE,
        OUTPUT,
        INPUT,
        IMAGE,
    ],
    run,
};

fn run(arguments: &Arguments) -> Result<Status, Failure> {
    let filter = filter(arguments).map_err(Failure::usage)?;
    let file = files::one(arguments, 0)?;
    let loaded = files::load_to_run(file, arguments)?;
    let mut machine = tool::machine(&loaded.source);
    let schedule = loaded.source.schedule.as_deref().unwrap_or(&[]);
    let mut sink = Sink::of(arguments)?;
    if arguments.has("profile") {
        sink.put(profile::profile(&mut machine, schedule, &loaded.symbols))?;
    } else {
        for line in lines(&mut machine, schedule, &loaded.symbols, &filter) {
            sink.put(line + "\n")?;
        }
    }
    sink.flush()?;
    runs::same(file, &loaded.source, &machine)?;
    Ok(Status::Done)
}

fn filter(arguments: &Arguments) -> Result<Filter, String> {
    let mut filter = Filter { task: arguments.number("task")?, ..Filter::default() };
    (filter.from, filter.to) = range(arguments)?;
    for ending in arguments.value("only").into_iter().flat_map(|only| only.split(',')) {
        if !ENDINGS.contains(&ending) {
            let hint = hint(ending, ENDINGS);
            return Err(format!("`{ending}` is no ending{hint}: {}", ENDINGS.join(", ")));
        }
        filter.only.push(ending.to_string());
    }
    Ok(filter)
}

/// The first and the last item that are asked for.
pub fn range(arguments: &Arguments) -> Result<(usize, usize), String> {
    let from = arguments.number("from")?.unwrap_or(0);
    let to = arguments.number("to")?.unwrap_or(usize::MAX);
    if from > to {
        return Err(format!("--from {from} is behind --to {to}"));
    }
    Ok((from, to))
}
