//! `hep why`: where each process stands after a run, and why.

use super::{Command, OUTPUT};
use crate::arguments::Arguments;
use crate::files::{self, IMAGE, INPUT, SCHEDULE};
use crate::output;
use crate::runs;
use crate::status::{Failure, Status};
use hep_tools::tool::{self, why};

pub const COMMAND: Command = Command {
    name: "why",
    operands: "[FILE]",
    summary: "where each process stands after the run, what it waits for, why it trapped",
    about: "Runs the schedule and says of each live process where it stands, what it waits for and who last changed that\n\
            cell, or why it trapped; `(SFU queue)` marks those that are tried, not stepped. Behind each task stand the\n\
            counts of its own items, as in the report. An image alone is told as it stands. The steps are those of\n\
            hep-tools' emulator, not proved; its counts and the image that they end in are held to the proved library's.",
    options: &[SCHEDULE, OUTPUT, INPUT, IMAGE],
    run,
};

fn run(arguments: &Arguments) -> Result<Status, Failure> {
    let file = files::one(arguments, 0)?;
    let loaded = files::load(file, arguments)?;
    let schedule = loaded.source.schedule.as_deref().unwrap_or(&[]);
    let (told, machine) = why::why(tool::machine(&loaded.source), schedule, &loaded.symbols);
    output::answer(arguments, told)?;
    runs::same(file, &loaded.source, &machine)?;
    Ok(Status::Done)
}
