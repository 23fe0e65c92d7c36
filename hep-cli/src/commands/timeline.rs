//! `hep timeline`: a run as a picture.

use super::trace::{range, FROM, TO};
use super::{Command, OUTPUT};
use crate::arguments::Arguments;
use crate::files::{self, IMAGE, INPUT, SCHEDULE};
use crate::output;
use crate::runs;
use crate::status::{Failure, Status};
use hep_tools::tool;
use hep_tools::tool::timeline::{svg, View};

pub const COMMAND: Command = Command {
    name: "timeline",
    operands: "[FILE]",
    summary: "a picture of the run, as SVG",
    about: "Runs the schedule and draws it as SVG: a lane for each task, also for an unlisted one that has items; each item\n\
            coloured by its ending, with the counts of the task's own items that are drawn and what it waited for, and\n\
            below it a thin lane for its tries; a trap is marked at its item. Of more than 240 items a column shows\n\
            several. The steps are those of hep-tools' emulator, not proved; its counts and the image that they end in\n\
            are held to the proved library's.",
    options: &[FROM, TO, SCHEDULE, OUTPUT, INPUT, IMAGE],
    run,
};

fn run(arguments: &Arguments) -> Result<Status, Failure> {
    let (from, to) = range(arguments).map_err(Failure::usage)?;
    let file = files::one(arguments, 0)?;
    let loaded = files::load_to_run(file, arguments)?;
    let mut machine = tool::machine(&loaded.source);
    let schedule = loaded.source.schedule.as_deref().unwrap_or(&[]);
    let view = View {
        name: files::name(file),
        symbols: &loaded.symbols,
        items: from..to.saturating_add(1),
    };
    output::answer(arguments, svg(&mut machine, schedule, &view))?;
    runs::same(file, &loaded.source, &machine)?;
    Ok(Status::Done)
}
