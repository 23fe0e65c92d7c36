//! `hep run`: files run by the proved library.

use super::{Command, OUTPUT};
use crate::arguments::{flag, valued, Arguments, Opt};
use crate::files::{self, IMAGE, INPUT, SCHEDULE};
use crate::output::{self, Sink};
use crate::runs;
use crate::status::{Failure, Status};
use std::io::{self, IsTerminal};

mod json;
mod log;

pub const COMMAND: Command = Command {
    name: "run",
    operands: "[FILE..]",
    summary: "run each file by the proved library, and report",
    about: "Runs each file's schedule by the proved library and writes the report, of one file the very bytes that\n\
            hep_batch writes, of several a line each: name, `accepted` or the refusal, counts, then each task with the\n\
            counts of its own items. The counts are items executed (E), waved (W), trapped (T), idle (I), tries of SFU\n\
            queues (S) and, of the whole run, the create fault flag (CF). Items of a task that the image does not list\n\
            are idle: they are in the counts, in that line and in --json, and the report has no line for them. An image\n\
            may have any size, a schedule any length: over 65,535 items it is run in slices, and the counts add up.\n\
            Without FILE it reads standard input.",
    options: &[
        INPUT,
        IMAGE,
        SCHEDULE,
        Opt { help: "the image after the run of one file", ..OUTPUT },
        flag("check", "run the emulator of hep-tools beside it; exit status 3 if it differs"),
        flag("json", "an object a line instead"),
        valued("log", "FILE", "append a line with the time for each file"),
    ],
    run,
};

fn run(arguments: &Arguments) -> Result<Status, Failure> {
    let files = match &arguments.files[..] {
        [] => &[files::one(arguments, 0)?.to_string()][..],
        files => files,
    };
    match arguments.value("output") {
        Some(_) if files.len() > 1 => return Err(Failure::usage("-o goes with one file")),
        Some("-") => {
            return Err(Failure::usage("the report goes to standard output: give -o a file"))
        }
        _ => {}
    }
    let mut sink = Sink::standard()?;
    let mut log = log::Log::new(arguments.value("log"), files)?;
    let mut worst = Status::Done;
    for file in files {
        let done = one(file, arguments);
        let line = log::line(file, &done);
        log.clear();
        if let Err(failure) = &done {
            worst = worst.max(failure.status);
            output::tell(&failure.words);
        }
        sink.put(match (&done, files.len()) {
            _ if arguments.has("json") => json::object(file, &done),
            (Ok(outcome), 1) => outcome.report.clone(),
            (Err(failure), 1) => failure.number.map_or(String::new(), |n| format!("R{n}\n")),
            _ => line.clone(),
        })?;
        if io::stdout().is_terminal() {
            sink.flush()?;
        }
        log.done(&line, done.is_err())?;
    }
    log.clear();
    sink.flush()?;
    Ok(worst)
}

/// A file run by the proved library; the image goes to the file of `-o`.
fn one(file: &str, arguments: &Arguments) -> Result<hep::Outcome, Failure> {
    let source = files::load_to_run(file, arguments)?.source;
    if source.schedule.as_ref().is_some_and(Vec::is_empty) {
        output::tell(&format!(
            "{}: note: the schedule has no items, so nothing runs\n",
            files::name(file)
        ));
    }
    let outcome = runs::run(file, &source)?;
    if arguments.has("check") {
        runs::checked(file, &source, &outcome)?;
    }
    if let Some(after) = arguments.value("output") {
        let mut sink = Sink::file(after)?;
        sink.put(&outcome.image)?;
        sink.flush()?;
    }
    Ok(outcome)
}
