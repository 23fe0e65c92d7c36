//! `hep check`: every bad field of each file.

use super::Command;
use crate::arguments::Arguments;
use crate::files::{self, IMAGE, INPUT};
use crate::output;
use crate::status::{Failure, Status};
use hep_tools::emulator::draft::Draft;
use hep_tools::tool::check::{faults, MOST_FIELDS};
use hep_tools::tool::load::{not_of_this_machine, Trouble};
use hep_tools::tool::show::unreached;
use hep_tools::tool::text::MOST_ERRORS;

pub const COMMAND: Command = Command {
    name: "check",
    operands: "FILE..",
    summary: "what is wrong with each file, every bad field of it",
    about: "Says what is wrong with each file: of a text up to 20 errors, of bytes every bad field with its place, up to\n\
            100, and up to a count or an end behind which nothing can be read. Cells in no task's window, which no task\n\
            can reach, are noted. Quiet where nothing is wrong. The number of the first is the proved library's, the\n\
            words and the others are those of hep-tools, not proved.",
    options: &[INPUT, IMAGE],
    run,
};

fn run(arguments: &Arguments) -> Result<Status, Failure> {
    if arguments.files.is_empty() {
        return Err(Failure::usage("a file is missing; `-` is standard input"));
    }
    let mut worst = Status::Done;
    for file in &arguments.files {
        let (status, words) = match files::open(file, arguments) {
            Ok(Ok(loaded)) => (Status::Done, notes(files::name(file), &loaded.source.draft)),
            Ok(Err(trouble)) => (Status::Refused, every(files::name(file), &trouble)),
            Err(failure) => (failure.status, failure.words),
        };
        output::tell(&words);
        worst = worst.max(status);
    }
    Ok(worst)
}

/// The cells of an accepted file that no task can reach.
fn notes(name: &str, draft: &Draft) -> String {
    unreached(draft).iter().map(|note| format!("{name}: note: {note}\n")).collect()
}

/// Each bad field in the likelier reading, and what the other reading is refused for.
fn every(name: &str, trouble: &Trouble) -> String {
    let (bytes, readings) = match trouble {
        Trouble::Bytes { bytes, readings } if not_of_this_machine(bytes).is_none() => {
            (bytes, readings)
        }
        Trouble::Text { errors, .. } if errors.len() == MOST_ERRORS => {
            return trouble.told(name)
                + &format!("{name}: {MOST_ERRORS} errors; the rest is not told\n");
        }
        _ => return trouble.told(name),
    };
    let reading = readings[0].0;
    let faults = faults(bytes, reading);
    let lines = faults.iter().map(|refusal| format!("{name}: {}\n", reading.said(refusal)));
    let mut out: String = lines.collect();
    if faults.len() == MOST_FIELDS {
        out += &format!("{name}: {MOST_FIELDS} bad fields; the rest is not told\n");
    }
    for (reading, refusal) in &readings[1..] {
        out += &format!("{name}: or as {}: {}\n", reading.one(), reading.said(refusal));
    }
    out
}
