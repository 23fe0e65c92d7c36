//! `hep show`: the map of a file.

use super::{Command, OUTPUT};
use crate::arguments::Arguments;
use crate::files::{self, IMAGE, INPUT, SCHEDULE};
use crate::output;
use crate::status::{Failure, Status};
use hep_tools::tool::show;

pub const COMMAND: Command = Command {
    name: "show",
    operands: "[FILE]",
    summary: "sections with their places, tasks with their windows, processes",
    about: "Writes what a file has: its sections with their places in the bytes, counted from 0; each task with the real\n\
            addresses of its windows, its constants' base, live processes, trap record, and whether its register and\n\
            data windows meet no other's; the processes from head to tail, each in its task's queue or its SFU queue;\n\
            notes on what may be a mistake. Of a refused file all that stands before the fault.",
    options: &[SCHEDULE, OUTPUT, INPUT, IMAGE],
    run,
};

fn run(arguments: &Arguments) -> Result<Status, Failure> {
    let file = files::one(arguments, 0)?;
    match files::open(file, arguments)? {
        Ok(loaded) => {
            let loaded = files::scheduled(loaded, arguments)?;
            output::answer(arguments, show::accepted(&loaded))?;
            Ok(Status::Done)
        }
        Err(trouble) => {
            let before = show::refused(&trouble);
            if !before.is_empty() {
                output::answer(arguments, before)?;
            }
            Err(Failure::trouble(files::name(file), &trouble))
        }
    }
}
