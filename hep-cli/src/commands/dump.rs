//! `hep dump`: bytes to text.

use super::{Command, OUTPUT};
use crate::arguments::{flag, Arguments};
use crate::files::{self, IMAGE, INPUT, SCHEDULE};
use crate::output;
use crate::runs;
use crate::status::{Failure, Status};
use hep_tools::tool::text::{dump_named, Source};

pub const COMMAND: Command = Command {
    name: "dump",
    operands: "[FILE]",
    summary: "the text of an image or batch input",
    about: "Writes the text of an image or batch input; `hep asm` makes the same bytes of it. Of a text the names and\n\
            labels are kept.",
    options: &[
        flag("after", "the image after the schedule is run, by the proved library"),
        SCHEDULE,
        OUTPUT,
        INPUT,
        IMAGE,
    ],
    run,
};

fn run(arguments: &Arguments) -> Result<Status, Failure> {
    let file = files::one(arguments, 0)?;
    let text = if arguments.has("after") {
        let loaded = files::load_to_run(file, arguments)?;
        let draft = runs::after(file, &loaded.source)?;
        dump_named(&Source { schedule: None, draft }, &loaded.symbols)
    } else {
        let loaded = files::load(file, arguments)?;
        dump_named(&loaded.source, &loaded.symbols)
    };
    output::answer(arguments, text)?;
    Ok(Status::Done)
}
