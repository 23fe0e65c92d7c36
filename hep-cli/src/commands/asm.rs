//! `hep asm`: text to bytes.

use super::{Command, OUTPUT};
use crate::arguments::{flag, Arguments};
use crate::files::{self, IMAGE, INPUT};
use crate::output;
use crate::status::{Failure, Status};
use hep_tools::tool::to_hex;
use std::io::{self, IsTerminal};

pub const COMMAND: Command = Command {
    name: "asm",
    operands: "[FILE]",
    summary: "the bytes that a text describes",
    about: "Writes the bytes that the text describes: an image, or a batch input if it begins with `hep input`.",
    options: &[flag("hex", "write hex digits"), OUTPUT, INPUT, IMAGE],
    run,
};

fn run(arguments: &Arguments) -> Result<Status, Failure> {
    let file = files::one(arguments, 0)?;
    let source = files::load(file, arguments)?.source;
    if let Some(over) = source.over() {
        let cure = "hep run takes the text as it is; for bytes write `hep image` and give hep run a --schedule";
        return Err(Failure::refused(files::name(file), format!("no batch input: {over}; {cure}")));
    }
    let (bytes, hex) = (source.bytes(), arguments.has("hex"));
    if !hex && arguments.value("output").is_none() && io::stdout().is_terminal() {
        return Err(Failure::usage(
            "asm writes bytes, which are not for a terminal: give -o FILE or --hex",
        ));
    }
    output::answer(arguments, if hex { to_hex(&bytes).into_bytes() } else { bytes })?;
    Ok(Status::Done)
}
