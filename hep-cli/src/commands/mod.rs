//! The commands: a file for each, and the table that the command line, the help and the man page's test go by.

mod agree;
mod asm;
mod check;
mod dump;
mod fill;
mod run;
mod share;
mod show;
mod timeline;
mod trace;
mod why;

use crate::arguments::{self, lettered, valued, Arguments, Opt, HELP};
use crate::completion;
use crate::help;
use crate::output;
use crate::status::{Failure, Status};
use hep_tools::tool::text::hint;

/// A command of the program.
pub struct Command {
    pub name: &'static str,
    /// What stands behind the options.
    pub operands: &'static str,
    pub summary: &'static str,
    pub about: &'static str,
    pub options: &'static [Opt],
    pub run: fn(&Arguments) -> Result<Status, Failure>,
}

pub const COMMANDS: [&Command; 11] = [
    &run::COMMAND,
    &check::COMMAND,
    &show::COMMAND,
    &why::COMMAND,
    &agree::COMMAND,
    &asm::COMMAND,
    &dump::COMMAND,
    &trace::COMMAND,
    &share::COMMAND,
    &timeline::COMMAND,
    &fill::COMMAND,
];

/// Where the answer goes.
pub const OUTPUT: Opt =
    lettered('o', valued("output", "FILE", "write there, not to standard output (`-`)"));

fn find(name: &str) -> Option<&'static Command> {
    COMMANDS.into_iter().find(|command| command.name == name)
}

/// Runs the command that the first word names.
pub fn dispatch(mut words: Vec<String>) -> Result<Status, Failure> {
    if words.is_empty() {
        return Err(Failure::usage(format!(
            "a command is missing\n\n{}",
            help::general().trim_end()
        )));
    }
    let rest = words.split_off(1);
    let text = match (words[0].as_str(), rest.first().map(String::as_str)) {
        ("-V" | "--version" | "version", _) => help::version(),
        ("help", Some(name)) => help::of(find(name).ok_or_else(|| unknown(name))?),
        ("-h" | "--help" | "help", _) => help::general(),
        ("--completion", _) => completion::bash(),
        (name, _) => return dispatched(find(name).ok_or_else(|| unknown(name))?, rest),
    };
    output::answer(&Arguments::default(), text)?;
    Ok(Status::Done)
}

fn dispatched(command: &'static Command, rest: Vec<String>) -> Result<Status, Failure> {
    let options: Vec<&Opt> = command.options.iter().chain([&help::OPTION]).collect();
    let arguments = arguments::parse(rest, &options).map_err(|reason| of(command, reason))?;
    if arguments.has(HELP.long) {
        output::answer(&Arguments::default(), help::of(command))?;
        return Ok(Status::Done);
    }
    (command.run)(&arguments)
}

/// Wrong usage of a command.
fn of(command: &Command, reason: String) -> Failure {
    let name = command.name;
    Failure::usage(format!(
        "{reason}\nusage: {}\n`hep {name} --help` says more",
        help::usage(command)
    ))
}

fn unknown(name: &str) -> Failure {
    let hint = hint(name, COMMANDS.iter().map(|command| command.name));
    let meant = ALIKE.iter().find(|(alike, _)| *alike == name);
    let hint = meant.map_or(hint, |(_, command)| format!(" (did you mean `{command}`?)"));
    let names: Vec<&str> = COMMANDS.iter().map(|command| command.name).collect();
    Failure::usage(format!("`{name}` is no command{hint}: {}", names.join(", ")))
}

/// Names that other tools have for a command.
const ALIKE: [(&str, &str); 4] =
    [("disasm", "dump"), ("assemble", "asm"), ("disassemble", "dump"), ("diff", "agree")];
