//! The texts of `--help` and `--version`, made of the table of commands.

use crate::arguments::{lettered, Opt, HELP};
use crate::commands::{Command, COMMANDS};

/// The repository's version: 0.N.0, where N is the last request in a row that has landed.
const VERSION: &str = include_str!("../../VERSION");

/// The requests that have landed before their turn.
const BEFORE_THEIR_TURN: &[u32] = &[13];

/// The logic that the archive was proved in; empty if it was built without proof.
const LOGIC: &str = env!("HEP_LOGIC");

/// The option that every command has.
pub const OPTION: Opt = lettered('h', HELP);

pub fn version() -> String {
    let version = VERSION.trim();
    let last = version.split('.').nth(1).unwrap_or("0");
    let logic = match LOGIC {
        "" => "its library built WITHOUT proof".to_string(),
        logic => format!("its library proved in logic {logic}"),
    };
    let others: String = BEFORE_THEIR_TURN.iter().map(|n| format!(" and L{n}")).collect();
    format!("hep {version}, requests L1 to L{last}{others}, {logic}\n")
}

pub fn general() -> String {
    let commands = COMMANDS.iter().map(|c| format!("  {:<10} {}\n", c.name, c.summary));
    format!(
        "Images and batch inputs of the HEP emulator: run by the proved library, checked, shown, explained.\n\n\
         usage: hep COMMAND [OPTION..] FILE..\n\n{}\n\
         FILE is text (hep-tools/FORMAT.md), hex digits or bytes of an image or batch input; `-` is standard input.\n\
         `hep COMMAND --help` says more of a command, `hep --version` what was proved, `hep --completion` is for bash.\n\n\
         Exit status: 0 all ran; 1 a file is refused, or a task is not covered; 2 wrong usage, or something\n\
         can't be read or written; 3 the proved library and the emulator of hep-tools differ.\n",
        commands.collect::<String>()
    )
}

/// `hep COMMAND [OPTION..] FILE`.
pub fn usage(command: &Command) -> String {
    let options = command.options.iter().map(|option| match (option.short, option.value) {
        (Some(letter), Some(value)) => format!(" [-{letter} {value}]"),
        (_, Some(value)) => format!(" [--{} {value}]", option.long),
        (_, None) => format!(" [--{}]", option.long),
    });
    format!("hep {}{} {}", command.name, options.collect::<String>(), command.operands)
}

pub fn of(command: &Command) -> String {
    let options = command.options.iter().chain([&OPTION]).map(|option| {
        let letter = option.short.map_or("    ".to_string(), |letter| format!("-{letter}, "));
        let value = option.value.map_or(String::new(), |value| format!("={value}"));
        format!("  {letter}{:<22} {}\n", format!("--{}{value}", option.long), option.help)
    });
    let options: String = options.collect();
    format!("usage: {}\n\n{}\n\n{options}", usage(command), command.about)
}
