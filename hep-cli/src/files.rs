//! Files to images and schedules: text, hex digits or bytes, each accepted by the proved library too.

use crate::arguments::{flag, valued, Arguments, Opt};
use crate::closed;
use crate::status::Failure;
use hep_tools::tool::load::{self, Loaded, Reading, Trouble};
use hep_tools::tool::text::assemble;
use std::fs::{self, File, Metadata};
use std::io::{self, IsTerminal, Read};
use std::os::fd::AsFd;
use std::os::unix::fs::MetadataExt;
use std::sync::Mutex;

pub const INPUT: Opt = flag("input", "bytes and hex digits are a batch input");
pub const IMAGE: Opt = flag("image", "bytes and hex digits are an image");
pub const SCHEDULE: Opt = valued(
    "schedule",
    "ITEMS",
    "run these items, as `1 2 * 300` or `1 * 20, 2 * 5`, not the file's own",
);

/// The name of standard input in messages.
const STANDARD: &str = "<stdin>";

/// A file on the disk whatever its name is: its device and its inode, which hard links have in common.
type Identity = (u64, u64);

/// The files that were read: none of them is written over.
static READ: Mutex<Vec<Identity>> = Mutex::new(Vec::new());

/// Of a pipe or a device there is none.
fn identity(file: io::Result<Metadata>) -> Option<Identity> {
    file.ok().filter(Metadata::is_file).map(|file| (file.dev(), file.ino()))
}

/// The identity of a file that is to be read; `-` is standard input.
fn identity_read(file: &str) -> Option<Identity> {
    match file {
        "-" => identity(standard().and_then(|input| input.metadata())),
        _ => identity(fs::metadata(file)),
    }
}

/// Whether what is to be written is a file that was read, or one of those that will be.
pub fn is_read(written: &str, to_read: &[String]) -> bool {
    let Some(written) = identity(fs::metadata(written)) else { return false };
    let was_read = READ.lock().is_ok_and(|read| read.contains(&written));
    was_read || to_read.iter().any(|file| identity_read(file) == Some(written))
}

/// What a file is called in messages.
pub fn name(file: &str) -> &str {
    match file {
        "-" => STANDARD,
        file => file,
    }
}

/// The one file of a command, standard input if there is none; `before` words of the command line stand before it.
pub fn one(arguments: &Arguments, before: usize) -> Result<&str, Failure> {
    match &arguments.files[before.min(arguments.files.len())..] {
        [] if io::stdin().is_terminal() => {
            Err(Failure::usage("a file is missing; `-` is standard input"))
        }
        [] => Ok("-"),
        [file] => Ok(file),
        [_, more, ..] => Err(Failure::usage(format!("one file is taken, so what is `{more}`?"))),
    }
}

pub fn read(file: &str) -> Result<Vec<u8>, Failure> {
    if file == "-" && closed::input() {
        return Err(Failure::broken("standard input", "it is closed"));
    }
    let read = match file {
        "-" => read_standard(),
        _ => fs::read(file),
    };
    if let (Some(identity), Ok(mut read)) = (identity_read(file), READ.lock()) {
        read.push(identity);
    }
    let name = if file == "-" { "standard input" } else { file };
    read.map_err(|error| Failure::broken(name, error))
}

/// Standard input through a descriptor of its own: the library's handle takes one that can't be read for an empty file.
fn standard() -> io::Result<File> {
    Ok(File::from(io::stdin().as_fd().try_clone_to_owned()?))
}

fn read_standard() -> io::Result<Vec<u8>> {
    let mut bytes = Vec::new();
    standard()?.read_to_end(&mut bytes)?;
    Ok(bytes)
}

/// What bytes are to be read as.
pub fn reading(arguments: &Arguments) -> Result<Option<Reading>, Failure> {
    match (arguments.has("input"), arguments.has("image")) {
        (true, true) => Err(Failure::usage("--input and --image exclude each other")),
        (true, false) => Ok(Some(Reading::Input)),
        (false, true) => Ok(Some(Reading::Image)),
        (false, false) => Ok(None),
    }
}

/// The image of a file, by both readers: hep-tools' for the words, the proved one for the answer.
pub fn open(file: &str, arguments: &Arguments) -> Result<Result<Loaded, Trouble>, Failure> {
    let loaded = load::open(&read(file)?, reading(arguments)?);
    let (said, proved) = match &loaded {
        Ok(loaded) => {
            (0, hep::check(&loaded.source.draft.bytes()).map_or_else(|r| r.number(), |()| 0))
        }
        Err(Trouble::Bytes { bytes, readings }) => {
            (readings[0].1.number.into(), proved_number(bytes, readings[0].0))
        }
        Err(_) => return Ok(loaded),
    };
    if said != proved {
        let reason =
            format!("hep-tools answers {said}, the proved library {proved} (0 is accepted)");
        return Err(Failure::differs(name(file), reason));
    }
    Ok(loaded)
}

/// The number by which the proved library refuses bytes.
fn proved_number(bytes: &[u8], reading: Reading) -> u32 {
    match reading {
        Reading::Image => hep::check(bytes).map_or_else(|refusal| refusal.number(), |()| 0),
        Reading::Input => {
            let line = hep::batch(bytes);
            line.trim_end().strip_prefix('R').and_then(|number| number.parse().ok()).unwrap_or(0)
        }
    }
}

/// The image of an accepted file, with the schedule of `--schedule` where that is given.
pub fn load(file: &str, arguments: &Arguments) -> Result<Loaded, Failure> {
    let loaded =
        open(file, arguments)?.map_err(|trouble| Failure::trouble(name(file), &trouble))?;
    scheduled(loaded, arguments)
}

/// With the schedule of `--schedule` where that is given.
pub fn scheduled(mut loaded: Loaded, arguments: &Arguments) -> Result<Loaded, Failure> {
    if let Some(items) = arguments.value("schedule") {
        loaded.source.schedule = Some(schedule(items)?);
    }
    Ok(loaded)
}

/// The same of a file that is to be run.
pub fn load_to_run(file: &str, arguments: &Arguments) -> Result<Loaded, Failure> {
    let loaded = load(file, arguments)?;
    if loaded.source.schedule.is_none() {
        let reason = "an image alone has no schedule: give one, as --schedule '1 2 * 300'";
        return Err(Failure::broken(name(file), reason));
    }
    Ok(loaded)
}

/// The items of `--schedule`: lines of a schedule in the text, a comma for a line's end.
fn schedule(items: &str) -> Result<Vec<u8>, Failure> {
    let text = format!("hep input\nschedule\n{}\n", items.replace(',', "\n"));
    let source = assemble(&text).map_err(|errors| {
        Failure::usage(format!(
            "--schedule needs items 1 to 7, as `1 2 * 300`: {}",
            errors[0].reason
        ))
    })?;
    Ok(source.schedule.unwrap_or_default())
}

/// A task's number among the words of the command line.
pub fn task(arguments: &Arguments) -> Result<u8, Failure> {
    let Some(word) = arguments.files.first() else {
        return Err(Failure::usage("the task's number is missing"));
    };
    match word.parse() {
        Ok(task @ 1..=7) => Ok(task),
        _ => Err(Failure::usage(format!("a task is a number from 1 to 7, not `{word}`"))),
    }
}
