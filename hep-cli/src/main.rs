//! `hep`: images and batch inputs run by the proved library, checked, shown and explained.
//!
//! - `arguments`: the command line, options in GNU's forms
//! - `commands`: one file for each command, and their table
//! - `completion`: a script for bash, from that table too
//! - `help`: the texts of `--help` and `--version`, from that table
//! - `files`: files to images and schedules
//! - `runs`: runs by the proved library, with the other emulator beside them where that is asked for
//! - `output`: standard output, standard error and files written
//! - `closed`: whether a standard stream was closed when the program began
//! - `status`: exit status, and failures with their words

mod arguments;
mod closed;
mod commands;
mod completion;
mod files;
mod help;
mod output;
mod runs;
mod status;

use std::env;
use std::process::ExitCode;
use std::thread;

/// What the work takes at most, `hep_batch` of the library among it, whatever the main thread is given.
const STACK: usize = 4 << 20;

fn main() -> ExitCode {
    let worker = thread::Builder::new().stack_size(STACK).spawn(work);
    let status = match worker.map(|worker| worker.join()) {
        Ok(Ok(status)) => status,
        Ok(Err(_)) => status::Status::Broken,
        Err(error) => told(status::Failure::broken("a thread", error)),
    };
    ExitCode::from(status as u8)
}

fn work() -> status::Status {
    let words = env::args_os().skip(1).map(|word| word.into_string());
    let done = match words.collect() {
        Ok(words) => commands::dispatch(words),
        Err(word) => Err(status::Failure::usage(format!("{word:?} is not UTF-8"))),
    };
    done.unwrap_or_else(told)
}

fn told(failure: status::Failure) -> status::Status {
    output::tell(&failure.words);
    failure.status
}
