//! How the program ends: its exit status, and failures with the words for standard error.

use hep_tools::tool::load::Trouble;
use std::fmt::Display;

/// The exit status; of several files the greatest counts.
#[derive(Clone, Copy, PartialEq, Eq, PartialOrd, Ord, Debug)]
#[repr(u8)]
pub enum Status {
    /// All ran.
    Done = 0,
    /// A file is refused, or the isolation promise does not cover a task.
    Refused = 1,
    /// Wrong usage, or something can't be read or written.
    Broken = 2,
    /// The proved library and the other emulator differ.
    Differs = 3,
}

impl Status {
    /// What a file came to, in a line of several.
    pub fn word(self) -> &'static str {
        match self {
            Status::Done => "accepted",
            Status::Refused => "refused",
            Status::Broken => "failed",
            Status::Differs => "differs",
        }
    }
}

/// A failure: the status, whole lines of words, and the refusal's number if it has one.
#[derive(Clone, Debug)]
pub struct Failure {
    pub status: Status,
    pub words: String,
    pub number: Option<u8>,
}

impl Failure {
    pub fn usage(reason: impl Display) -> Self {
        let words = format!("hep: {reason}\n");
        Failure { status: Status::Broken, words, number: None }
    }

    /// What can't be read or written.
    pub fn broken(name: &str, reason: impl Display) -> Self {
        Failure::usage(format!("{name}: {reason}"))
    }

    pub fn refused(name: &str, reason: impl Display) -> Self {
        let words = format!("{name}: {reason}\n");
        Failure { status: Status::Refused, words, number: None }
    }

    pub fn trouble(name: &str, trouble: &Trouble) -> Self {
        Failure { status: Status::Refused, words: trouble.told(name), number: trouble.number() }
    }

    pub fn differs(name: &str, reason: impl Display) -> Self {
        let words = format!("{name}: {reason}\n");
        Failure { status: Status::Differs, words, number: None }
    }

    /// The reader of standard output has gone, which is no failure.
    pub fn reader_gone() -> Self {
        Failure { status: Status::Done, words: String::new(), number: None }
    }
}
