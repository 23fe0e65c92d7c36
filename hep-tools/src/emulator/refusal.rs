//! Refusals: their numbers, and where and why a field is refused.

use std::fmt;

pub const SHORT: u8 = 1;
pub const COUNT: u8 = 2;
pub const TASK_FIELD: u8 = 3;
pub const LEFT_OVER: u8 = 4;
pub const WINDOW: u8 = 5;
pub const PROCESS: u8 = 6;
pub const BAD_ITEM: u8 = 10;
pub const TOO_LONG: u8 = 11;
pub const PROCESS_FIELD: u8 = 12;
pub const CELL_FIELD: u8 = 13;
pub const CONSTANT_FIELD: u8 = 14;

/// The sections of an image, the schedule before it, and the batch input of both.
#[derive(Clone, Copy, PartialEq, Eq, Debug)]
pub enum Section {
    Input,
    Schedule,
    Tasks,
    Processes,
    Constants,
    Registers,
    Program,
    Data,
}

impl Section {
    /// Its name, and that of one of its entries.
    fn names(self) -> (&'static str, &'static str) {
        match self {
            Section::Input => ("batch input", "byte"),
            Section::Schedule => ("schedule", "item"),
            Section::Tasks => ("task section", "row"),
            Section::Processes => ("process section", "process"),
            Section::Constants => ("constant section", "constant"),
            Section::Registers => ("register section", "register"),
            Section::Program => ("program section", "word"),
            Section::Data => ("data section", "word"),
        }
    }
}

/// Why bytes are refused.
#[derive(Clone, PartialEq, Eq, Debug)]
pub struct Refusal {
    pub number: u8,
    pub section: Section,
    /// Which of the section's entries, counted from 1, and of how many; none for what stands once.
    pub entry: Option<(usize, usize)>,
    pub field: &'static str,
    /// The field's first byte, counted from 0.
    pub place: usize,
    /// What the field is and should be.
    pub wrong: String,
}

/// The number and the words, without the place.
impl fmt::Display for Refusal {
    fn fmt(&self, f: &mut fmt::Formatter) -> fmt::Result {
        let (section, entry) = self.section.names();
        write!(f, "R{}: {section}", self.number)?;
        if let Some((which, count)) = self.entry {
            write!(f, ", {entry} {which} of {count}")?;
        }
        write!(f, ": {} {}", self.field, self.wrong)
    }
}

/// What is wrong with a field that has only so many of its bytes.
pub fn cut(there: usize, width: usize) -> String {
    format!("is not whole: the bytes end after {there} of {width}")
}
