//! A task's share of a machine: what isolation compares.

use crate::emulator::draft::{Draft, Task};
use crate::emulator::machine::NO_TRAP;
use crate::emulator::psw;
use crate::tool::text;
use std::fmt;
use std::ops::{Range, RangeInclusive};

/// Trap record, status words of both queues from head to tail, and the cells of the windows.
#[derive(Clone, PartialEq, Eq, Debug)]
pub struct Share {
    pub kind: u8,
    pub trapped: u64,
    pub processes: Vec<u64>,
    /// The SFU queue.
    pub sfu: Vec<u64>,
    pub registers: Vec<(u8, u64)>,
    pub data: Vec<(u8, u64)>,
}

/// Cells a unit of base and limit.
pub const REGISTER_UNIT: usize = 2;
pub const PROGRAM_UNIT: usize = 16;
pub const DATA_UNIT: usize = 32;

/// The real addresses of a window of this many addresses a unit.
fn addresses(base: u32, limit: u32, unit: usize) -> Range<usize> {
    let base = base as usize * unit;
    base..((limit as usize + 1) * unit).max(base)
}

/// Real addresses of a task's registers.
pub fn registers(task: &Task) -> Range<usize> {
    addresses(task.rb.into(), task.rl.into(), REGISTER_UNIT)
}

/// Real addresses of a task's program words.
pub fn program(task: &Task) -> Range<usize> {
    addresses(task.pb.into(), task.pl.into(), PROGRAM_UNIT)
}

/// Real addresses of a task's data words.
pub fn data(task: &Task) -> Range<usize> {
    addresses(task.db, task.dl, DATA_UNIT)
}

/// The cells of an accepted image at these real addresses.
fn cells<T: Clone>(memory: &[T], addresses: Range<usize>) -> Vec<T> {
    if addresses.is_empty() {
        return Vec::new();
    }
    memory[addresses].to_vec()
}

/// The share of a listed task in an accepted image.
pub fn share(draft: &Draft, number: u8) -> Option<Share> {
    let task = draft.tasks.iter().find(|task| task.number == number)?;
    let queue = |sfu: bool| {
        let own = draft.processes.iter().filter(|process| process.task == number);
        own.filter(|process| process.sfu == sfu).map(|process| process.psw).collect()
    };
    Some(Share {
        kind: task.kind,
        trapped: task.trapped,
        processes: queue(false),
        sfu: queue(true),
        registers: cells(&draft.registers, registers(task)),
        data: cells(&draft.data, data(task)),
    })
}

/// The instructions in a listed task's program window.
pub fn instructions(draft: &Draft, task: &Task) -> Vec<u64> {
    cells(&draft.program, program(task))
}

impl Share {
    /// The share as text, each cell at its place in the window; `place` gives a PC's place in the text that it comes from.
    pub fn show(&self, place: impl Fn(u64) -> Option<String>) -> String {
        let psw_shown = |word: u64| {
            let place = place(psw::pc(word)).map_or(String::new(), |place| format!(" ({place})"));
            format!("{}{place}", text::psw_fields(word))
        };
        let mut out = match self.kind {
            NO_TRAP => "trap none\n".to_string(),
            kind => format!("trap {kind:02X} {}\n", psw_shown(self.trapped)),
        };
        for &psw in &self.processes {
            out += &format!("process {}\n", psw_shown(psw));
        }
        for &psw in &self.sfu {
            out += &format!("process sfu {}\n", psw_shown(psw));
        }
        for (place, register) in self.registers.iter().enumerate() {
            out += &format!("r{place} {}\n", text::register(register));
        }
        for (place, cell) in self.data.iter().enumerate() {
            out += &format!("data {place} {}\n", text::data(cell));
        }
        out
    }
}

/// Some of a window's cells in decimal: place, value, state.
pub fn cells_shown(
    cells: &[(u8, u64)],
    places: &RangeInclusive<usize>,
    name: &str,
    is_empty: impl Fn(u8) -> bool,
) -> Result<String, String> {
    let Some(shown) = cells.get(places.clone()) else {
        return Err(format!("the window has {} {name}, counted from 0", cells.len()));
    };
    let line = |(place, &(tag, word)): (usize, &(u8, u64))| {
        format!("{place} {} {}\n", word as i64, if is_empty(tag) { "empty" } else { "full" })
    };
    Ok(places.clone().zip(shown).map(line).collect())
}

/// A window of a task that meets another task's.
pub struct Meeting {
    pub memory: &'static str,
    pub other: u8,
    /// The real addresses of both.
    pub shared: Range<usize>,
}

impl fmt::Display for Meeting {
    fn fmt(&self, f: &mut fmt::Formatter) -> fmt::Result {
        let Meeting { memory, other, shared } = self;
        write!(f, "meet task {other}'s in {memory} {} to {}", shared.start, shared.end - 1)
    }
}

/// The register and data windows of a task that meet another's.
pub fn meetings(draft: &Draft, number: u8) -> Vec<Meeting> {
    let own = draft.tasks.iter().filter(|task| task.number == number);
    let pairs = own.flat_map(|task| draft.tasks.iter().map(move |other| (task, other)));
    let met = pairs.filter(|(_, other)| other.number != number).flat_map(|(task, other)| {
        let windows = [
            ("registers", registers(task), registers(other)),
            ("data words", data(task), data(other)),
        ];
        windows.map(|(memory, a, b)| {
            let shared = a.start.max(b.start)..a.end.min(b.end);
            (!shared.is_empty()).then_some(Meeting { memory, other: other.number, shared })
        })
    });
    met.flatten().collect()
}

/// A window as the real addresses that it has.
pub fn window_shown(window: Range<usize>) -> String {
    if window.is_empty() {
        return "empty".to_string();
    }
    format!("{}..{}", window.start, window.end - 1)
}

/// The three windows of a row.
pub fn windows_of(task: &Task) -> [Range<usize>; 3] {
    [registers(task), program(task), data(task)]
}
