//! The attempts of a schedule's items as lines, tries and steps: what each took, what it wrote, or why it waited or trapped.

use super::reason::{reason, Look};
use super::taken::{item, live, place, psw_shown, writes_data, Taken};
use super::text::{self, Symbols};
use crate::emulator::codes::Role;
use crate::emulator::machine::{Attempt, Ending, Machine, CREATE_FAULT};
use crate::emulator::part::Part;
use crate::emulator::psw;

/// Which lines are shown; all attempts are made.
#[derive(Clone, Debug)]
pub struct Filter {
    pub task: Option<u8>,
    /// The first and the last item.
    pub from: usize,
    pub to: usize,
    /// The endings, by their names; none for all.
    pub only: Vec<String>,
}

impl Default for Filter {
    fn default() -> Self {
        Filter { task: None, from: 0, to: usize::MAX, only: Vec::new() }
    }
}

/// The endings that a filter names.
pub const ENDINGS: [&str; 4] = ["executed", "waved", "trapped", "idle"];

impl Filter {
    fn shows(&self, item: usize, task: u8, ending: Ending) -> bool {
        (self.from..=self.to).contains(&item)
            && self.task.is_none_or(|only| only == task)
            && (self.only.is_empty() || self.only.iter().any(|only| only == name(ending)))
    }
}

/// The ending's name.
pub fn name(ending: Ending) -> &'static str {
    match ending {
        Ending::Executed => ENDINGS[0],
        Ending::Waved => ENDINGS[1],
        Ending::Trapped { .. } => ENDINGS[2],
        Ending::Idle => ENDINGS[3],
    }
}

/// The attempt's name.
fn attempt_name(attempt: Attempt) -> &'static str {
    match attempt {
        Attempt::Try => "try",
        Attempt::Step => "step",
    }
}

/// The lines of a run, one for each attempt that the filter shows, or for an idle item.
pub fn lines<'a>(
    machine: &'a mut Machine,
    schedule: &'a [u8],
    symbols: &'a Symbols,
    filter: &'a Filter,
) -> impl Iterator<Item = String> + 'a {
    let width = schedule.len().to_string().len().max(4);
    let heading = format!(
        "{:>width$} task attempt PT PC    {}{:<32} {:<10} what it wrote, or why it waits or traps",
        "item",
        column(symbols, "place"),
        "instruction",
        "ending"
    );
    let items = schedule.iter().enumerate().flat_map(move |(number, &task)| {
        let mut lines = Vec::new();
        let mut add = |line: String, ending: Ending| {
            if filter.shows(number, task, ending) {
                lines.push(format!("{number:width$} {task:4} {line}").trim_end().to_string());
            }
        };
        let after = |machine: &Machine, before: Before, ending: Ending| {
            add(before.line(machine, symbols, ending), ending);
        };
        if let Ending::Idle = item(machine, task, Before::new, after) {
            let line = format!("{:<7} -- ----- {}{:<32} idle", "-", column(symbols, ""), "-");
            add(line, Ending::Idle);
        }
        lines
    });
    std::iter::once(heading).chain(items)
}

/// The column of places, which is there if the text has labels.
fn column(symbols: &Symbols, place: &str) -> String {
    match symbols.has_labels() {
        true => format!("{place:<16} "),
        false => String::new(),
    }
}

/// What is seen before an attempt.
struct Before {
    taken: Taken,
    /// The task's process numbers.
    numbers: Vec<u8>,
}

impl Before {
    fn new(machine: &Machine, taken: Taken) -> Self {
        let numbers = live(machine, taken.task).into_iter().map(|(pt, _)| pt).collect();
        Before { taken, numbers }
    }

    /// The attempt's line from its name on, seen after it.
    fn line(&self, machine: &Machine, symbols: &Symbols, ending: Ending) -> String {
        let taken = &self.taken;
        let (task, pt, pc) = (taken.task, taken.pt, taken.pc());
        let said = match ending {
            Ending::Executed | Ending::Idle => self.wrote(machine, symbols).join(", "),
            Ending::Waved | Ending::Trapped { .. } => {
                let mut said = vec![reason(Look { machine, symbols, taken }, ending)];
                if let Ending::Trapped { kind: CREATE_FAULT, .. } = ending {
                    said.extend(self.wrote(machine, symbols));
                }
                said.join(", ")
            }
        };
        let attempt = attempt_name(taken.attempt);
        let place = column(symbols, &place(machine, symbols, task, pc).unwrap_or_default());
        let instruction = taken.instruction(machine, symbols);
        let ending = shown(ending);
        format!("{attempt:<7} {pt:2} {pc:05X} {place}{instruction:<32} {ending:<10} {said}")
    }

    /// The writes of an executed attempt, sources first.
    fn wrote(&self, machine: &Machine, symbols: &Symbols) -> Vec<String> {
        let taken = &self.taken;
        let mut out = Vec::new();
        let operands = taken.operands(machine);
        for operand in operands.iter().filter(|o| o.role == Role::Source && o.access() == 2) {
            out.push(format!("{} set empty", taken.name(machine, symbols, operand)));
        }
        for operand in operands.iter().filter(|operand| operand.role == Role::Destination) {
            let cell = operand.cell.map(|cell| text::register(&machine.register(cell)));
            let name = taken.name(machine, symbols, operand);
            out.push(format!("{name} = {}", cell.unwrap_or_default()));
        }
        out.extend(data_write(machine, taken));
        out.extend(self.joined(machine, symbols, taken.task));
        out.extend(next(machine, symbols, taken));
        out
    }

    /// The process that a create has added.
    fn joined(&self, machine: &Machine, symbols: &Symbols, task: u8) -> Option<String> {
        let now = live(machine, task);
        let (pt, psw) = now.into_iter().find(|(pt, _)| !self.numbers.contains(pt))?;
        Some(format!("PT {pt} joins at {}", psw_shown(machine, symbols, task, psw)))
    }
}

fn shown(ending: Ending) -> String {
    match ending {
        Ending::Trapped { kind, .. } => format!("{} {kind:02X}", name(ending)),
        _ => name(ending).to_string(),
    }
}

/// A store, or a load that sets empty: the word then, and which part of it was named.
fn data_write(machine: &Machine, taken: &Taken) -> Option<String> {
    let word = taken.word?;
    if !writes_data(taken.operation()?, word) {
        return None;
    }
    let address = taken.address?;
    let cell = machine.data_word(machine.data_place(taken.task, address)?);
    let part = Part::named(word, address).map(show_part).unwrap_or_default();
    Some(format!("data {} = {}{part}", address / 8, text::data(&cell)))
}

/// A part behind its word; nothing if it is the whole of it.
fn show_part(Part { width, place }: Part) -> String {
    match width {
        8 => format!(" (byte {place})"),
        16 => format!(" (quarter {place})"),
        32 => format!(" (half {place})"),
        _ => String::new(),
    }
}

/// The process's status word, if the attempt didn't just add 1 to PC.
fn next(machine: &Machine, symbols: &Symbols, taken: &Taken) -> Option<String> {
    match live(machine, taken.task).into_iter().find(|(pt, _)| *pt == taken.pt) {
        None => Some(format!("PT {} leaves", taken.pt)),
        Some((_, psw)) if psw == psw::next(taken.psw) => None,
        Some((_, psw)) => Some(format!("goes to {}", psw_shown(machine, symbols, taken.task, psw))),
    }
}
