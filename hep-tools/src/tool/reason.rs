//! Why an attempt waits or traps, in words: the first check that fails. Neither changes a cell, so the state after it has what it read.

use super::taken::{Cell, Operand, Taken};
use super::text::{self, Symbols};
use crate::emulator::codes::{Low, Role};
use crate::emulator::machine::*;
use crate::emulator::part::Part;
use crate::emulator::psw;

/// A cell that an attempt waits for.
pub struct Unmet {
    pub cell: Cell,
    pub name: String,
    /// Whether it waits until the cell is empty.
    pub empty: bool,
}

/// Where an attempt was made, and the names for it.
#[derive(Clone, Copy)]
pub struct Look<'a> {
    pub machine: &'a Machine,
    pub symbols: &'a Symbols,
    pub taken: &'a Taken,
}

/// Why the attempt was waved or trapped, with the values that it read; nothing if it was neither.
pub fn reason(look: Look, ending: Ending) -> String {
    let said = match ending {
        Ending::Waved => look.waits(),
        Ending::Trapped { kind, .. } => look.trapped(kind),
        Ending::Executed | Ending::Idle => String::new(),
    };
    match look.values().join(", ") {
        values if values.is_empty() || said.is_empty() => said,
        values => format!("{said}; {values}"),
    }
}

impl Look<'_> {
    fn name(&self, operand: &Operand) -> String {
        self.taken.name(self.machine, self.symbols, operand)
    }

    /// What the operands held, and the data word where one is named.
    fn values(&self) -> Vec<String> {
        let operands = self.taken.operands(self.machine);
        let read = operands.iter().filter(|o| o.role == Role::Source || o.access() != 0);
        let value = |operand: &Operand| {
            let cell = operand.cell?;
            let (tag, word) = (self.machine.tags[cell], self.machine.words[cell]);
            let shown = match operand.is_constant() {
                true => text::constant(&(tag, word)),
                false => text::register(&(tag, word)),
            };
            Some(format!("{} = {shown}", self.name(operand)))
        };
        let mut values: Vec<String> = read.filter_map(value).collect();
        values.dedup();
        if let Some(place) = self.data_place() {
            let word = text::data(&self.machine.data_word(place));
            values.push(format!("data {} = {word}", self.taken.address.unwrap_or(0) / 8));
        }
        values
    }

    /// The data word that a load or store names, if it is in the window.
    fn data_place(&self) -> Option<usize> {
        self.machine.data_place(self.taken.task, self.taken.address?)
    }

    /// The operands whose state is unmet, or else the data word.
    pub fn unmet(&self) -> Vec<Unmet> {
        let operands = self.taken.operands(self.machine);
        let unmet = operands.iter().filter_map(|operand| {
            let (cell, access) = (operand.cell?, operand.access());
            let empty = access == 3 || access == 2 && operand.role == Role::Destination;
            let is_empty = self.machine.tags[cell] & EMPTY != 0;
            let waits = access != 0 && empty != is_empty;
            waits.then(|| Unmet { cell: Cell::Register(cell), name: self.name(operand), empty })
        });
        let unmet: Vec<Unmet> = unmet.collect();
        let (true, Some(place)) = (unmet.is_empty(), self.data_place()) else { return unmet };
        let empty = self.taken.operation().is_some_and(|of| of.low == Low::Store);
        let name = format!("data {}", self.taken.address.unwrap_or(0) / 8);
        vec![Unmet { cell: Cell::Data(place), name, empty }]
    }

    /// The names of what it waits for.
    pub fn waited_for(&self) -> String {
        match &self.unmet()[..] {
            [] => "the create fault flag".to_string(),
            unmet => unmet.iter().map(|unmet| &unmet.name[..]).collect::<Vec<_>>().join(" and "),
        }
    }

    /// Whether it waits in the SFU queue: a step for a data word, a try for anything.
    fn in_sfu_queue(&self, unmet: &[Unmet]) -> bool {
        let for_data = unmet.iter().any(|unmet| matches!(unmet.cell, Cell::Data(_)));
        self.taken.attempt == Attempt::Try || for_data
    }

    fn waits(&self) -> String {
        let unmet = self.unmet();
        let place = if self.in_sfu_queue(&unmet) { " in the SFU queue" } else { "" };
        if unmet.is_empty() {
            return format!("waits{place}: the create fault flag is up");
        }
        let state = |empty| if empty { "empty" } else { "full" };
        let unmet = unmet.iter().map(|unmet| format!("{} is {}", unmet.name, state(unmet.empty)));
        format!("waits{place} until {}", unmet.collect::<Vec<_>>().join(" and "))
    }

    fn trapped(&self, kind: u8) -> String {
        let code = self.taken.word.unwrap_or(0) >> 48;
        match (kind, self.taken.word) {
            (_, None) => {
                let size = size(self.machine.rows[usize::from(self.taken.task)].program);
                format!("PC {:05X} is outside the program window ({size} words)", self.taken.pc())
            }
            (PRIVILEGED, _) => format!("code {code:04X} is privileged"),
            (SIMULATED, _) => format!("code {code:04X} is left to software"),
            (SUPERVISOR_CALL, Some(word)) => format!("supervisor call {}", word >> 32 & 0xFFFF),
            (CREATE_FAULT, _) => {
                "this create made the 64th process, so the create fault flag is up".to_string()
            }
            (DATA_EXCEPTION, _) => self.masked(),
            (ILLEGAL, Some(word)) => self.illegal(word),
            _ => self.outside(),
        }
    }

    fn masked(&self) -> String {
        let mask = psw::utm(self.taken.psw);
        let sources = self.taken.operands(self.machine).into_iter();
        let masked = sources.filter(|operand| operand.role == Role::Source).find_map(|operand| {
            let quality = self.machine.tags[operand.cell?] & 7;
            let name = self.name(&operand);
            (mask & 0x80 >> quality != 0)
                .then(|| format!("{name} has quality {quality}, which UTM 0x{mask:02X} masks"))
        });
        masked.unwrap_or_default()
    }

    fn illegal(&self, word: u64) -> String {
        match (self.taken.operation(), self.taken.address) {
            (Some(_), Some(address)) if Part::named(word, address).is_none() => {
                format!("byte address {address} ends in 4, which names no part of data word {}", address / 8)
            }
            _ => format!("0x{word:016X} is no instruction: its code, an access or an unused field is not legal"),
        }
    }

    fn outside(&self) -> String {
        let row = &self.machine.rows[usize::from(self.taken.task)];
        for operand in self.taken.operands(self.machine) {
            let name = self.name(&operand);
            if operand.role == Role::Destination && operand.is_constant() {
                return format!("{name} is a constant and can't be written");
            }
            if operand.cell.is_none() {
                let size = size(row.registers);
                return format!("{name} is outside the register window ({size} registers)");
            }
        }
        let (address, size) = (self.taken.address.unwrap_or(0), size(row.data) / 8);
        let place = address / 8;
        format!("byte address {address} is data word {place}, outside the window ({size} words)")
    }
}

/// How many addresses a window has.
fn size(window: Window) -> u64 {
    (window.limit + 1).saturating_sub(window.base)
}
