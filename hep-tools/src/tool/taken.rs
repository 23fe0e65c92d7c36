//! What an attempt of an item takes, a try or a step, seen before it is made: process, instruction, data address.

use super::text::{self, psw_fields, Symbols};
use crate::emulator::codes::{listed, Low, Operation, Role};
use crate::emulator::machine::{Attempt, Ending, Machine};
use crate::emulator::psw;

/// A cell that an attempt may wait for or change, at its real address.
#[derive(Clone, Copy, PartialEq, Eq, Hash, Debug)]
pub enum Cell {
    Register(usize),
    Data(usize),
}

/// What an attempt takes.
#[derive(Clone, Copy, Debug)]
pub struct Taken {
    pub attempt: Attempt,
    pub task: u8,
    pub pt: u8,
    pub psw: u64,
    /// The instruction, unless PC is outside the program window.
    pub word: Option<u64>,
    /// The byte address of a load or store.
    pub address: Option<u64>,
}

/// An operand of an instruction.
pub struct Operand {
    /// Which of the three fields.
    pub place: usize,
    pub field: u16,
    pub role: Role,
    /// The cell in the machine's arrays, if it lies in its window.
    pub cell: Option<usize>,
}

/// The queue that an attempt goes by, from head to tail: PTs and status words.
pub fn queue(machine: &Machine, task: u8, attempt: Attempt) -> Vec<(u8, u64)> {
    match attempt {
        Attempt::Step => machine.processes(task),
        Attempt::Try => machine.sfu_processes(task),
    }
}

/// A task's live processes: those of its queue, then those of its SFU queue.
pub fn live(machine: &Machine, task: u8) -> Vec<(u8, u64)> {
    [queue(machine, task, Attempt::Step), queue(machine, task, Attempt::Try)].concat()
}

/// Makes an item. Of each of its attempts `before` sees what it takes, and `after` what `before` made of it and the ending.
pub fn item<T>(
    machine: &mut Machine,
    task: u8,
    mut before: impl FnMut(&Machine, Taken) -> T,
    mut after: impl FnMut(&Machine, T, Ending),
) -> Ending {
    let mut ending = Ending::Idle;
    for &attempt in machine.attempts(task) {
        let Some(taken) = Taken::head(machine, task, attempt) else { break };
        let seen = before(machine, taken);
        ending = machine.attempt(task, attempt);
        after(machine, seen, ending);
        if let Ending::Trapped { .. } = ending {
            break;
        }
    }
    ending
}

impl Operand {
    pub fn is_constant(&self) -> bool {
        self.field & 0x4000 != 0
    }

    pub fn access(&self) -> u16 {
        if self.is_constant() {
            0
        } else {
            self.field >> 11 & 3
        }
    }
}

impl Taken {
    /// What an attempt takes now: the head of the task's queue, or of its SFU queue, if there is one.
    pub fn head(machine: &Machine, task: u8, attempt: Attempt) -> Option<Taken> {
        let &(pt, psw) = queue(machine, task, attempt).first()?;
        Some(Taken::of(machine, attempt, task, pt, psw))
    }

    /// What an attempt takes of a process in this state.
    pub fn of(machine: &Machine, attempt: Attempt, task: u8, pt: u8, psw: u64) -> Taken {
        let word = machine.instruction(task, psw::pc(psw));
        let address = word.and_then(|word| machine.data_address(task, psw, word));
        Taken { attempt, task, pt, psw, word, address }
    }

    pub fn pc(&self) -> u64 {
        psw::pc(self.psw)
    }

    /// The operation, if check 2 passes.
    pub fn operation(&self) -> Option<&'static Operation> {
        self.word.and_then(listed)
    }

    /// The instruction as the text writes it, or as a dump does.
    pub fn instruction(&self, machine: &Machine, symbols: &Symbols) -> String {
        let written = real(machine, self.task, self.pc()).and_then(|real| symbols.written(real));
        match (written, self.word) {
            (Some(text), _) => text.to_string(),
            (None, Some(word)) => text::show(word),
            (None, None) => "-".to_string(),
        }
    }

    /// The operands in the order of the fields: destination and sources.
    pub fn operands(&self, machine: &Machine) -> Vec<Operand> {
        let (Some(word), Some(of)) = (self.word, self.operation()) else { return Vec::new() };
        let used = (0..3).filter(|i| matches!(of.fields[*i], Role::Source | Role::Destination));
        let operand = |i: usize| Operand {
            place: i,
            field: (word >> (32 - 16 * i)) as u16,
            role: of.fields[i],
            cell: machine.operand_cell(self.task, self.psw, word, i),
        };
        used.map(operand).collect()
    }

    /// An operand's cell with its index added, behind its name in the text if it has one there.
    pub fn name(&self, machine: &Machine, symbols: &Symbols, operand: &Operand) -> String {
        let index = match (operand.field & 0x8000 != 0, operand.is_constant()) {
            (false, _) => 0,
            (true, false) => psw::ri(self.psw),
            (true, true) => psw::ci(self.psw),
        };
        let (letter, mask) = if operand.is_constant() { ('c', 0x1FFF) } else { ('r', 0x7FF) };
        let cell = format!("{letter}{}", u64::from(operand.field & mask) + index);
        match self.written_name(machine, symbols, operand) {
            Some(name) => format!("{name} ({cell})"),
            None => cell,
        }
    }

    fn written_name<'a>(
        &self,
        machine: &Machine,
        symbols: &'a Symbols,
        of: &Operand,
    ) -> Option<&'a str> {
        let text = symbols.written(real(machine, self.task, self.pc())?)?;
        let order = self.operation()?.order;
        let nth = order.iter().position(|place| *place == of.place)?;
        let (_, operands) = text.split_once(' ')?;
        // A list of actions in brackets has commas of its own; it stands behind the first operand.
        let operand = match (nth, operands.split_once(')')) {
            (1, Some((_, rest))) => rest.trim_start_matches([',', ' ']),
            _ => operands.split(',').nth(nth)?,
        };
        let end = operand.trim().find(|c: char| !c.is_ascii_alphanumeric() && c != '_');
        let word = &operand.trim()[..end.unwrap_or(operand.trim().len())];
        (!text::is_plain_operand(word)).then_some(word)
    }

    /// The cells that the attempt changes if it is executed.
    pub fn changes(&self, machine: &Machine) -> Vec<Cell> {
        let (Some(word), Some(of)) = (self.word, self.operation()) else { return Vec::new() };
        let operands = self.operands(machine).into_iter();
        let changed = operands.filter(|o| o.role == Role::Destination || o.access() == 2);
        let mut cells: Vec<Cell> = changed.filter_map(|o| o.cell.map(Cell::Register)).collect();
        if writes_data(of, word) {
            let place = self.address.and_then(|address| machine.data_place(self.task, address));
            cells.extend(place.map(Cell::Data));
        }
        cells
    }
}

/// Whether an executed attempt changes its data word: a store, or a load that sets it empty.
pub fn writes_data(of: &Operation, word: u64) -> bool {
    of.low == Low::Store || of.low == Low::Load && word >> 50 & 3 == 2
}

/// The real address of a task's PC, if its program window has it.
pub fn real(machine: &Machine, task: u8, pc: u64) -> Option<usize> {
    machine.rows[usize::from(task)].program.real(pc).map(|real| real as usize)
}

/// A task's PC as a label and the distance from there, if the text has one.
pub fn place(machine: &Machine, symbols: &Symbols, task: u8, pc: u64) -> Option<String> {
    let base = machine.rows[usize::from(task)].program.base as usize;
    symbols.place(base, real(machine, task, pc)?)
}

/// The fields of a status word, and behind PC its place in the text.
pub fn psw_shown(machine: &Machine, symbols: &Symbols, task: u8, psw: u64) -> String {
    match place(machine, symbols, task, psw::pc(psw)) {
        Some(place) => format!("{} ({place})", psw_fields(psw)),
        None => psw_fields(psw),
    }
}
