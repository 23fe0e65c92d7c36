//! The machine's state in flat arrays, and runs over a schedule.

use std::fmt;
use std::iter::Sum;

/// Trap kinds; `NO_TRAP` stands in a row that isn't trapped.
pub const CREATE_FAULT: u8 = 0x00;
pub const ILLEGAL: u8 = 0x12;
pub const PROTECTION: u8 = 0x14;
pub const PRIVILEGED: u8 = 0x16;
pub const SUPERVISOR_CALL: u8 = 0x1A;
pub const SIMULATED: u8 = 0x1C;
pub const DATA_EXCEPTION: u8 = 0x1E;
pub const NO_TRAP: u8 = 0xFF;

/// Tag bit of an empty register.
pub const EMPTY: u8 = 8;

/// Cells: the registers, then every real address of constant memory, whose tag is its quality.
pub const REGISTERS: usize = 2_048;
pub const CONSTANTS: usize = 8_192;
const CELLS: usize = REGISTERS + CONSTANTS;

pub const PROCESSES: usize = 64;

/// How an attempt or an item ended.
#[derive(Clone, Copy, PartialEq, Eq, Debug)]
pub enum Ending {
    Executed,
    Waved,
    Trapped { kind: u8, psw: u64 },
    Idle,
}

/// What an item attempts: a try of the SFU queue's head, a step of the own queue's head.
#[derive(Clone, Copy, PartialEq, Eq, Debug)]
pub enum Attempt {
    Try,
    Step,
}

/// How an item ended, and how its try did if it made one.
#[derive(Clone, Copy, PartialEq, Eq, Debug)]
pub struct Item {
    pub tried: Option<Ending>,
    pub ending: Ending,
}

/// How many items ended each way, and how many tries they made.
#[derive(Clone, Copy, PartialEq, Eq, Debug, Default)]
pub struct Counts {
    pub executed: u64,
    pub waved: u64,
    pub trapped: u64,
    pub idle: u64,
    pub tries: u64,
}

impl Counts {
    /// One item more.
    #[inline(always)]
    fn add_item(&mut self, Item { tried, ending }: Item) {
        self.tries += u64::from(tried.is_some());
        match ending {
            Ending::Executed => self.executed += 1,
            Ending::Waved => self.waved += 1,
            Ending::Trapped { .. } => self.trapped += 1,
            Ending::Idle => self.idle += 1,
        }
    }
}

impl Sum for Counts {
    fn sum<I: Iterator<Item = Counts>>(all: I) -> Counts {
        all.fold(Counts::default(), |sum, counts| Counts {
            executed: sum.executed + counts.executed,
            waved: sum.waved + counts.waved,
            trapped: sum.trapped + counts.trapped,
            idle: sum.idle + counts.idle,
            tries: sum.tries + counts.tries,
        })
    }
}

/// As a report has them.
impl fmt::Display for Counts {
    fn fmt(&self, f: &mut fmt::Formatter) -> fmt::Result {
        let Counts { executed, waved, trapped, idle, tries } = self;
        write!(f, "E{executed} W{waved} T{trapped} I{idle} S{tries}")
    }
}

/// The counts of each task number, listed or not; place 0 is unused.
pub type OwnCounts = [Counts; 8];

/// What a run counted.
#[derive(Clone, Copy, PartialEq, Eq, Debug, Default)]
pub struct RunCounts {
    /// Of all items.
    pub counts: Counts,
    pub own: OwnCounts,
}

impl RunCounts {
    /// Of the items of this task number.
    pub fn own(&self, task: u8) -> Counts {
        self.own[usize::from(task)]
    }
}

/// Base and limit as real addresses.
#[derive(Clone, Copy, Default)]
pub(crate) struct Window {
    pub base: u64,
    pub limit: u64,
}

impl Window {
    /// Appends zeros to the base field and ones to the limit field.
    pub fn new(base: u64, limit: u64, appended: u32) -> Self {
        let ones = (1 << appended) - 1;
        Window { base: base << appended, limit: limit << appended | ones }
    }

    /// The real address, if the window has it.
    #[inline(always)]
    pub fn real(&self, effective: u64) -> Option<u64> {
        let real = self.base + effective;
        (real <= self.limit).then_some(real)
    }

    /// Whether the window is empty or ends within a memory of `size` addresses.
    pub fn fits(&self, size: u64) -> bool {
        self.base > self.limit || self.limit < size
    }
}

/// A ring of process numbers.
#[derive(Clone, Copy)]
pub(crate) struct Queue {
    head: u8,
    length: u8,
    ring: [u8; PROCESSES],
}

impl Queue {
    const EMPTY: Queue = Queue { head: 0, length: 0, ring: [0; PROCESSES] };

    #[inline(always)]
    pub fn is_empty(&self) -> bool {
        self.length == 0
    }

    #[inline(always)]
    pub fn head(&self) -> usize {
        usize::from(self.ring[usize::from(self.head & 63)])
    }

    #[inline(always)]
    pub fn push(&mut self, pt: usize) {
        let tail = self.head.wrapping_add(self.length) & 63;
        self.ring[usize::from(tail)] = pt as u8;
        self.length += 1;
    }

    #[inline(always)]
    pub fn pop(&mut self) {
        self.head = self.head.wrapping_add(1) & 63;
        self.length -= 1;
    }

    /// Head to tail.
    #[inline(always)]
    pub fn rotate(&mut self) {
        let tail = self.head.wrapping_add(self.length) & 63;
        self.ring[usize::from(tail)] = self.head() as u8;
        self.head = self.head.wrapping_add(1) & 63;
    }

    /// The process numbers from head to tail.
    fn numbers(&self) -> impl Iterator<Item = u8> + '_ {
        let place = |i| usize::from(self.head.wrapping_add(i) & 63);
        (0..self.length).map(move |i| self.ring[place(i)])
    }
}

/// A task: windows, trap record, live count, and its two queues. A row is found by a shift.
#[derive(Clone, Copy)]
#[repr(align(256))]
pub(crate) struct Row {
    pub listed: bool,
    pub kind: u8,
    /// Processes in both queues.
    pub live: u8,
    pub trapped: u64,
    pub constant_base: u32,
    pub registers: Window,
    pub program: Window,
    pub data: Window,
    /// The task's own queue.
    pub queue: Queue,
    /// The queue of the storage function unit.
    pub sfu: Queue,
}

impl Row {
    const UNLISTED: Row = Row {
        listed: false,
        kind: NO_TRAP,
        live: 0,
        trapped: 0,
        constant_base: 0,
        registers: Window { base: 0, limit: 0 },
        program: Window { base: 0, limit: 0 },
        data: Window { base: 0, limit: 0 },
        queue: Queue::EMPTY,
        sfu: Queue::EMPTY,
    };

    /// The queue whose head this attempt takes.
    #[inline(always)]
    pub fn attempted(&mut self, attempt: Attempt) -> &mut Queue {
        match attempt {
            Attempt::Try => &mut self.sfu,
            Attempt::Step => &mut self.queue,
        }
    }

    /// The head that this attempt took goes to the tail of the task's own queue.
    #[inline(always)]
    pub fn head_to_own_tail(&mut self, attempt: Attempt) {
        match attempt {
            Attempt::Try => {
                self.queue.push(self.sfu.head());
                self.sfu.pop();
            }
            Attempt::Step => self.queue.rotate(),
        }
    }

    /// The head that this attempt took goes to the tail of the SFU queue.
    #[inline(always)]
    pub fn head_to_sfu_tail(&mut self, attempt: Attempt) {
        match attempt {
            Attempt::Try => self.sfu.rotate(),
            Attempt::Step => {
                self.sfu.push(self.queue.head());
                self.queue.pop();
            }
        }
    }
}

/// The whole state. Rows stand at their task numbers; row 0 is never listed.
#[derive(Clone)]
pub struct Machine {
    pub(crate) rows: [Row; 8],
    pub(crate) psws: [u64; PROCESSES],
    /// Bit n is up while process number n is in use.
    pub(crate) used: u64,
    /// The live counts of all tasks added up; like these it has no place in an image.
    pub(crate) live_total: u8,
    pub(crate) flag: bool,
    pub(crate) words: Box<[u64; CELLS]>,
    pub(crate) tags: Box<[u8; CELLS]>,
    pub(crate) register_count: usize,
    pub(crate) constant_count: usize,
    pub(crate) program: Vec<u64>,
    pub(crate) data: Vec<u64>,
    pub(crate) full: Vec<u8>,
}

impl Machine {
    pub(crate) fn blank() -> Self {
        Machine {
            rows: [Row::UNLISTED; 8],
            psws: [0; PROCESSES],
            used: 0,
            live_total: 0,
            flag: false,
            words: Box::new([0; CELLS]),
            tags: Box::new([0; CELLS]),
            register_count: 0,
            constant_count: 0,
            program: Vec::new(),
            data: Vec::new(),
            full: Vec::new(),
        }
    }

    /// Takes the items, numbers from 1 to 7, in turn and counts their endings and tries.
    pub fn run(&mut self, schedule: &[u8]) -> RunCounts {
        let mut own = OwnCounts::default();
        for &task in schedule {
            own[usize::from(task)].add_item(self.item(task));
        }
        RunCounts { counts: own.into_iter().sum(), own }
    }

    /// A process joins at the tail of one of a task's queues.
    #[inline(always)]
    pub(crate) fn join(&mut self, task: usize, attempted: Attempt, pt: usize) {
        let row = &mut self.rows[task];
        row.attempted(attempted).push(pt);
        row.live += 1;
        self.used |= 1 << pt;
        self.live_total += 1;
    }

    /// The head that this attempt took, of this process number, leaves.
    #[inline(always)]
    pub(crate) fn leave(&mut self, task: usize, attempt: Attempt, pt: usize) {
        let row = &mut self.rows[task];
        row.attempted(attempt).pop();
        row.live -= 1;
        self.used &= !(1 << pt);
        self.live_total -= 1;
    }

    /// The listed task numbers, ascending.
    pub fn tasks(&self) -> impl Iterator<Item = u8> + '_ {
        (1..8).filter(|&task| self.rows[usize::from(task)].listed)
    }

    /// A task's live processes, as stored; 0 if it is unlisted.
    pub fn live_count(&self, task: u8) -> u8 {
        self.rows[usize::from(task)].live
    }

    /// The live processes of all tasks, as stored.
    pub fn live_total(&self) -> u8 {
        self.live_total
    }

    /// Process numbers and status words of a task's own queue, from head to tail.
    pub fn processes(&self, task: u8) -> Vec<(u8, u64)> {
        self.with_status(&self.rows[usize::from(task)].queue)
    }

    /// Process numbers and status words of a task's SFU queue, from head to tail.
    pub fn sfu_processes(&self, task: u8) -> Vec<(u8, u64)> {
        self.with_status(&self.rows[usize::from(task)].sfu)
    }

    fn with_status(&self, queue: &Queue) -> Vec<(u8, u64)> {
        queue.numbers().map(|pt| (pt, self.psws[usize::from(pt)])).collect()
    }

    /// A task's trap record: kind and status word.
    pub fn trap_record(&self, task: u8) -> Option<(u8, u64)> {
        let row = &self.rows[usize::from(task)];
        (row.kind != NO_TRAP).then_some((row.kind, row.trapped))
    }

    /// Tag and word of a real register.
    pub fn register(&self, real: usize) -> (u8, u64) {
        (self.tags[..self.register_count][real], self.words[real])
    }

    /// State (1 full) and word of a real data word.
    pub fn data_word(&self, real: usize) -> (u8, u64) {
        (self.full[real], self.data[real])
    }

    /// The instruction at a task's PC, if its program window has that.
    pub fn instruction(&self, task: u8, pc: u64) -> Option<u64> {
        let real = self.rows[usize::from(task)].program.real(pc)?;
        Some(self.program[real as usize])
    }

    /// The place of a task's data word from its byte address.
    pub fn data_place(&self, task: u8, address: u64) -> Option<usize> {
        let real = self.rows[usize::from(task)].data.real(address)?;
        Some(real as usize / 8)
    }

    pub fn create_fault(&self) -> bool {
        self.flag
    }
}

#[cfg(test)]
mod tests {
    use super::*;
    use crate::emulator::batch;
    use crate::generate;

    /// Live counts and total as stored.
    fn stored(machine: &Machine) -> ([u8; 8], u8) {
        let counts = std::array::from_fn(|task| machine.live_count(task as u8));
        (counts, machine.live_total())
    }

    /// Live counts and total by walking the queues, which have each process number in use once.
    fn counted(machine: &Machine) -> ([u8; 8], u8) {
        let mut in_use = machine.used;
        let counts = machine.rows.each_ref().map(|row| {
            let in_both = row.queue.numbers().chain(row.sfu.numbers());
            in_both.fold(0, |count, pt| {
                let found = in_use >> pt & 1;
                in_use &= !(1 << pt);
                count + found as u8
            })
        });
        assert_eq!(in_use, 0, "process numbers in use that stand in no queue");
        (counts, counts.iter().sum())
    }

    #[test]
    fn stored_live_counts_are_the_counted_ones() {
        let (mut faults, mut quits) = (0, 0);
        for n in 0..3_000 {
            let input = generate::input(18, n);
            let Ok((schedule, mut machine)) = batch::accepted(&input) else { continue };
            assert_eq!(stored(&machine), counted(&machine), "input {n}, loaded");
            for (item, &task) in schedule.iter().enumerate() {
                let in_use = machine.used;
                let Item { ending, .. } = machine.item(task);
                assert_eq!(stored(&machine), counted(&machine), "input {n}, behind item {item}");
                faults += usize::from(matches!(ending, Ending::Trapped { kind: CREATE_FAULT, .. }));
                quits += usize::from(in_use & !machine.used != 0);
            }
        }
        assert!(faults > 20 && quits > 300, "{faults} faults, {quits} quits");
    }
}
