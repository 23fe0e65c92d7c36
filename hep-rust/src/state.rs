//! What an accepted image holds: rows, processes and memories, taken from its bytes after the proved library has accepted them.

use crate::{check, Outcome, Refusal};

/// The tag of an empty register is its quality and this.
const EMPTY: u8 = 8;
/// The trap kind of a row that is not trapped.
const NO_TRAP: u8 = 0xFF;
/// The task byte of a process in an SFU queue is its task number and this.
const SFU: u8 = 0x10;

/// A register, data word or constant. A data word has quality 0, and a constant is full.
#[derive(Clone, Copy, Debug, PartialEq, Eq)]
#[non_exhaustive]
pub struct Cell {
    pub full: bool,
    pub quality: u8,
    pub word: u64,
}

/// A trap record.
#[derive(Clone, Copy, Debug, PartialEq, Eq)]
#[non_exhaustive]
pub struct Trap {
    pub kind: u8,
    pub psw: u64,
}

/// A row: the fields of document 01, without the appended bits.
#[derive(Clone, Copy, Debug, PartialEq, Eq)]
#[non_exhaustive]
pub struct Task {
    pub number: u8,
    pub cb: u16,
    pub rb: u16,
    pub rl: u16,
    pub pb: u16,
    pub pl: u16,
    pub db: u32,
    pub dl: u32,
    pub trap: Option<Trap>,
}

/// A process, in the order of the image: by task, of each the task's queue, then its SFU queue, from head to tail.
#[derive(Clone, Copy, Debug, PartialEq, Eq)]
#[non_exhaustive]
pub struct Process {
    pub pt: u8,
    /// The task's number.
    pub task: u8,
    /// Whether it is in the SFU queue of its task, waiting for a data word.
    pub sfu: bool,
    pub psw: u64,
}

/// What an image holds; memories count from real address 0.
///
/// ```
/// let outcome = hep::run(&hep::example_image(), &[1])?;
/// let state = outcome.state();
/// assert_eq!(state.task(1).unwrap().trap.unwrap().kind, 0x14);
/// assert!(state.registers_of(1).is_empty());
/// # Ok::<(), hep::Refusal>(())
/// ```
#[derive(Clone, Debug, PartialEq, Eq)]
#[non_exhaustive]
pub struct State {
    pub tasks: Vec<Task>,
    pub create_fault: bool,
    pub processes: Vec<Process>,
    pub constants: Vec<Cell>,
    pub registers: Vec<Cell>,
    pub program: Vec<u64>,
    pub data: Vec<Cell>,
}

/// Bytes, read from the left.
struct Bytes<'a>(&'a [u8]);

impl Bytes<'_> {
    /// The value of so many bytes, big-endian.
    fn take(&mut self, width: usize) -> u64 {
        let (value, rest) = self.0.split_at(width);
        self.0 = rest;
        value.iter().fold(0, |value, &byte| value << 8 | u64::from(byte))
    }

    /// As many entries as a count of this width says.
    fn list<T>(&mut self, width: usize, mut entry: impl FnMut(&mut Self) -> T) -> Vec<T> {
        (0..self.take(width)).map(|_| entry(self)).collect()
    }

    fn task(&mut self) -> Task {
        let number = self.take(1) as u8;
        let [cb, rb, rl, pb, pl] = [(); 5].map(|()| self.take(2) as u16);
        let [db, dl] = [(); 2].map(|()| self.take(4) as u32);
        let (kind, psw) = (self.take(1) as u8, self.take(8));
        let trap = (kind != NO_TRAP).then_some(Trap { kind, psw });
        Task { number, cb, rb, rl, pb, pl, db, dl, trap }
    }

    fn process(&mut self) -> Process {
        let (pt, task) = (self.take(1) as u8, self.take(1) as u8);
        Process { pt, task: task & !SFU, sfu: task & SFU != 0, psw: self.take(8) }
    }

    /// A constant or register from its tag and word.
    fn tagged(&mut self) -> Cell {
        let tag = self.take(1) as u8;
        Cell { full: tag & EMPTY == 0, quality: tag & !EMPTY, word: self.take(8) }
    }
}

impl State {
    /// The state of an image, if it is accepted.
    pub fn of(image: &[u8]) -> Result<State, Refusal> {
        check(image)?;
        let mut bytes = Bytes(image);
        let tasks = bytes.list(1, Bytes::task);
        let (count, flag) = (bytes.take(1), bytes.take(1));
        Ok(State {
            tasks,
            create_fault: flag != 0,
            processes: (0..count).map(|_| bytes.process()).collect(),
            constants: bytes.list(2, Bytes::tagged),
            registers: bytes.list(2, Bytes::tagged),
            program: bytes.list(4, |bytes| bytes.take(8)),
            data: bytes.list(4, |bytes| {
                let full = bytes.take(1) != 0;
                Cell { full, quality: 0, word: bytes.take(8) }
            }),
        })
    }

    /// The row of a task, if it is listed.
    pub fn task(&self, number: u8) -> Option<&Task> {
        self.tasks.iter().find(|task| task.number == number)
    }

    /// The registers in a task's window; none if it is not listed.
    pub fn registers_of(&self, number: u8) -> &[Cell] {
        self.task(number).map_or(&[], |t| window(&self.registers, t.rb.into(), t.rl.into(), 2))
    }

    /// The data words in a task's window; none if it is not listed.
    pub fn data_of(&self, number: u8) -> &[Cell] {
        self.task(number).map_or(&[], |t| window(&self.data, t.db, t.dl, 32))
    }

    /// The program words in a task's window; none if it is not listed.
    pub fn program_of(&self, number: u8) -> &[u64] {
        self.task(number).map_or(&[], |t| window(&self.program, t.pb.into(), t.pl.into(), 16))
    }

    /// The live processes of a task: those of its queue, then those of its SFU queue (`sfu`), each from head to tail.
    pub fn processes_of(&self, number: u8) -> impl Iterator<Item = &Process> {
        self.processes.iter().filter(move |process| process.task == number)
    }
}

/// A window of so many cells a unit; it lies in its memory, or is empty.
fn window<T>(memory: &[T], base: u32, limit: u32, unit: usize) -> &[T] {
    if base > limit {
        return &[];
    }
    &memory[base as usize * unit..(limit as usize + 1) * unit]
}

impl Outcome {
    /// What the image after the run holds.
    pub fn state(&self) -> State {
        State::of(&self.image).expect("the library writes images that it accepts")
    }
}
