//! Images: reading with refusals 1 to 6 and 12 to 14, and writing.

use crate::emulator::draft::{Draft, Process, Task, SFU};
use crate::emulator::machine::*;
use crate::emulator::psw;
use crate::emulator::refusal::*;

/// The trap kinds of an image, `NO_TRAP` among them.
pub const KINDS: [u8; 8] = [
    CREATE_FAULT,
    ILLEGAL,
    PROTECTION,
    PRIVILEGED,
    SUPERVISOR_CALL,
    SIMULATED,
    DATA_EXCEPTION,
    NO_TRAP,
];

/// Appended bits of the windows.
const REGISTER_BITS: u32 = 1;
const PROGRAM_BITS: u32 = 4;
const DATA_BITS: u32 = 8;

/// The most constants, and the most words of program and of data.
pub const MOST_CONSTANTS: usize = 4_096;
pub const MOST_WORDS: usize = 1 << 20;

const ROW_BYTES: usize = 28;

type Refusable<T> = Result<T, Refusal>;

/// A field of an image: where it stands, its bytes, and its greatest value.
struct Field {
    section: Section,
    name: &'static str,
    width: usize,
    most: u64,
    /// The refusal of a value that it may not have.
    number: u8,
}

const fn count(section: Section, width: usize, most: usize) -> Field {
    Field { section, name: "count", width, most: most as u64, number: COUNT }
}

const fn of_task(name: &'static str, width: usize, most: u64) -> Field {
    Field { section: Section::Tasks, name, width, most, number: TASK_FIELD }
}

const fn of_process(name: &'static str, width: usize, most: u64) -> Field {
    Field { section: Section::Processes, name, width, most, number: PROCESS_FIELD }
}

const fn of_constant(name: &'static str, width: usize, most: u64) -> Field {
    Field { section: Section::Constants, name, width, most, number: CONSTANT_FIELD }
}

const fn of_cell(section: Section, name: &'static str, width: usize, most: u64) -> Field {
    Field { section, name, width, most, number: CELL_FIELD }
}

const fn any_word(section: Section) -> Field {
    of_cell(section, "word", 8, u64::MAX)
}

const TASKS: Field = count(Section::Tasks, 1, 7);
const TASK_NUMBER: Field = of_task("task number", 1, 7);
const CB: Field = of_task("CB", 2, 0xFFF);
const RB: Field = of_task("RB", 2, 0x3FF);
const RL: Field = of_task("RL", 2, 0x3FF);
const PB: Field = of_task("PB", 2, 0xFFFF);
const PL: Field = of_task("PL", 2, 0xFFFF);
const DB: Field = of_task("DB", 4, 0xFF_FFFF);
const DL: Field = of_task("DL", 4, 0xFF_FFFF);
const KIND: Field = of_task("trap kind", 1, 0xFF);
const TRAPPED_PSW: Field = of_task("trapped PSW", 8, u64::MAX);
const PROCESS_COUNT: Field = count(Section::Processes, 1, PROCESSES);
const FLAG: Field = of_process("create fault flag", 1, 1);
const PT: Field = of_process("PT", 1, 63);
const PROCESS_TASK: Field = of_process("task", 1, 0xFF);
const PSW: Field = of_process("PSW", 8, u64::MAX);
const CONSTANT_COUNT: Field = count(Section::Constants, 2, MOST_CONSTANTS);
const QUALITY: Field = of_constant("quality", 1, 6);
const CONSTANT: Field = any_word(Section::Constants);
const REGISTER_COUNT: Field = count(Section::Registers, 2, REGISTERS);
const TAG: Field = of_cell(Section::Registers, "tag", 1, 14);
const REGISTER: Field = any_word(Section::Registers);
const PROGRAM_COUNT: Field = count(Section::Program, 4, MOST_WORDS);
const INSTRUCTION: Field = any_word(Section::Program);
const DATA_COUNT: Field = count(Section::Data, 4, MOST_WORDS);
const STATE: Field = of_cell(Section::Data, "state", 1, 1);
const DATA: Field = any_word(Section::Data);

/// An image, read up to a place.
struct Input<'a> {
    bytes: &'a [u8],
    place: usize,
    /// The entry of the section that is read, counted from 1, and of how many.
    entry: Option<(usize, usize)>,
}

impl Input<'_> {
    /// The value of the field that is next, big-endian.
    fn value(&mut self, field: &Field) -> Refusable<u64> {
        let rest = &self.bytes[self.place..];
        let Some(bytes) = rest.get(..field.width) else {
            let wrong = cut(rest.len(), field.width);
            return Err(Refusal { number: SHORT, ..self.refusal(field, self.place, wrong) });
        };
        self.place += field.width;
        let value = bytes.iter().fold(0, |value, &byte| value << 8 | u64::from(byte));
        let over = || format!("is over {}", hex(field.most, field.width));
        self.require(value <= field.most, field, value, over)?;
        Ok(value)
    }

    /// A section's count.
    fn count(&mut self, field: &Field) -> Refusable<usize> {
        self.entry = None;
        Ok(self.value(field)? as usize)
    }

    fn status_word(&mut self, field: &Field) -> Refusable<u64> {
        let value = self.value(field)?;
        let zero = || format!("sets bits of {}, which must be zero", hex(psw::ZERO, 8));
        self.require(value & psw::ZERO == 0, field, value, zero)?;
        Ok(value)
    }

    /// Refuses the value of the field that was just read unless this holds.
    fn require(
        &self,
        holds: bool,
        field: &Field,
        value: u64,
        wrong: impl Fn() -> String,
    ) -> Refusable<()> {
        if holds {
            return Ok(());
        }
        let wrong = format!("{} {}", hex(value, field.width), wrong());
        Err(self.refusal(field, self.place - field.width, wrong))
    }

    fn refusal(&self, field: &Field, place: usize, wrong: String) -> Refusal {
        let Field { section, name, number, .. } = *field;
        Refusal { number, section, entry: self.entry, field: name, place, wrong }
    }
}

/// A value in hex, as it stands in so many bytes.
fn hex(value: u64, width: usize) -> String {
    format!("0x{value:0digits$X}", digits = 2 * width)
}

/// The machine of an image, or why it is refused.
pub fn read(bytes: &[u8]) -> Refusable<Machine> {
    let mut machine = Machine::blank();
    let mut input = Input { bytes, place: 0, entry: None };
    tasks(&mut machine, &mut input)?;
    let clash = processes(&mut machine, &mut input)?;
    constants(&mut machine, &mut input)?;
    registers(&mut machine, &mut input)?;
    program(&mut machine, &mut input)?;
    data(&mut machine, &mut input)?;
    let late = left_over(&input).or_else(|| window_past_memory(&machine)).or(clash);
    late.map_or(Ok(machine), Err)
}

fn tasks(machine: &mut Machine, input: &mut Input) -> Refusable<()> {
    let count = input.count(&TASKS)?;
    let mut last = 0;
    for i in 0..count {
        input.entry = Some((i + 1, count));
        let number = input.value(&TASK_NUMBER)?;
        let ascends = || format!("must be over {}", hex(last, 1));
        input.require(number > last, &TASK_NUMBER, number, ascends)?;
        last = number;
        row(&mut machine.rows[number as usize], input)?;
    }
    Ok(())
}

fn row(row: &mut Row, input: &mut Input) -> Refusable<()> {
    row.listed = true;
    row.constant_base = (input.value(&CB)? << 1) as u32;
    row.registers = Window::new(input.value(&RB)?, input.value(&RL)?, REGISTER_BITS);
    row.program = Window::new(input.value(&PB)?, input.value(&PL)?, PROGRAM_BITS);
    row.data = Window::new(input.value(&DB)?, input.value(&DL)?, DATA_BITS);
    let kind = input.value(&KIND)?;
    row.kind = kind as u8;
    let kinds = || format!("is none of{}", KINDS.map(|kind| format!(" 0x{kind:02X}")).concat());
    input.require(KINDS.contains(&row.kind), &KIND, kind, kinds)?;
    row.trapped = input.status_word(&TRAPPED_PSW)?;
    let zero = row.kind != NO_TRAP || row.trapped == 0;
    let beside = || "must be zero beside trap kind 0xFF".to_string();
    input.require(zero, &TRAPPED_PSW, row.trapped, beside)
}

/// Gives the refusal of processes that clash.
fn processes(machine: &mut Machine, input: &mut Input) -> Refusable<Option<Refusal>> {
    let count = input.count(&PROCESS_COUNT)?;
    machine.flag = input.value(&FLAG)? == 1;
    let flag_place = input.place - FLAG.width;
    let mut last = Process::new(0, 0, 0);
    let mut twice = Ok(());
    for i in 0..count {
        input.entry = Some((i + 1, count));
        let pt = input.value(&PT)?;
        let used = machine.used >> pt & 1 != 0;
        twice = twice.and(input.require(!used, &PT, pt, || "stands twice".to_string()));
        last = process_task(machine, input, last)?;
        machine.psws[pt as usize] = input.status_word(&PSW)?;
        let queue = if last.sfu { Attempt::Try } else { Attempt::Step };
        machine.join(usize::from(last.task), queue, pt as usize);
    }
    let crowd = (!machine.flag && machine.used == u64::MAX).then(|| {
        let wrong = format!("0x00 must be 0x01 beside {PROCESSES} processes");
        Refusal { entry: None, ..input.refusal(&FLAG, flag_place, wrong) }
    });
    Ok(twice.err().or(crowd).map(|clash| Refusal { number: PROCESS, ..clash }))
}

/// The task and queue of a process, where those of the process before it are `last`'s.
fn process_task(machine: &Machine, input: &mut Input, last: Process) -> Refusable<Process> {
    let byte = input.value(&PROCESS_TASK)?;
    let task = byte as u8 & !SFU;
    let tasks = || "is neither 0x01 to 0x07 nor 0x11 to 0x17".to_string();
    input.require((1..8).contains(&task), &PROCESS_TASK, byte, tasks)?;
    let unlisted = || "is not listed in the task section".to_string();
    let listed = machine.rows[usize::from(task)].listed;
    input.require(listed, &PROCESS_TASK, byte, unlisted)?;
    let process = Process { task, sfu: byte as u8 != task, ..last };
    let before = || format!("belongs before 0x{:02X} of the process before it", last.task_byte());
    let ascends = (last.task, last.sfu) <= (process.task, process.sfu);
    input.require(ascends, &PROCESS_TASK, byte, before)?;
    Ok(process)
}

fn constants(machine: &mut Machine, input: &mut Input) -> Refusable<()> {
    let count = input.count(&CONSTANT_COUNT)?;
    machine.constant_count = count;
    for i in 0..count {
        input.entry = Some((i + 1, count));
        machine.tags[REGISTERS + i] = input.value(&QUALITY)? as u8;
        machine.words[REGISTERS + i] = input.value(&CONSTANT)?;
    }
    Ok(())
}

fn registers(machine: &mut Machine, input: &mut Input) -> Refusable<()> {
    let count = input.count(&REGISTER_COUNT)?;
    machine.register_count = count;
    for i in 0..count {
        input.entry = Some((i + 1, count));
        let tag = input.value(&TAG)?;
        let tags = || "is neither 0x00 to 0x06 nor 0x08 to 0x0E".to_string();
        input.require(tag != 7, &TAG, tag, tags)?;
        machine.tags[i] = tag as u8;
        machine.words[i] = input.value(&REGISTER)?;
    }
    Ok(())
}

fn program(machine: &mut Machine, input: &mut Input) -> Refusable<()> {
    let count = input.count(&PROGRAM_COUNT)?;
    for i in 0..count {
        input.entry = Some((i + 1, count));
        machine.program.push(input.value(&INSTRUCTION)?);
    }
    Ok(())
}

fn data(machine: &mut Machine, input: &mut Input) -> Refusable<()> {
    let count = input.count(&DATA_COUNT)?;
    for i in 0..count {
        input.entry = Some((i + 1, count));
        machine.full.push(input.value(&STATE)? as u8);
        machine.data.push(input.value(&DATA)?);
    }
    Ok(())
}

/// The refusal of bytes behind the last section.
fn left_over(input: &Input) -> Option<Refusal> {
    let more = input.bytes.len() - input.place;
    (more > 0).then(|| Refusal {
        number: LEFT_OVER,
        section: Section::Data,
        entry: None,
        field: "the end",
        place: input.place,
        wrong: format!("has more bytes behind it: {more}"),
    })
}

/// The refusal of the first window that ends past its memory, at its limit.
fn window_past_memory(machine: &Machine) -> Option<Refusal> {
    let sizes = [machine.register_count, machine.program.len(), machine.data.len()];
    let rows: Vec<Task> = machine.tasks().map(|task| drafted_task(machine, task)).collect();
    let past = |(i, task)| past_its_memory(task, sizes).map(|name| (i, task, name));
    let (i, task, name): (usize, &Task, _) = rows.iter().enumerate().find_map(past)?;
    let (field, distance, limit) = match name {
        "register" => (&RL, 5, u64::from(task.rl)),
        "program" => (&PL, 9, u64::from(task.pl)),
        _ => (&DL, 15, u64::from(task.dl)),
    };
    Some(Refusal {
        number: WINDOW,
        section: Section::Tasks,
        entry: Some((i + 1, rows.len())),
        field: field.name,
        place: 1 + ROW_BYTES * i + distance,
        wrong: format!("{} ends the {name} window past its memory", hex(limit, field.width)),
    })
}

/// The name of a task's first window that ends past its memory, if there is one; the memories are of so many cells.
pub fn past_its_memory(
    task: &Task,
    [registers, program, data]: [usize; 3],
) -> Option<&'static str> {
    let fits = |base: u32, limit: u32, appended, size: usize| {
        Window::new(u64::from(base), u64::from(limit), appended).fits(size as u64)
    };
    let Task { rb, rl, pb, pl, db, dl, .. } = *task;
    if !fits(rb.into(), rl.into(), REGISTER_BITS, registers) {
        return Some("register");
    }
    if !fits(pb.into(), pl.into(), PROGRAM_BITS, program) {
        return Some("program");
    }
    (!fits(db, dl, DATA_BITS, data * 8)).then_some("data")
}

/// The image of a machine.
pub fn write(machine: &Machine) -> Vec<u8> {
    draft(machine).bytes()
}

/// The fields of a machine's image.
pub fn draft(machine: &Machine) -> Draft {
    let cells = || machine.tags.iter().copied().zip(machine.words.iter().copied());
    let data = machine.full.iter().copied().zip(machine.data.iter().copied());
    Draft {
        tasks: machine.tasks().map(|task| drafted_task(machine, task)).collect(),
        processes: machine.tasks().flat_map(|task| drafted_processes(machine, task)).collect(),
        flag: u8::from(machine.flag),
        constants: cells().skip(REGISTERS).take(machine.constant_count).collect(),
        registers: cells().take(machine.register_count).collect(),
        program: machine.program.clone(),
        data: data.collect(),
    }
}

fn drafted_task(machine: &Machine, number: u8) -> Task {
    let row = &machine.rows[usize::from(number)];
    Task {
        number,
        cb: (row.constant_base >> 1) as u16,
        rb: (row.registers.base >> REGISTER_BITS) as u16,
        rl: (row.registers.limit >> REGISTER_BITS) as u16,
        pb: (row.program.base >> PROGRAM_BITS) as u16,
        pl: (row.program.limit >> PROGRAM_BITS) as u16,
        db: (row.data.base >> DATA_BITS) as u32,
        dl: (row.data.limit >> DATA_BITS) as u32,
        kind: row.kind,
        trapped: row.trapped,
    }
}

/// The processes of a task's own queue, then those of its SFU queue.
fn drafted_processes(machine: &Machine, task: u8) -> Vec<Process> {
    let own = machine.processes(task).into_iter().map(|process| (process, false));
    let waiting = machine.sfu_processes(task).into_iter().map(|process| (process, true));
    own.chain(waiting).map(|((pt, psw), sfu)| Process { pt, task, sfu, psw }).collect()
}
