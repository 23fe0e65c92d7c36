//! A draft of an image: the fields as they stand, valid or not.

#[derive(Clone, Copy, PartialEq, Eq, Debug)]
pub struct Task {
    pub number: u8,
    pub cb: u16,
    pub rb: u16,
    pub rl: u16,
    pub pb: u16,
    pub pl: u16,
    pub db: u32,
    pub dl: u32,
    pub kind: u8,
    pub trapped: u64,
}

impl Task {
    /// A task with empty windows and no trap.
    pub fn empty(number: u8) -> Self {
        Task { number, cb: 0, rb: 1, rl: 0, pb: 1, pl: 0, db: 1, dl: 0, kind: 0xFF, trapped: 0 }
    }
}

/// What the task byte of a process in an SFU queue has added.
pub const SFU: u8 = 0x10;

#[derive(Clone, Copy, PartialEq, Eq, Debug)]
pub struct Process {
    pub pt: u8,
    pub task: u8,
    /// Whether it is in its task's SFU queue.
    pub sfu: bool,
    pub psw: u64,
}

impl Process {
    /// A process in its task's own queue.
    pub fn new(pt: u8, task: u8, psw: u64) -> Self {
        Process { pt, task, sfu: false, psw }
    }

    /// The byte of its task and queue in an image.
    pub fn task_byte(&self) -> u8 {
        if self.sfu {
            self.task.wrapping_add(SFU)
        } else {
            self.task
        }
    }
}

/// Constants, registers and data are pairs of quality, tag or state, and word.
#[derive(Clone, PartialEq, Eq, Debug, Default)]
pub struct Draft {
    pub tasks: Vec<Task>,
    pub processes: Vec<Process>,
    pub flag: u8,
    pub constants: Vec<(u8, u64)>,
    pub registers: Vec<(u8, u64)>,
    pub program: Vec<u64>,
    pub data: Vec<(u8, u64)>,
}

impl Draft {
    /// The image's bytes.
    pub fn bytes(&self) -> Vec<u8> {
        let mut out = vec![self.tasks.len() as u8];
        self.tasks.iter().for_each(|task| put_task(&mut out, task));
        out.extend([self.processes.len() as u8, self.flag]);
        for process in &self.processes {
            out.extend([process.pt, process.task_byte()]);
            put(&mut out, 8, process.psw);
        }
        put_tagged(&mut out, 2, &self.constants);
        put_tagged(&mut out, 2, &self.registers);
        put(&mut out, 4, self.program.len() as u64);
        self.program.iter().for_each(|&word| put(&mut out, 8, word));
        put_tagged(&mut out, 4, &self.data);
        out
    }
}

/// Appends the low `width` bytes of a value, big-endian.
fn put(out: &mut Vec<u8>, width: usize, value: u64) {
    out.extend_from_slice(&value.to_be_bytes()[8 - width..]);
}

fn put_task(out: &mut Vec<u8>, task: &Task) {
    out.push(task.number);
    for field in [task.cb, task.rb, task.rl, task.pb, task.pl] {
        put(out, 2, u64::from(field));
    }
    put(out, 4, u64::from(task.db));
    put(out, 4, u64::from(task.dl));
    out.push(task.kind);
    put(out, 8, task.trapped);
}

fn put_tagged(out: &mut Vec<u8>, width: usize, cells: &[(u8, u64)]) {
    put(out, width, cells.len() as u64);
    for &(tag, word) in cells {
        out.push(tag);
        put(out, 8, word);
    }
}

/// The batch program's input for a schedule and an image.
pub fn batch_input(schedule: &[u8], image: &[u8]) -> Vec<u8> {
    let mut out = Vec::new();
    put(&mut out, 2, schedule.len() as u64);
    out.extend_from_slice(schedule);
    out.extend_from_slice(image);
    out
}
