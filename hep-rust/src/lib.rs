//! Safe calls of the proved emulator of a HEP process execution module: whole images in, whole images out; and of the search for jobs that
//! fill a module.
//!
//! What `crates/hep_c` promises is proved; this crate is not. It makes the buffers, lends them, and cuts the results to their lengths;
//! `State` takes an image's bytes apart.
//!
//! ```
//! let image = hep::example_image();
//! let outcome = hep::run(&image, &[1]).unwrap();
//! assert_eq!(outcome.counts.trapped, 1);
//! assert_eq!(outcome.own(1).trapped, 1);
//! assert_eq!(outcome.report, "1 1 14 00000 E0 W0 T1 I0 S0\nE0 W0 T1 I0 S0 CF0\n");
//! assert_eq!(hep::check(&outcome.image), Ok(()));
//! assert_eq!(hep::run(&image, &[8]).unwrap_err().number(), 10);
//! ```

mod state;
pub mod sys;

pub use state::{Cell, Process, State, Task, Trap};
use std::{error, fmt};

/// Why a call is refused. Each has a number of document 01.
#[derive(Clone, Copy, Debug, PartialEq, Eq)]
#[repr(u32)]
pub enum Refusal {
    /// The image ends before its last section is whole.
    InputEnds = sys::INPUT_ENDS,
    /// A count is over its limit.
    CountOverLimit = sys::COUNT_OVER_LIMIT,
    /// A field of the task section is out of its range: of a row.
    TaskField = sys::TASK_FIELD,
    /// A field of the process section is out of its range: the flag, or of a process.
    ProcessField = sys::PROCESS_FIELD,
    /// A quality of a constant is out of its range.
    ConstantField = sys::CONSTANT_FIELD,
    /// A tag of a register or a state of a data word is out of its range.
    CellField = sys::CELL_FIELD,
    /// Bytes stand after the last section.
    BytesLeftOver = sys::BYTES_LEFT_OVER,
    /// A window that isn't empty ends past its memory.
    WindowPastMemory = sys::WINDOW_PAST_MEMORY,
    /// A process number stands twice, or 64 processes with flag 0.
    ProcessesClash = sys::PROCESSES_CLASH,
    /// A schedule of over 65,535 items.
    ListTooLong = sys::LIST_TOO_LONG,
    /// An item of the schedule is not 1 to 7.
    ItemOutOfRange = sys::ITEM_OUT_OF_RANGE,
    /// More than 15 jobs, or a need that is odd, below 2 or above 2,048.
    BadJobs = sys::BAD_JOBS,
    /// Zero tries.
    NoTries = sys::NO_TRIES,
}

impl Refusal {
    /// The number of document 01.
    pub fn number(self) -> u32 {
        self as u32
    }

    /// What the number means.
    pub fn words(self) -> &'static str {
        match self {
            Refusal::InputEnds => "the image ends before its last section is whole",
            Refusal::CountOverLimit => "a count is over its limit",
            Refusal::TaskField => "a field of the task section is out of its range",
            Refusal::ProcessField => "a field of the process section is out of its range",
            Refusal::ConstantField => "a quality of a constant is out of its range",
            Refusal::CellField => {
                "a tag of a register or a state of a data word is out of its range"
            }
            Refusal::BytesLeftOver => "bytes stand after the last section",
            Refusal::WindowPastMemory => "a window that isn't empty ends past its memory",
            Refusal::ProcessesClash => "a process number stands twice, or 64 processes with flag 0",
            Refusal::ListTooLong => "a schedule of over 65,535 items",
            Refusal::ItemOutOfRange => "an item of the schedule is not 1 to 7",
            Refusal::BadJobs => "more than 15 jobs, or a need that is odd, below 2 or above 2,048",
            Refusal::NoTries => "zero tries",
        }
    }

    // 7 cannot come: the buffers are as long as the calls ask.
    fn of(number: u32) -> Result<(), Refusal> {
        Err(match number {
            sys::ACCEPTED => return Ok(()),
            sys::INPUT_ENDS => Refusal::InputEnds,
            sys::COUNT_OVER_LIMIT => Refusal::CountOverLimit,
            sys::TASK_FIELD => Refusal::TaskField,
            sys::PROCESS_FIELD => Refusal::ProcessField,
            sys::CONSTANT_FIELD => Refusal::ConstantField,
            sys::CELL_FIELD => Refusal::CellField,
            sys::BYTES_LEFT_OVER => Refusal::BytesLeftOver,
            sys::WINDOW_PAST_MEMORY => Refusal::WindowPastMemory,
            sys::PROCESSES_CLASH => Refusal::ProcessesClash,
            sys::LIST_TOO_LONG => Refusal::ListTooLong,
            sys::ITEM_OUT_OF_RANGE => Refusal::ItemOutOfRange,
            sys::BAD_JOBS => Refusal::BadJobs,
            sys::NO_TRIES => Refusal::NoTries,
            n => unreachable!("refusal {n}"),
        })
    }
}

impl fmt::Display for Refusal {
    fn fmt(&self, f: &mut fmt::Formatter<'_>) -> fmt::Result {
        write!(f, "refused: R{}: {}", self.number(), self.words())
    }
}

impl error::Error for Refusal {}

/// How many of each an image has.
#[derive(Clone, Copy, Debug, PartialEq, Eq)]
pub struct Sizes {
    pub rows: usize,
    pub constants: usize,
    pub registers: usize,
    pub program: usize,
    pub data_words: usize,
}

/// How items ended, and how many tries of SFU queues they made: those of a run, or those of one task in it. Shown as in a report.
///
/// ```
/// let own = hep::run(&hep::example_image(), &[1, 1])?.own(1);
/// assert_eq!(own.to_string(), "E0 W0 T1 I1 S0");
/// # Ok::<(), hep::Refusal>(())
/// ```
#[derive(Clone, Copy, Debug, Default, PartialEq, Eq)]
pub struct Counts {
    pub executed: u64,
    pub waved: u64,
    pub trapped: u64,
    pub idle: u64,
    pub tries: u64,
}

impl Counts {
    /// Those of five places of what `hep_run` writes, from this one on.
    fn at(place: usize, written: &[u64; sys::COUNTS]) -> Counts {
        let [executed, waved, trapped, idle, tries] = std::array::from_fn(|i| written[place + i]);
        Counts { executed, waved, trapped, idle, tries }
    }

    /// Those of two runs added up.
    fn and(self, other: Counts) -> Counts {
        Counts {
            executed: self.executed + other.executed,
            waved: self.waved + other.waved,
            trapped: self.trapped + other.trapped,
            idle: self.idle + other.idle,
            tries: self.tries + other.tries,
        }
    }
}

impl fmt::Display for Counts {
    fn fmt(&self, f: &mut fmt::Formatter<'_>) -> fmt::Result {
        let Counts { executed, waved, trapped, idle, tries } = self;
        write!(f, "E{executed} W{waved} T{trapped} I{idle} S{tries}")
    }
}

/// The task numbers, as items of a schedule.
pub const TASKS: std::ops::RangeInclusive<u8> = 1..=7;

/// What a run gives.
#[derive(Clone, Debug, PartialEq, Eq)]
pub struct Outcome {
    /// The image after the run.
    pub image: Vec<u8>,
    pub counts: Counts,
    /// Of task 1, 2 .. 7.
    own: [Counts; 7],
    /// The report of the batch program.
    pub report: String,
}

impl Outcome {
    /// The counts of a task's own items, which add up over the task numbers to `counts`. A task that the image does not list has them
    /// too: its items are idle. Zero for a number that is no task's.
    ///
    /// ```
    /// let outcome = hep::run(&hep::example_image(), &[1, 5, 5])?;
    /// assert_eq!((outcome.own(1).trapped, outcome.own(5).idle), (1, 2));
    /// assert_eq!(hep::TASKS.map(|task| outcome.own(task).idle).sum::<u64>(), outcome.counts.idle);
    /// # Ok::<(), hep::Refusal>(())
    /// ```
    pub fn own(&self, task: u8) -> Counts {
        let place = usize::from(task).wrapping_sub(1);
        self.own.get(place).copied().unwrap_or_default()
    }
}

/// Whether an image is accepted.
///
/// ```
/// assert_eq!(hep::check(&hep::example_image()), Ok(()));
/// assert_eq!(hep::check(&[]), Err(hep::Refusal::InputEnds));
/// ```
pub fn check(image: &[u8]) -> Result<(), Refusal> {
    Refusal::of(sys::check(image))
}

/// How many rows, constants, registers, program words and data words an image has.
///
/// ```
/// assert_eq!(hep::sizes(&hep::example_image()).unwrap().rows, 1);
/// ```
pub fn sizes(image: &[u8]) -> Result<Sizes, Refusal> {
    let mut n = [0; sys::SIZES];
    Refusal::of(sys::sizes(image, &mut n))?;
    let [rows, constants, registers, program, data_words] = n.map(|x| x as usize);
    Ok(Sizes { rows, constants, registers, program, data_words })
}

/// Runs a schedule, a list of task numbers, on an image.
///
/// ```
/// let outcome = hep::run(&hep::example_image(), &[1, 1])?;
/// assert_eq!((outcome.counts.trapped, outcome.counts.idle), (1, 1));
/// # Ok::<(), hep::Refusal>(())
/// ```
pub fn run(image: &[u8], schedule: &[u8]) -> Result<Outcome, Refusal> {
    let n = sizes(image)?;
    let mut output = vec![0; sys::output_room(image.len())];
    let mut counts = [0; sys::COUNTS];
    let mut report = [0; sys::REPORT_ROOM];
    Refusal::of(sys::run(
        image,
        schedule,
        &mut vec![0; n.constants],
        &mut vec![0; n.constants],
        &mut vec![0; n.registers],
        &mut vec![0; n.registers],
        &mut vec![0; n.program],
        &mut vec![0; n.data_words],
        &mut vec![0; n.data_words],
        &mut output,
        &mut counts,
        &mut report,
    ))?;
    let [_, _, _, _, _, image_len, report_len, ..] = counts.map(|n| n as usize);
    output.truncate(image_len);
    Ok(Outcome {
        image: output,
        counts: Counts::at(0, &counts),
        own: std::array::from_fn(|place| Counts::at(sys::own_place(place + 1), &counts)),
        report: text(&report[..report_len]),
    })
}

/// The most items of a schedule that one run takes.
pub const MOST_ITEMS: usize = 65_535;

/// Runs a schedule of any length, as runs of at most `MOST_ITEMS` items each, image in to image out. The counts, a task's own too, are
/// those of all runs added up, also in the report.
///
/// ```
/// let outcome = hep::run_in_slices(&hep::example_image(), &vec![1; 70_000])?;
/// assert_eq!(outcome.report, "1 1 14 00000 E0 W0 T1 I69999 S0\nE0 W0 T1 I69999 S0 CF0\n");
/// # Ok::<(), hep::Refusal>(())
/// ```
pub fn run_in_slices(image: &[u8], schedule: &[u8]) -> Result<Outcome, Refusal> {
    let mut slices = schedule.chunks(MOST_ITEMS);
    let mut outcome = run(image, slices.next().unwrap_or(&[]))?;
    for slice in slices {
        let (counts, own) = (outcome.counts, outcome.own);
        outcome = run(&outcome.image, slice)?;
        outcome.counts = outcome.counts.and(counts);
        outcome.own = std::array::from_fn(|place| outcome.own[place].and(own[place]));
    }
    if schedule.len() > MOST_ITEMS {
        outcome.report = with_counts(&outcome);
    }
    Ok(outcome)
}

/// The report of an outcome with its counts in place of those that are there: own ones in the rows' lines, all in the last before the flag.
fn with_counts(outcome: &Outcome) -> String {
    let line = |line: &str| match line.split(' ').collect::<Vec<_>>()[..] {
        [task, live, kind, pc, _, _, _, _, _] => {
            let own = outcome.own(task.parse().unwrap_or_default());
            format!("{task} {live} {kind} {pc} {own}\n")
        }
        [.., flag] => format!("{} {flag}\n", outcome.counts),
        [] => String::new(),
    };
    outcome.report.lines().map(line).collect()
}

/// The batch program: from its input to its output, which is a report or the line of a refusal.
///
/// ```
/// assert_eq!(hep::batch(&[]), "R1\n");
/// ```
pub fn batch(input: &[u8]) -> String {
    let mut output = [0; sys::REPORT_ROOM];
    let n = sys::batch(input, &mut output);
    text(&output[..n])
}

// Reports and lines of refusals are ASCII.
fn text(bytes: &[u8]) -> String {
    bytes.iter().map(|&b| b as char).collect()
}

/// Which jobs go into a module together.
#[derive(Clone, Copy, Debug, PartialEq, Eq)]
pub struct Filling {
    /// The first of the best choices tried, a binary number: its lowest bit is the first job.
    pub choice: u64,
    /// The sum of the needs of its jobs.
    pub sum: u64,
    /// How many choices were tried.
    pub tries: u64,
    /// What no choice's sum is above.
    pub ceiling: u64,
}

impl Filling {
    /// The places of the jobs that were chosen, counted from 0.
    ///
    /// ```
    /// let filling = hep::fill(&[1000, 400, 600], 8).unwrap();
    /// assert_eq!(filling.jobs().collect::<Vec<_>>(), [0, 1, 2]);
    /// ```
    pub fn jobs(self) -> impl Iterator<Item = usize> {
        (0..u64::BITS as usize).filter(move |job| self.choice >> job & 1 == 1)
    }
}

/// At most seven of up to 15 jobs, by their register needs, whose needs sum to at most 2,048 and to as much as possible: the first of the
/// best of so many choices, tried as binary numbers from 0 upward.
///
/// ```
/// let filling = hep::fill(&[2000, 40, 1000], u64::MAX)?;
/// assert_eq!((filling.choice, filling.sum, filling.tries, filling.ceiling), (3, 2040, 8, 2048));
/// # Ok::<(), hep::Refusal>(())
/// ```
pub fn fill(needs: &[u64], tries: u64) -> Result<Filling, Refusal> {
    let mut filling = [0; sys::FILLING];
    Refusal::of(sys::fill(needs, tries, &mut filling))?;
    let [choice, sum, tries, ceiling] = filling;
    Ok(Filling { choice, sum, tries, ceiling })
}

/// The image of document 01's printed case: one task with empty windows, and one process.
pub fn example_image() -> Vec<u8> {
    let mut image = vec![1, 1, 0, 0, 0, 1, 0, 0, 0, 1, 0, 0, 0, 0, 0, 1, 0, 0, 0, 0, 0xFF];
    image.extend([0; 8]);
    image.extend([1, 0, 0, 1]);
    image.extend([0; 8 + 2 + 2 + 4 + 4]);
    image
}
