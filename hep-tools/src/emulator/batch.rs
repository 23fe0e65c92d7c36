//! The batch program: input bytes to output bytes.

use crate::emulator::image;
use crate::emulator::machine::{Machine, OwnCounts, RunCounts};
use crate::emulator::psw;
use crate::emulator::refusal::*;

/// The longest input.
pub const MOST_BYTES: usize = 65_536;

/// What the batch program prints, and unless it is refused the image after the run and the counts of each task number.
#[derive(Clone, PartialEq, Eq, Debug)]
pub struct Answer {
    pub output: Vec<u8>,
    pub image: Option<Vec<u8>>,
    pub own: Option<OwnCounts>,
}

impl Answer {
    /// An output alone.
    pub fn of(output: Vec<u8>) -> Self {
        Answer { output, image: None, own: None }
    }
}

pub fn answer(input: &[u8]) -> Answer {
    match run(input) {
        Ok((machine, counts)) => Answer {
            output: report(&machine, &counts).into_bytes(),
            image: Some(image::write(&machine)),
            own: Some(counts.own),
        },
        Err(refusal) => Answer::of(line(&refusal)),
    }
}

/// What the batch program prints for this input.
pub fn output(input: &[u8]) -> Vec<u8> {
    match run(input) {
        Ok((machine, counts)) => report(&machine, &counts).into_bytes(),
        Err(refusal) => line(&refusal),
    }
}

fn line(refusal: &Refusal) -> Vec<u8> {
    format!("R{}\n", refusal.number).into_bytes()
}

fn run(input: &[u8]) -> Result<(Machine, RunCounts), Refusal> {
    let (schedule, mut machine) = accepted(input)?;
    let counts = machine.run(schedule);
    Ok((machine, counts))
}

/// Schedule and machine of an input, or why it is refused; places count from the input's start.
pub fn accepted(input: &[u8]) -> Result<(&[u8], Machine), Refusal> {
    if input.len() > MOST_BYTES {
        return Err(too_long(input));
    }
    let (schedule, image) = split(input).ok_or_else(|| schedule_cut(input))?;
    let start = input.len() - image.len();
    let in_input = |refusal: Refusal| Refusal { place: start + refusal.place, ..refusal };
    let machine = image::read(image).map_err(in_input)?;
    match schedule.iter().position(|&item| !item_accepted(item)) {
        Some(i) => Err(bad_item(schedule, i)),
        None => Ok((schedule, machine)),
    }
}

fn too_long(input: &[u8]) -> Refusal {
    Refusal {
        number: TOO_LONG,
        section: Section::Input,
        entry: None,
        field: "length",
        place: MOST_BYTES,
        wrong: format!("of {} bytes is over {MOST_BYTES}", input.len()),
    }
}

/// The refusal of an input that ends before its schedule is whole.
fn schedule_cut(input: &[u8]) -> Refusal {
    let refusal = |entry, field, place, wrong| {
        let section = Section::Schedule;
        Refusal { number: SHORT, section, entry, field, place, wrong }
    };
    match input.split_first_chunk() {
        None => refusal(None, "count", 0, cut(input.len(), 2)),
        Some((&count, items)) => {
            let entry = (items.len() + 1, u16::from_be_bytes(count).into());
            refusal(Some(entry), "task", input.len(), cut(0, 1))
        }
    }
}

fn bad_item(schedule: &[u8], i: usize) -> Refusal {
    Refusal {
        number: BAD_ITEM,
        section: Section::Schedule,
        entry: Some((i + 1, schedule.len())),
        field: "task",
        place: 2 + i,
        wrong: format!("0x{:02X} is not 0x01 to 0x07", schedule[i]),
    }
}

/// Whether every item is the number of a task.
pub fn items_accepted(schedule: &[u8]) -> bool {
    schedule.iter().all(|&item| item_accepted(item))
}

fn item_accepted(item: u8) -> bool {
    (1..=7).contains(&item)
}

/// Splits the input into schedule and image.
pub fn split(input: &[u8]) -> Option<(&[u8], &[u8])> {
    let (count, rest) = input.split_first_chunk()?;
    rest.split_at_checked(usize::from(u16::from_be_bytes(*count)))
}

/// The report of a run that left this machine.
pub fn report(machine: &Machine, counts: &RunCounts) -> String {
    let mut text = String::new();
    for task in machine.tasks() {
        let live = machine.live_count(task);
        let trap = match machine.trap_record(task) {
            Some((kind, psw)) => format!("{kind:02X} {:05X}", psw::pc(psw)),
            None => "-- -----".to_string(),
        };
        text += &format!("{task} {live} {trap} {}\n", counts.own(task));
    }
    text + &format!("{} CF{}\n", counts.counts, u8::from(machine.create_fault()))
}
