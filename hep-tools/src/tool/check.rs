//! Every bad field of refused bytes: the first is told, a good value put in its place, and the bytes are read again.

use super::load::Reading;
use crate::emulator::batch;
use crate::emulator::psw;
use crate::emulator::refusal::{Refusal, Section, SHORT, WINDOW};

/// The most fields that are told.
pub const MOST_FIELDS: usize = 100;

/// The refusals of bytes, up to one behind which nothing can be read; `MOST_FIELDS` of them at most.
pub fn faults(bytes: &[u8], reading: Reading) -> Vec<Refusal> {
    let mut bytes = bytes.to_vec();
    let mut faults = Vec::new();
    while faults.len() < MOST_FIELDS {
        let Err(refusal) = reading.read(&bytes) else { break };
        let mended = mended(&bytes, reading, &refusal);
        faults.push(refusal);
        match mended {
            Some(mended) => bytes = mended,
            None => break,
        }
    }
    faults
}

/// The image and where it begins.
fn image(bytes: &[u8], reading: Reading) -> (usize, &[u8]) {
    match reading {
        Reading::Image => (0, bytes),
        Reading::Input => {
            let image = batch::split(bytes).map_or(&[][..], |(_, image)| image);
            (bytes.len() - image.len(), image)
        }
    }
}

/// The bytes with a good value in the refused field; none where a count, the length or the end is refused.
fn mended(bytes: &[u8], reading: Reading, refusal: &Refusal) -> Option<Vec<u8>> {
    let (start, image) = image(bytes, reading);
    let place = refusal.place;
    let entry = refusal.entry.map_or(0, |(entry, _)| entry - 1);
    let mut out = bytes.to_vec();
    let mut put = |at: usize, value: &[u8]| out[at..at + value.len()].copy_from_slice(value);
    match (refusal.section, refusal.field) {
        (Section::Schedule, "task") if place < bytes.len() => put(place, &[1]),
        (_, "the end") => out.truncate(place),
        (Section::Tasks, "RL" | "PL") if refusal.number == WINDOW => put(place - 2, &[0, 1, 0, 0]),
        (Section::Tasks, "DL") if refusal.number == WINDOW => {
            put(place - 4, &[0, 0, 0, 1, 0, 0, 0, 0]);
        }
        _ if refusal.number == SHORT => return None,
        (Section::Tasks, "task number") => put(place, &[task_number(image, entry)?]),
        (Section::Tasks, "CB" | "RL") => put(place, &[0, 0]),
        (Section::Tasks, "RB") => put(place, &[3, 0xFF]),
        (Section::Tasks, "DB") => put(place, &[0, 0xFF, 0xFF, 0xFF]),
        (Section::Tasks, "DL") => put(place, &[0; 4]),
        (Section::Tasks, "trap kind") => put(place, &[0x14]),
        (Section::Tasks, "trapped PSW") => put(place, &[0; 8]),
        (Section::Processes, "create fault flag") => put(place, &[1]),
        (Section::Processes, "PT") => put(place, &[free_number(image)?]),
        (Section::Processes, "task") => {
            put(place, &[task_of_process(image, place - start, entry)?])
        }
        (Section::Processes, "PSW") => {
            let word = u64::from_be_bytes(bytes[place..place + 8].try_into().ok()?);
            put(place, &(word & !psw::ZERO).to_be_bytes());
        }
        (_, "quality" | "tag" | "state") => put(place, &[0]),
        _ => return None,
    }
    Some(out)
}

/// A number for the ith row: over that of the row before it and, if there is one, under that of the next.
fn task_number(image: &[u8], i: usize) -> Option<u8> {
    let number = |i: usize| image.get(1 + 28 * i).copied();
    let least = if i == 0 { 1 } else { number(i - 1)? + 1 };
    let last = usize::from(*image.first()?) == i + 1;
    let next = number(i + 1).filter(|next| !last && (least + 1..=7).contains(next));
    Some(next.map_or(least, |next| next - 1)).filter(|number| *number <= 7)
}

/// The PTs of the process section, as far as they are there.
fn numbers(image: &[u8]) -> impl Iterator<Item = u8> + '_ {
    let processes = 1 + 28 * usize::from(image[0]);
    let count = image.get(processes).copied().unwrap_or(0);
    (0..usize::from(count)).filter_map(move |i| image.get(processes + 2 + 10 * i).copied())
}

fn free_number(image: &[u8]) -> Option<u8> {
    (0..64).find(|pt| numbers(image).all(|used| used != *pt))
}

/// The task of the process before the ith, or of the first row.
fn task_of_process(image: &[u8], place: usize, i: usize) -> Option<u8> {
    match i {
        0 if image[0] == 0 => None,
        0 => image.get(1).copied(),
        _ => image.get(place - 10).copied(),
    }
}
