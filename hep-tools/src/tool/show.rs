//! What a file has: sections with their places in its bytes, tasks with their windows, processes; of refused bytes up to the fault.

use super::load::{not_of_this_machine, Loaded, Reading, Trouble};
use super::share::{self, meetings, window_shown, windows_of};
use super::text::{psw_fields, Source};
use crate::emulator::batch;
use crate::emulator::draft::{Draft, Process, Task, SFU};
use crate::emulator::machine::NO_TRAP;
use std::ops::Range;

/// The real addresses of one of a row's windows.
type Window = fn(&Task) -> Range<usize>;

/// A section's name, the bytes of its count, those between it and the entries (the flag), those of an entry, and the most entries.
const SECTIONS: [(&str, usize, usize, usize, usize); 6] = [
    ("tasks", 1, 0, 28, 7),
    ("processes", 1, 1, 10, 64),
    ("constants", 2, 0, 9, 4_096),
    ("registers", 2, 0, 9, 2_048),
    ("program", 4, 0, 8, 1 << 20),
    ("data", 4, 0, 9, 1 << 20),
];

/// The text of an accepted file.
pub fn accepted(loaded: &Loaded) -> String {
    let source = &loaded.source;
    let image = source.draft.bytes();
    let items = source.schedule.as_ref().map(|items| items_shown(items));
    let start = source.schedule.as_ref().map_or(0, |items| 2 + items.len());
    let kind = if items.is_some() { Reading::Input } else { Reading::Image }.name();
    let items = items.map_or(String::new(), |items| format!(": {items}"));
    let mut out = format!("{kind}, {} bytes, accepted{items}\n", start + image.len());
    if let Some(over) = source.over() {
        out += &format!("as a batch input it is too long: {over}\n");
    }
    out += &sections(&image, start);
    out += &tasks(&source.draft);
    out + &notes(source)
}

/// The text of refused bytes, up to their fault.
pub fn refused(trouble: &Trouble) -> String {
    let Trouble::Bytes { bytes, readings } = trouble else { return String::new() };
    if not_of_this_machine(bytes).is_some() {
        return String::new();
    }
    let (reading, refusal) = &readings[0];
    let split = batch::split(bytes);
    let (items, image) = match (reading, split) {
        (Reading::Image, _) => (None, &bytes[..]),
        (Reading::Input, Some((items, image))) => (Some(items), image),
        (Reading::Input, None) => (None, &[][..]),
    };
    let start = bytes.len() - image.len();
    let items = items.map_or(String::new(), |items| format!(": {}", items_shown(items)));
    let head = format!(
        "{}, {} bytes, refused by {}{items}\n",
        reading.name(),
        bytes.len(),
        refusal.number
    );
    let draft = Draft { tasks: rows(image), processes: processes(image), ..Draft::default() };
    format!("{head}{}{}", sections(image, start), tasks(&draft))
}

fn items_shown(items: &[u8]) -> String {
    let count = |task: u8| items.iter().filter(|item| **item == task).count();
    let shares = (0..=u8::MAX).map(|task| (task, count(task))).filter(|(_, count)| *count > 0);
    let shares: Vec<String> = shares.map(|(task, count)| format!("task {task}: {count}")).collect();
    match shares.len() {
        0 => "0 items".to_string(),
        _ => format!("{} items ({})", items.len(), shares.join(", ")),
    }
}

/// The sections one below the other: places in the file, counted from 0, and entries; up to one that is not whole.
fn sections(image: &[u8], start: usize) -> String {
    let mut out = format!("\n{:<10} {:<16} entries\n", "section", "bytes");
    if start > 0 {
        out += &format!("{:<10} {:<16} {}\n", "schedule", format!("0..{}", start - 1), start - 2);
    }
    let mut place = 0;
    for (name, width, more, entry, most) in SECTIONS {
        let Some(count) = image.get(place..place + width) else {
            return out + &format!("{name:<10} its count is not whole\n");
        };
        let count = count.iter().fold(0, |count, byte| count << 8 | usize::from(*byte));
        let end = place + width + more + count * entry;
        let bytes = format!("{}..{}", start + place, start + end - 1);
        let wrong = match () {
            _ if count > most => format!(", over {most}"),
            _ if end > image.len() => format!(", but {} bytes are there", image.len() - place),
            _ => String::new(),
        };
        out += &format!("{name:<10} {bytes:<16} {count}{wrong}\n");
        if !wrong.is_empty() {
            return out;
        }
        place = end;
    }
    if place < image.len() {
        out += &format!("{:<10} {}..{}\n", "left over", start + place, start + image.len() - 1);
    }
    out
}

/// A line for each row, then one for each process.
fn tasks(draft: &Draft) -> String {
    let mut out = format!(
        "\n{:<5} {:<12} {:<14} {:<14} {:<5} {:<10} {:<9} alone\n",
        "task", "registers", "program", "data", "CB", "processes", "trap"
    );
    for task in &draft.tasks {
        let [registers, program, data] = windows_of(task).map(window_shown);
        let live = live_shown(draft, task.number);
        let trap = match task.kind {
            NO_TRAP => "none".to_string(),
            kind => format!("{kind:02X} {:05X}", task.trapped & 0xF_FFFF),
        };
        let meetings = meetings(draft, task.number);
        let alone = match meetings.first() {
            None => "yes".to_string(),
            Some(meeting) => format!("no: its windows {meeting}"),
        };
        let (number, cb) = (task.number, task.cb);
        out += &format!("{number:<5} {registers:<12} {program:<14} {data:<14} {cb:<5} {live:<10} {trap:<9} {alone}\n");
    }
    if !draft.processes.is_empty() {
        out += "\nPT task queue PSW\n";
    }
    for Process { pt, task, sfu, psw } in &draft.processes {
        let queue = if *sfu { "SFU" } else { "task" };
        out += &format!("{pt:2} {task:4} {queue:<5} {}\n", psw_fields(*psw));
    }
    out
}

/// How many processes a task has, and how many of them are in its SFU queue.
fn live_shown(draft: &Draft, task: u8) -> String {
    let own = || draft.processes.iter().filter(move |process| process.task == task);
    match own().filter(|process| process.sfu).count() {
        0 => own().count().to_string(),
        waiting => format!("{}, {waiting} SFU", own().count()),
    }
}

/// The rows of an image's bytes that are whole, accepted or not.
fn rows(image: &[u8]) -> Vec<Task> {
    let count = image.first().map_or(0, |count| usize::from(*count).min(7));
    let row = |bytes: &[u8]| {
        let field = |start: usize, width: usize| {
            bytes[start..start + width].iter().fold(0, |value, byte| value << 8 | u64::from(*byte))
        };
        let [cb, rb, rl, pb, pl] = [1, 3, 5, 7, 9].map(|start| field(start, 2) as u16);
        let (db, dl) = (field(11, 4) as u32, field(15, 4) as u32);
        Task {
            number: bytes[0],
            cb,
            rb,
            rl,
            pb,
            pl,
            db,
            dl,
            kind: bytes[19],
            trapped: field(20, 8),
        }
    };
    image.get(1..).unwrap_or(&[]).chunks_exact(28).take(count).map(row).collect()
}

/// The processes of an image's bytes that are whole, accepted or not.
fn processes(image: &[u8]) -> Vec<Process> {
    let start = image.first().map_or(0, |count| 1 + 28 * usize::from(*count));
    let count = image.get(start).map_or(0, |count| usize::from(*count).min(64));
    let process = |bytes: &[u8]| {
        let psw = bytes[2..].iter().fold(0, |value, byte| value << 8 | u64::from(*byte));
        let sfu = (SFU + 1..=SFU + 7).contains(&bytes[1]);
        Process { pt: bytes[0], task: if sfu { bytes[1] - SFU } else { bytes[1] }, sfu, psw }
    };
    image.get(start + 2..).unwrap_or(&[]).chunks_exact(10).take(count).map(process).collect()
}

/// What is accepted and yet may be a mistake.
pub fn notes(source: &Source) -> String {
    let draft = &source.draft;
    let mut notes = Vec::new();
    for task in &draft.tasks {
        let number = task.number;
        if draft.processes.iter().all(|process| process.task != number) {
            notes.push(format!("task {number} has no process: its items are idle"));
        }
        for (name, window) in ["register", "program", "data"].iter().zip(windows_of(task)) {
            if window.is_empty() {
                notes.push(format!(
                    "task {number}'s {name} window is empty: its base is above its limit"
                ));
            }
        }
    }
    let items = source.schedule.as_deref();
    if items == Some(&[]) {
        notes.push("the schedule has no items".to_string());
    }
    for task in 1..=7 {
        let count = items.unwrap_or(&[]).iter().filter(|item| **item == task).count();
        if count > 0 && draft.tasks.iter().all(|row| row.number != task) {
            notes.push(format!("task {task} is not listed: its items ({count}) are idle"));
        }
    }
    notes.extend(unreached(draft));
    notes.iter().map(|note| format!("note: {note}\n")).collect()
}

/// For each memory but the constants, which have no limit: how many of its cells lie in no task's window, and the first of them. Cells
/// as the text fills up with, zero and full, are not counted.
pub fn unreached(draft: &Draft) -> Vec<String> {
    let registers = draft.registers.iter().map(|cell| *cell != (0, 0));
    let program = draft.program.iter().map(|word| *word != 0);
    let data = draft.data.iter().map(|cell| *cell != (1, 0));
    let memories: [(&str, Window, Vec<bool>); 3] = [
        ("register", share::registers, registers.collect()),
        ("program word", share::program, program.collect()),
        ("data word", share::data, data.collect()),
    ];
    let noted = memories.into_iter().filter_map(|(name, window, given)| {
        let windows: Vec<Range<usize>> = draft.tasks.iter().map(window).collect();
        let outside = |place: &usize| !windows.iter().any(|window| window.contains(place));
        let mut cells = (0..given.len()).filter(|&place| given[place]).filter(outside);
        let first = cells.next()?;
        Some(match cells.count() {
            0 => format!("{name} {first} lies in no task's window"),
            more => format!("{} {name}s lie in no task's window, the first is {first}", more + 1),
        })
    });
    noted.collect()
}
