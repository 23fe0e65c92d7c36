//! Live counts: lines of creates and quits in several tasks.
//!
//! A line is name | queues | items | live counts. `4=2q+19c` is the queue of task 4 from head to tail: two processes at a QT, then 19
//! at a CREATE; `n` is a NOP, `s` a store that waits for its data word, `t` trap 12; behind a slash stands its SFU queue, `4=2q/3c`.
//! Behind the queues `first=5` lets their process numbers ascend from 5, and from 63 go on at 0; `flag=1` is the create fault flag. Items
//! stand as in a line of both queues. The live counts are those that the report must show.

use super::report::{self, Item};
use super::{bench, queues, Trial};
use crate::emulator::draft::{batch_input, Draft, Process, Task};
use crate::emulator::machine::{CREATE_FAULT, ILLEGAL, PROCESSES};

/// The program of every task. A creator and what it creates go on at PC + 1, so at a CREATE again.
const PROGRAM: &str = "ccccccccqqqqstnnnnnnnnnnnnnnnnnn";

/// `CREATE c0, c0` and `QT c0`, both always true; `STOI:E c0, c0`, whose data word is full; a code that isn't listed; `NOP`.
const CREATE: u64 = 0x3970_0000_4000_4000;
const QT: u64 = 0x1970_0000_0000_4000;
const STORE: u64 = 0xBC02_0000_4000_4000;
const UNKNOWN: u64 = 0x711E_0000_0000_0000;
const NOP: u64 = 0;

fn instruction(letter: char) -> u64 {
    match letter {
        'c' => CREATE,
        'q' => QT,
        's' => STORE,
        't' => UNKNOWN,
        _ => NOP,
    }
}

/// The trial of a line.
pub fn trials(line: &str) -> Result<Vec<Trial>, String> {
    trial(line, with_live_counts)
}

/// The report of a run by the last part of its line: the image after it, that part, the items.
type Report = fn(&Draft, &str, &[Item]) -> Option<String>;

/// The trial of a line of four parts.
pub fn trial(line: &str, report: Report) -> Result<Vec<Trial>, String> {
    let parts: Vec<&str> = line.split('|').map(str::trim).collect();
    let [name, queues, items, last] = parts[..] else {
        return Err("a trial of several tasks has four parts".to_string());
    };
    let mut draft = before(queues).ok_or("bad queues")?;
    let image = draft.bytes();
    let (schedule, items) = bench::items(items)?;
    for (&task, item) in schedule.iter().zip(&items) {
        let wrong = || format!("task {task} can't end with {item}");
        for (ending, sfu) in queues::attempts(item) {
            settle(&mut draft, task, sfu, ending).ok_or_else(wrong)?;
        }
    }
    let items = queues::ended(&schedule, &items);
    let output = report(&draft, last, &items).ok_or("a bad last part")?;
    let expected = report::printed(output, draft.bytes(), &items);
    Ok(vec![Trial { name: name.to_string(), input: batch_input(&schedule, &image), expected }])
}

/// Keys and values of `1=20c, flag=1`.
fn pairs(text: &str) -> Option<Vec<(&str, &str)>> {
    text.split(',').map(|pair| pair.trim().split_once('=')).collect()
}

/// The image of these queues.
fn before(queues: &str) -> Option<Draft> {
    let program = PROGRAM.chars().map(instruction).collect();
    let mut draft = Draft { program, data: vec![(1, 0); 32], ..Draft::default() };
    let mut first = 0;
    for (key, value) in pairs(queues)? {
        match key {
            "flag" => draft.flag = value.parse().ok()?,
            "first" => first = value.parse().ok()?,
            task => {
                let task = task.parse().ok()?;
                draft.tasks.push(Task { pb: 0, pl: 1, db: 0, dl: 0, ..Task::empty(task) });
                let (own, waiting) = value.split_once('/').unwrap_or((value, "0"));
                for (queue, sfu) in [(own, false), (waiting, true)] {
                    let processes = status_words(queue)?.into_iter();
                    let process = |psw| Process { sfu, ..Process::new(0, task, psw) };
                    draft.processes.extend(processes.map(process));
                }
            }
        }
    }
    for (i, process) in draft.processes.iter_mut().enumerate() {
        process.pt = ((first + i) % PROCESSES) as u8;
    }
    Some(draft)
}

/// The status words of `2q+19c`; `0` has none.
fn status_words(queue: &str) -> Option<Vec<u64>> {
    let mut psws = Vec::new();
    for piece in queue.split('+').filter(|piece| *piece != "0") {
        let letter = piece.chars().last()?;
        let count = piece.strip_suffix(letter)?.parse().ok()?;
        psws.extend(vec![PROGRAM.find(letter)? as u64; count]);
    }
    Some(psws)
}

/// What an attempt that ends so leaves by documents 01 and 02; `sfu` tells of a try.
fn settle(draft: &mut Draft, task: u8, sfu: bool, ending: &str) -> Option<()> {
    if ending == "I" {
        return Some(());
    }
    let used = |pt: &u8| draft.processes.iter().any(|process| process.pt == *pt);
    let lowest_free = (0..).find(|pt| !used(pt))?;
    let heads = |process: &Process| (process.task, process.sfu) == (task, sfu);
    let place = draft.processes.iter().position(heads)?;
    let head = draft.processes.remove(place);
    let next = Process { sfu: false, psw: head.psw + 1, ..head };
    let created = Process { pt: lowest_free, ..next };
    match (ending, draft.program[head.psw as usize]) {
        ("E", CREATE) => draft.processes.extend([next, created]),
        ("E", QT) => {}
        ("E", _) => draft.processes.push(next),
        ("W", CREATE) => draft.processes.push(head),
        ("W", STORE) => draft.processes.push(Process { sfu: true, ..head }),
        ("T12", UNKNOWN) => {
            draft.processes.insert(place, head);
            record(draft, task, ILLEGAL, head.psw)?;
        }
        ("T00", CREATE) => {
            draft.processes.insert(place, Process { sfu, ..next });
            draft.processes.push(created);
            record(draft, task, CREATE_FAULT, next.psw)?;
            draft.flag = 1;
        }
        _ => return None,
    }
    bench::in_order(&mut draft.processes);
    Some(())
}

/// Gives a task this trap record.
fn record(draft: &mut Draft, task: u8, kind: u8, psw: u64) -> Option<()> {
    let row = draft.tasks.iter_mut().find(|row| row.number == task)?;
    (row.kind, row.trapped) = (kind, psw);
    Some(())
}

/// The report with these live counts.
fn with_live_counts(draft: &Draft, live: &str, items: &[Item]) -> Option<String> {
    let counts = pairs(live)?;
    let mut out = String::new();
    for (task, (number, live)) in draft.tasks.iter().zip(&counts) {
        let own = *number == task.number.to_string();
        out += &report::task_line(task, live.parse().ok().filter(|_| own)?, items);
    }
    (counts.len() == draft.tasks.len()).then_some(out + &report::counts_line(items, draft.flag))
}
