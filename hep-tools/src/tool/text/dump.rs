//! An image's fields as text.

use super::instruction::{pc, show};
use super::symbols::Symbols;
use super::Source;
use crate::emulator::draft::{Draft, Process, Task};
use crate::emulator::machine::{EMPTY, NO_TRAP};
use crate::emulator::psw;
use crate::tool::share;

/// Below this in magnitude a word is shown in decimal.
const DECIMAL: u64 = 1_000_000_000;

/// Longest period that a schedule's line repeats, and its most items otherwise.
const PERIOD: usize = 14;
const ITEMS: usize = 30;

/// The text of an image or input.
pub fn dump(source: &Source) -> String {
    dump_named(source, &Symbols::default())
}

/// The same with the names and labels of the text that it comes from.
pub fn dump_named(source: &Source, symbols: &Symbols) -> String {
    let draft = &source.draft;
    let kind = if source.schedule.is_some() { "input" } else { "image" };
    let mut out = format!("hep {kind}\n");
    draft.tasks.iter().for_each(|task| out += &show_task(task));
    if draft.flag != 0 {
        out += &format!("flag {}\n", draft.flag);
    }
    draft.processes.iter().for_each(|process| out += &show_process(process));
    for (name, meaning) in symbols.names() {
        out += &format!("name {name} = {meaning}\n");
    }
    show_memories(&mut out, draft, symbols);
    if let Some(schedule) = &source.schedule {
        out += "schedule\n";
        show_schedule(&mut out, schedule);
    }
    out
}

fn show_task(task: &Task) -> String {
    let Task { number, cb, rb, rl, pb, pl, db, dl, kind, trapped } = task;
    let windows = format!("cb={cb} rb={rb} rl={rl} pb={pb} pl={pl} db={db} dl={dl}");
    if *kind == NO_TRAP {
        return format!("task {number} {windows}\n");
    }
    format!("task {number} {windows} trap=0x{kind:02X} {}\n", psw_fields(*trapped))
}

fn show_process(Process { pt, task, sfu, psw }: &Process) -> String {
    let queue = if *sfu { " sfu" } else { "" };
    format!("process {pt} task={task}{queue} {}\n", psw_fields(*psw))
}

/// The fields of a status word that aren't zero, and PC.
pub fn psw_fields(word: u64) -> String {
    let mut out = String::new();
    for (name, value) in [("ci", psw::ci(word)), ("ri", psw::ri(word))] {
        if value != 0 {
            out += &format!("{name}={value} ");
        }
    }
    if psw::utm(word) != 0 {
        out += &format!("utm=0x{:02X} ", psw::utm(word));
    }
    out + &format!("pc={}", pc(psw::pc(word)))
}

/// A word in decimal if it is small, else in hex.
fn word(word: u64) -> String {
    let value = word as i64;
    if value.unsigned_abs() < DECIMAL {
        value.to_string()
    } else {
        format!("0x{word:016X}")
    }
}

fn show_memories(out: &mut String, draft: &Draft, symbols: &Symbols) {
    cells(out, "constants", &draft.constants, constant);
    cells(out, "registers", &draft.registers, register);
    program(out, draft, symbols);
    cells(out, "data", &draft.data, data);
}

/// The program with its labels, equal neighbours on one line; the comment is the first real address, and its PC where that is another.
fn program(out: &mut String, draft: &Draft, symbols: &Symbols) {
    let words = &draft.program;
    if words.is_empty() {
        return;
    }
    *out += "program\n";
    let text =
        |real: usize| symbols.written(real).map_or_else(|| show(words[real]), str::to_string);
    let mut start = 0;
    while start < words.len() {
        symbols.lines_before(start).iter().for_each(|line| *out += &format!("{line}\n"));
        let line = text(start);
        let same = |&i: &usize| {
            words[i] == words[start] && symbols.lines_before(i).is_empty() && text(i) == line
        };
        let times = 1 + (start + 1..words.len()).take_while(same).count();
        *out += &cell_line(&line, times, &program_place(draft, start));
        start += times;
    }
    symbols.lines_before(start).iter().for_each(|line| *out += &format!("{line}\n"));
}

/// A real address, and the PC of the tasks that have it elsewhere in their windows.
fn program_place(draft: &Draft, real: usize) -> String {
    let windows = draft.tasks.iter().map(|task| (task.number, share::program(task)));
    let there = windows.filter(|(_, window)| window.start > 0 && window.contains(&real));
    let there =
        there.map(|(task, window)| format!(", PC {:05X} of task {task}", real - window.start));
    format!("{real:05X}{}", there.collect::<String>())
}

/// A constant: a word with its quality if that isn't 0.
pub fn constant(&(quality, cell): &(u8, u64)) -> String {
    match quality {
        0 => word(cell),
        _ => format!("{} quality={quality}", word(cell)),
    }
}

/// A register from its tag and word.
pub fn register(&(tag, cell): &(u8, u64)) -> String {
    let state = if tag & EMPTY == 0 { "full" } else { "empty" };
    format!("{state} {}", constant(&(tag & 7, cell)))
}

/// A data word from its state and word.
pub fn data(&(full, cell): &(u8, u64)) -> String {
    format!("{} {}", if full == 0 { "empty" } else { "full" }, word(cell))
}

/// A memory, equal neighbours on one line; the comment is the first real address.
fn cells<T: PartialEq>(out: &mut String, name: &str, memory: &[T], show: impl Fn(&T) -> String) {
    if memory.is_empty() {
        return;
    }
    *out += &format!("{name}\n");
    let mut start = 0;
    for run in memory.chunk_by(|a, b| a == b) {
        *out += &cell_line(&show(&run[0]), run.len(), &start.to_string());
        start += run.len();
    }
}

fn cell_line(cell: &str, times: usize, comment: &str) -> String {
    let times = if times > 1 { format!(" * {times}") } else { String::new() };
    let line = cell.to_string() + &times;
    format!("  {line:<40} ; {comment}\n")
}

fn show_schedule(out: &mut String, schedule: &[u8]) {
    let mut rest = schedule;
    while !rest.is_empty() {
        let (period, times) = repetition(rest);
        let (line, left) = rest.split_at(if times > 1 { period } else { plain(rest) });
        let items = line.iter().map(u8::to_string).collect::<Vec<_>>().join(" ");
        *out += &format!("  {items}");
        if times > 1 {
            *out += &format!(" * {times}");
        }
        *out += "\n";
        rest = &left[line.len() * (times - 1)..];
    }
}

/// The period that covers the most of what comes first, and how often it stands there.
fn repetition(items: &[u8]) -> (usize, usize) {
    let times = |period: usize| {
        let first = &items[..period];
        items.chunks(period).take_while(|chunk| *chunk == first).count()
    };
    let most = PERIOD.min(items.len());
    let best = (1..=most).rev().max_by_key(|&period| period * times(period));
    match best {
        Some(period) if period * times(period) >= ITEMS => (period, times(period)),
        _ => (most, 1),
    }
}

/// How many items stand on a line of their own before a repetition.
fn plain(items: &[u8]) -> usize {
    let most = ITEMS.min(items.len());
    (1..most).find(|&i| repetition(&items[i..]).1 > 1).unwrap_or(most)
}
