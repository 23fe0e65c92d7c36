//! The bench of a trial, and its line: name | changes before | instructions | endings |
//! changes after.
//!
//! The bench has task 1 over all of its 8 registers, 16 instructions (NOP) and 32 data
//! words, all full and zero, no constants, and process 0 at PC 0. Endings are E, I, T with a
//! kind, W, and WD for a wait for a data word; `2:` before one is an item of task 2. What the
//! endings say of the queues, PC and the trap record needs no change; all else stays as it was.
//!
//! A line is two trials: in the second every process starts in the SFU queue, so that the
//! first item is a try.

use super::report::{self, Item};
use super::Trial;
use crate::emulator::draft::{batch_input, Draft, Process, Task};
use crate::emulator::machine::EMPTY;
use crate::tool::text::{instruction, Error, Line, Names};

/// What a line changes.
pub struct State {
    pub draft: Draft,
    /// The process that steps, once it is taken from its queue.
    stepping: Option<Process>,
    joins: Option<Process>,
    leaves: bool,
}

impl State {
    pub fn new() -> Self {
        let draft = Draft {
            tasks: vec![Task { rb: 0, rl: 3, pb: 0, pl: 0, db: 0, dl: 0, ..Task::empty(1) }],
            processes: vec![Process::new(0, 1, 0)],
            registers: vec![(0, 0); 8],
            program: vec![0; 16],
            data: vec![(1, 0); 32],
            ..Draft::default()
        };
        State { draft, stepping: None, joins: None, leaves: false }
    }

    fn process(&mut self) -> &mut Process {
        match &mut self.stepping {
            Some(process) => process,
            None => &mut self.draft.processes[0],
        }
    }

    /// One change: `r1=empty 5 quality=4`, `d2=7`, `c1=psw pc=3`, `c2=7 quality=5`, `ri=2`, `live=62`.
    fn change(&mut self, line: &mut Line) -> Result<(), Error> {
        let names = Names::none();
        let place = line.mark();
        let key = line.word();
        if key == "leaves" {
            self.leaves = true;
            return Ok(());
        }
        line.expect('=')?;
        if let Some(cell) = key.get(1..).and_then(|digits| digits.parse::<usize>().ok()) {
            return self.cell(&key[..1], cell, line, &names);
        }
        match key {
            "rows" => self.draft.tasks.truncate(names.number(line, key, 7)? as usize),
            "live" => {
                let psw = self.draft.processes[0].psw;
                let count = names.number(line, key, 64)? as u8;
                self.draft.processes = (0..count).map(|pt| Process::new(pt, 1, psw)).collect();
            }
            "flag" => self.draft.flag = names.number(line, key, 1)? as u8,
            "joins" => {
                let pt = names.number(line, key, 63)? as u8;
                self.joins = Some(Process::new(pt, 1, names.psw(line)?));
            }
            "registers" => {
                self.draft.registers.resize(names.number(line, key, 2_048)? as usize, (0, 0))
            }
            "data" => self.draft.data.resize(names.number(line, key, 1 << 20)? as usize, (1, 0)),
            _ => return self.field(key, place, line, &names),
        }
        Ok(())
    }

    fn cell(
        &mut self,
        memory: &str,
        i: usize,
        line: &mut Line,
        names: &Names,
    ) -> Result<(), Error> {
        let empty = line.keyword("empty");
        let word = names.word(line)?;
        let draft = &mut self.draft;
        match memory {
            "r" => {
                let state = if empty { EMPTY } else { 0 };
                draft.registers[i] = (names.quality(line)? | state, word);
            }
            "d" => draft.data[i] = (u8::from(!empty), word),
            "c" => {
                draft.constants.resize(draft.constants.len().max(i + 1), (0, 0));
                draft.constants[i] = (names.quality(line)?, word);
            }
            _ => return Err(line.error(format!("there is no memory {memory}"))),
        }
        Ok(())
    }

    /// A field of the row or of the status word.
    fn field(&mut self, key: &str, at: usize, line: &mut Line, names: &Names) -> Result<(), Error> {
        let value = names.number(line, key, 1 << 24)?;
        let task = &mut self.draft.tasks[0];
        match key {
            "cb" => task.cb = value as u16,
            "rb" => task.rb = value as u16,
            "rl" => task.rl = value as u16,
            "pb" => task.pb = value as u16,
            "pl" => task.pl = value as u16,
            "db" => task.db = value as u32,
            "dl" => task.dl = value as u32,
            "trap" => task.kind = value as u8,
            "ci" => put(&mut self.process().psw, 43, 0x1FFF, value),
            "ri" => put(&mut self.process().psw, 32, 0x7FF, value),
            "utm" => put(&mut self.process().psw, 24, 0xFF, value),
            "pc" => put(&mut self.process().psw, 0, 0xF_FFFF, value),
            _ => return Err(line.error_at(at, format!("{key} is no change"))),
        }
        Ok(())
    }

    /// Puts these instructions, with `/` between them, at the start of the program.
    pub fn program(&mut self, text: &str) -> Result<(), Error> {
        for (place, text) in text.split('/').enumerate().filter(|(_, text)| !text.trim().is_empty())
        {
            let line = &mut Line::new(1, text);
            self.draft.program[place] = instruction::parse(line, &Names::none())?;
            line.end()?;
        }
        Ok(())
    }

    pub fn changes(&mut self, text: &str) -> Result<(), Error> {
        let line = &mut Line::new(1, text);
        while !line.is_done() {
            self.change(line)?;
            if !line.take(',') {
                line.end()?;
            }
        }
        Ok(())
    }
}

/// Sets a field of a status word.
fn put(psw: &mut u64, shift: u32, mask: u64, value: u64) {
    *psw = *psw & !(mask << shift) | (value & mask) << shift;
}

/// The trials of a line.
pub fn trials(line: &str) -> Result<Vec<Trial>, String> {
    let mut trials = vec![trial(line, false)?];
    let tried = trial(line, true)?;
    if tried.input != trials[0].input {
        trials.push(tried);
    }
    Ok(trials)
}

/// The trial of a line; `sfu` puts every process into the SFU queue.
fn trial(line: &str, sfu: bool) -> Result<Trial, String> {
    let parts: Vec<&str> = line.split('|').map(str::trim).collect();
    let [name, before, program, endings, after] = parts[..] else {
        return Err("a trial has five parts".to_string());
    };
    let mut state = State::new();
    let told = |error: Error| format!("{name}: {}", error.reason);
    state.changes(before).map_err(told)?;
    state.program(program).map_err(told)?;
    state.draft.processes.iter_mut().for_each(|process| process.sfu = sfu);
    let image = state.draft.bytes();
    let (schedule, endings) = items(endings)?;
    if sfu && schedule.len() > 1 && state.draft.processes.len() > 1 {
        return Err(format!("{name}: several processes and items"));
    }
    let items = run(&mut state, &schedule, &endings);
    state.changes(after).map_err(told)?;
    settle(&mut state, &endings);
    let expected = report::answer(&state.draft, &items);
    let name = format!("{name}{}", if sfu { ", in a try" } else { "" });
    Ok(Trial { name, input: batch_input(&schedule, &image), expected })
}

/// Items and endings of `E 2:I T14`.
pub fn items(text: &str) -> Result<(Vec<u8>, Vec<&str>), String> {
    let item = |text| match str::split_once(text, ':') {
        Some((task, ending)) => task.parse().map(|task| (task, ending)),
        None => Ok((1, text)),
    };
    let items: Result<Vec<(u8, &str)>, _> = text.split_whitespace().map(item).collect();
    Ok(items.map_err(|_| "a bad item")?.into_iter().unzip())
}

/// The items in turn; those that aren't idle are the head process's.
fn run<'a>(state: &mut State, schedule: &[u8], endings: &[&'a str]) -> Vec<Item<'a>> {
    let item = |(&task, &ending)| {
        let tried = ending != "I" && attempt(state, ending);
        Item { task, ending, tried }
    };
    schedule.iter().zip(endings).map(item).collect()
}

/// Takes the head process, adds 1 to PC if it is executed, and says in which queue it ends; gives whether it was tried.
fn attempt(state: &mut State, ending: &str) -> bool {
    let process = state.stepping.get_or_insert_with(|| state.draft.processes.remove(0));
    let tried = process.sfu;
    match ending {
        "E" => {
            let pc = process.psw + 1;
            put(&mut process.psw, 0, 0xF_FFFF, pc);
            process.sfu = false;
        }
        "WD" => process.sfu = true,
        _ => {}
    }
    tried
}

/// Puts the process where the last ending leaves it, and records a trap.
fn settle(state: &mut State, endings: &[&str]) {
    let Some(process) = state.stepping.take() else { return };
    let kind = endings.iter().find_map(|ending| ending.strip_prefix('T'));
    let kind = kind.and_then(|kind| u8::from_str_radix(kind, 16).ok());
    match kind {
        Some(kind) => {
            (state.draft.tasks[0].kind, state.draft.tasks[0].trapped) = (kind, process.psw);
            state.draft.processes.insert(0, process);
        }
        None if state.leaves => {}
        None => state.draft.processes.push(process),
    }
    state.draft.processes.extend(state.joins);
    in_order(&mut state.draft.processes);
}

/// Puts processes into the order of an image, each queue as it is.
pub fn in_order(processes: &mut [Process]) {
    processes.sort_by_key(|process| (process.task, process.sfu));
}
