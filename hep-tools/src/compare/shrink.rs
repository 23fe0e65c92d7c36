//! Shrinking: a smaller input that still differs.

use crate::emulator::batch::split;
use crate::emulator::draft::{batch_input, Task};
use crate::emulator::image;
use crate::tool::text::Source;

/// The search: what is left of the tries, and whether an input still differs.
struct Search<'a> {
    tries: usize,
    differs: &'a mut dyn FnMut(&[u8]) -> bool,
}

impl Search<'_> {
    /// Takes the changed value if it still differs.
    fn accept<S: Shrunk>(&mut self, best: &mut S, changed: S) {
        if self.tries > 0 && changed != *best {
            self.tries -= 1;
            if (self.differs)(&changed.to_bytes()) {
                *best = changed;
            }
        }
    }
}

/// An input that still differs, as small as so many tries get it.
pub fn shrink(input: Vec<u8>, tries: usize, differs: &mut dyn FnMut(&[u8]) -> bool) -> Vec<u8> {
    let mut search = Search { tries, differs };
    let mut best = input;
    loop {
        let before = best.clone();
        match fields(&best) {
            Some(source) => best = by_fields(source, &mut search).bytes(),
            None => by_bytes(&mut best, &mut search),
        }
        if best == before || search.tries == 0 {
            return best;
        }
    }
}

/// The fields of an input whose image is accepted.
fn fields(input: &[u8]) -> Option<Source> {
    let (schedule, image) = split(input)?;
    let draft = image::draft(&image::read(image).ok()?);
    Some(Source { schedule: Some(schedule.to_vec()), draft })
}

fn by_fields(mut source: Source, search: &mut Search) -> Source {
    let best = &mut source;
    chunks(best, search, |s| s.schedule.get_or_insert_default(), None);
    chunks(best, search, |s| &mut s.draft.processes, None);
    drop_tasks(best, search);
    chunks(best, search, |s| &mut s.draft.program, Some(0));
    chunks(best, search, |s| &mut s.draft.registers, Some((0, 0)));
    chunks(best, search, |s| &mut s.draft.data, Some((1, 0)));
    chunks(best, search, |s| &mut s.draft.constants, Some((0, 0)));
    chunks(best, search, |s| &mut s.draft.program, None);
    chunks(best, search, |s| &mut s.draft.registers, None);
    chunks(best, search, |s| &mut s.draft.data, None);
    chunks(best, search, |s| &mut s.draft.constants, None);
    clear_status(best, search);
    to_own_queues(best, search);
    source
}

/// What is shrunk: something with bytes.
trait Shrunk: Clone + PartialEq {
    fn to_bytes(&self) -> Vec<u8>;
}

impl Shrunk for Source {
    fn to_bytes(&self) -> Vec<u8> {
        self.bytes()
    }
}

impl Shrunk for Vec<u8> {
    fn to_bytes(&self) -> Vec<u8> {
        self.clone()
    }
}

/// A schedule and the bytes behind it.
impl Shrunk for (Vec<u8>, Vec<u8>) {
    fn to_bytes(&self) -> Vec<u8> {
        batch_input(&self.0, &self.1)
    }
}

/// Drops chunks of a list from its end, or makes them blank; smaller and smaller ones.
fn chunks<S: Shrunk, T: Clone>(
    best: &mut S,
    search: &mut Search,
    list: fn(&mut S) -> &mut Vec<T>,
    blank: Option<T>,
) {
    let mut size = list(best).len();
    while size > 0 {
        let mut end = list(best).len();
        while end > 0 {
            let start = end.saturating_sub(size);
            let mut changed = best.clone();
            match &blank {
                Some(blank) => list(&mut changed)[start..end].fill(blank.clone()),
                None => drop(list(&mut changed).drain(start..end)),
            }
            search.accept(best, changed);
            end = start;
        }
        size /= 2;
    }
}

/// Drops tasks with their processes, or empties their windows.
fn drop_tasks(source: &mut Source, search: &mut Search) {
    for number in 1..=7 {
        let mut changed = source.clone();
        changed.draft.tasks.retain(|task| task.number != number);
        changed.draft.processes.retain(|process| process.task != number);
        search.accept(source, changed);
        for window in [clear_registers, clear_program, clear_data] {
            let mut changed = source.clone();
            changed.draft.tasks.iter_mut().filter(|task| task.number == number).for_each(window);
            search.accept(source, changed);
        }
    }
}

fn clear_registers(task: &mut Task) {
    (task.rb, task.rl) = (1, 0);
}

fn clear_program(task: &mut Task) {
    (task.pb, task.pl) = (1, 0);
}

fn clear_data(task: &mut Task) {
    (task.db, task.dl) = (1, 0);
}

/// Makes status words and constant bases zero.
fn clear_status(source: &mut Source, search: &mut Search) {
    for i in 0..source.draft.processes.len() {
        let mut changed = source.clone();
        changed.draft.processes[i].psw &= crate::emulator::psw::PC;
        search.accept(source, changed);
    }
    for i in 0..source.draft.tasks.len() {
        let mut changed = source.clone();
        changed.draft.tasks[i].cb = 0;
        search.accept(source, changed);
    }
}

/// Puts processes of SFU queues into their tasks' own.
fn to_own_queues(source: &mut Source, search: &mut Search) {
    for i in 0..source.draft.processes.len() {
        let mut changed = source.clone();
        changed.draft.processes[i].sfu = false;
        search.accept(source, changed);
    }
}

/// Drops chunks of the schedule, of what follows it, and of the bytes.
fn by_bytes(best: &mut Vec<u8>, search: &mut Search) {
    if let Some((schedule, rest)) = split(best) {
        let mut parts = (schedule.to_vec(), rest.to_vec());
        chunks(&mut parts, search, |parts| &mut parts.0, None);
        chunks(&mut parts, search, |parts| &mut parts.1, None);
        *best = parts.to_bytes();
    }
    chunks(best, search, |bytes| bytes, None);
}
