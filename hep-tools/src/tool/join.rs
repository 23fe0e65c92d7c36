//! Jobs joined into one image or input: each a task of its own, the windows behind each other, one constant memory for all.

use super::share::{self, instructions};
use super::text::{constant, Source};
use crate::emulator::draft::{Draft, Process, Task};
use crate::emulator::machine::PROCESSES;

/// The most live processes with the create fault flag down.
const MOST_PROCESSES: usize = PROCESSES - 1;

/// A job: what it is called in messages, and its image of one task.
pub struct Job<'a> {
    pub name: &'a str,
    pub source: &'a Source,
}

/// The jobs in one image, as task 1, 2 and so on; with their schedules in turn where they have some. Or which job cannot go in, and why.
pub fn join(jobs: &[Job]) -> Result<Source, String> {
    let mut joined = Draft { constants: constants(jobs)?, ..Draft::default() };
    for (number, job) in (1..).zip(jobs) {
        add(&mut joined, number, job)?;
    }
    let live = joined.processes.len();
    if live > MOST_PROCESSES {
        return Err(format!("the jobs have {live} processes together, over {MOST_PROCESSES}"));
    }
    Ok(Source { schedule: schedule(jobs)?, draft: joined })
}

/// A job's one task.
fn task_of(job: &Job) -> Result<Task, String> {
    match job.source.draft.tasks[..] {
        [task] => Ok(task),
        ref tasks => Err(format!("{}: it has {} tasks, and a job has one", job.name, tasks.len())),
    }
}

/// The constants of all jobs: where one has fewer, the others must have zeros, since that is what it reads there.
fn constants(jobs: &[Job]) -> Result<Vec<(u8, u64)>, String> {
    let Some(longest) = jobs.iter().max_by_key(|job| job.source.draft.constants.len()) else {
        return Ok(Vec::new());
    };
    let common = &longest.source.draft.constants;
    for job in jobs {
        let own = &job.source.draft.constants;
        let at = |place: usize| own.get(place).copied().unwrap_or_default();
        if let Some(place) = (0..common.len()).find(|&place| at(place) != common[place]) {
            let (read, other) = (constant(&at(place)), constant(&common[place]));
            return Err(format!(
                "{}: constant {place} is {read}, in {} it is {other}: the jobs need one constant memory",
                job.name, longest.name
            ));
        }
    }
    Ok(common.clone())
}

/// Adds a job as this task, its windows behind those that are there.
fn add(joined: &mut Draft, number: u8, job: &Job) -> Result<(), String> {
    let (task, draft) = (task_of(job)?, &job.source.draft);
    if draft.flag != 0 {
        return Err(format!("{}: its create fault flag is up", job.name));
    }
    let own = share::share(draft, task.number).expect("the task is listed");
    let (rb, rl) = placed(&mut joined.registers, own.registers, share::REGISTER_UNIT);
    let (pb, pl) = placed(&mut joined.program, instructions(draft, &task), share::PROGRAM_UNIT);
    let (db, dl) = placed(&mut joined.data, own.data, share::DATA_UNIT);
    let [rb, rl, pb, pl] = [rb, rl, pb, pl].map(|field| field as u16);
    let [db, dl] = [db, dl].map(|field| field as u32);
    joined.tasks.push(Task { number, rb, rl, pb, pl, db, dl, ..task });
    let waiting = own.sfu.into_iter().map(|psw| (psw, true));
    for (psw, sfu) in own.processes.into_iter().map(|psw| (psw, false)).chain(waiting) {
        let pt = joined.processes.len() as u8;
        joined.processes.push(Process { sfu, ..Process::new(pt, number, psw) });
    }
    Ok(())
}

/// Puts a window's cells behind those of the memory; base and limit, of an empty window those of an empty one.
fn placed<T>(memory: &mut Vec<T>, window: Vec<T>, unit: usize) -> (usize, usize) {
    if window.is_empty() {
        return (1, 0);
    }
    let base = memory.len() / unit;
    memory.extend(window);
    (base, memory.len() / unit - 1)
}

/// An item of each job in turn until all are taken; none if no job has a schedule.
fn schedule(jobs: &[Job]) -> Result<Option<Vec<u8>>, String> {
    if jobs.iter().all(|job| job.source.schedule.is_none()) {
        return Ok(None);
    }
    let counts = jobs.iter().map(items).collect::<Result<Vec<usize>, String>>()?;
    let most = counts.iter().copied().max().unwrap_or(0);
    let turn = |i: usize| (1..).zip(&counts).filter(move |(_, &count)| i < count).map(|(n, _)| n);
    Ok(Some((0..most).flat_map(turn).collect()))
}

/// How many items a job has, all of its own task.
fn items(job: &Job) -> Result<usize, String> {
    let Some(schedule) = &job.source.schedule else {
        return Err(format!("{}: it has no schedule, and others have one", job.name));
    };
    let own = task_of(job)?.number;
    match schedule.iter().find(|&&item| item != own) {
        Some(item) => {
            Err(format!("{}: an item is of task {item}, and its task is {own}", job.name))
        }
        None => Ok(schedule.len()),
    }
}
