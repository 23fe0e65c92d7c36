//! Where each live process stands at the end of a run: what it waits for and who last changed that cell, or why it trapped.

use super::reason::{reason, Look};
use super::taken::{item, live, place, queue, Cell, Taken};
use super::text::{psw_fields, Symbols};
use crate::emulator::machine::{
    Attempt, Ending, Machine, OwnCounts, CREATE_FAULT, SUPERVISOR_CALL,
};
use std::collections::HashMap;

/// An attempt of the run that changed a cell or trapped.
#[derive(Clone, Copy)]
struct Made {
    item: usize,
    taken: Taken,
}

/// A run, and what is known of it.
struct Ran<'a> {
    machine: Machine,
    symbols: &'a Symbols,
    /// The last attempt that changed each cell.
    changed: HashMap<Cell, Made>,
    /// The attempt that trapped in each task.
    trapped: HashMap<u8, Made>,
    /// The item that raised the create fault flag.
    fault_at: Option<usize>,
    /// None of a schedule without items.
    own: Option<OwnCounts>,
}

/// Runs the schedule and says of each task what its items came to, and where each live process stands.
pub fn why(machine: Machine, schedule: &[u8], symbols: &Symbols) -> (String, Machine) {
    let mut ran = run(machine, schedule, symbols);
    let mut out = String::new();
    if ran.machine.create_fault() {
        let since = ran.fault_at.map_or("before the run".into(), |item| format!("item {item}"));
        out += &format!("the create fault flag is up since {since}: every create waits\n");
    }
    let listed: Vec<u8> = ran.machine.tasks().collect();
    for task in (1..=7).filter(|task| listed.contains(task) || schedule.contains(task)) {
        out += &match listed.contains(&task) {
            true => ran.task(task),
            false => format!("task {task}: not listed, so it is idle{}\n", ran.counts_told(task)),
        };
    }
    (out, ran.machine)
}

fn run<'a>(mut machine: Machine, schedule: &[u8], symbols: &'a Symbols) -> Ran<'a> {
    let (mut changed, mut trapped) = (HashMap::new(), HashMap::new());
    let own = (!schedule.is_empty()).then(|| machine.clone().run(schedule).own);
    let mut fault_at = None;
    for (number, &task) in schedule.iter().enumerate() {
        let before = |machine: &Machine, taken: Taken| (taken, taken.changes(machine));
        let after = |_: &Machine, (taken, cells): (Taken, Vec<Cell>), ending: Ending| {
            let made = Made { item: number, taken };
            if let Ending::Executed | Ending::Trapped { kind: CREATE_FAULT, .. } = ending {
                changed.extend(cells.into_iter().map(|cell| (cell, made)));
            }
            if let Ending::Trapped { .. } = ending {
                trapped.insert(task, made);
            }
        };
        let flag = machine.create_fault();
        item(&mut machine, task, before, after);
        if machine.create_fault() && !flag {
            fault_at = Some(number);
        }
    }
    Ran { machine, symbols, changed, trapped, fault_at, own }
}

impl Ran<'_> {
    /// The lines of a task.
    fn task(&mut self, task: u8) -> String {
        let count = live(&self.machine, task).len();
        let (processes, counts) = (self.processes_told(task), self.counts_told(task));
        let Some((kind, psw)) = self.machine.trap_record(task) else {
            let lines = [Attempt::Step, Attempt::Try].map(|attempt| self.queue(task, attempt));
            return format!("task {task}: {processes}{counts}\n{}", lines.concat());
        };
        let (when, taken) = match self.trapped.get(&task) {
            Some(made) => (format!("at item {}", made.item), Some(made.taken)),
            None => ("before the run".to_string(), self.trapped_before(task, kind, psw)),
        };
        let mut out = format!("task {task}: {processes}, trapped {kind:02X} {when}{counts}\n");
        if let Some(taken) = taken {
            out += &self.standing(&taken, Ending::Trapped { kind, psw });
        }
        let still = count.saturating_sub(1);
        if still > 0 {
            out += &format!(
                "  the others ({still}) stand still: a trapped task neither tries nor steps\n"
            );
        }
        out
    }

    /// How many processes a task has, and how many of them are in its SFU queue.
    fn processes_told(&self, task: u8) -> String {
        let all = match live(&self.machine, task).len() {
            1 => "1 process".to_string(),
            n => format!("{n} processes"),
        };
        match queue(&self.machine, task, Attempt::Try).len() {
            0 => all,
            n => format!("{all}, {n} in the SFU queue"),
        }
    }

    /// What a task's items came to.
    fn counts_told(&self, task: u8) -> String {
        self.own.map_or(String::new(), |own| format!("; {}", own[usize::from(task)]))
    }

    /// The head of the queue in which a task was trapped before the run, where PC is still at the instruction: the one with the trapped
    /// status word, of the task's queue if neither or both have it.
    fn trapped_before(&self, task: u8, kind: u8, psw: u64) -> Option<Taken> {
        let heads = [Attempt::Step, Attempt::Try].map(|attempt| {
            let head = queue(&self.machine, task, attempt).first().copied();
            head.map(|(pt, own)| (attempt, pt, own == psw))
        });
        let mut heads: Vec<(Attempt, u8, bool)> = heads.into_iter().flatten().collect();
        heads.sort_by_key(|(_, _, same)| !same);
        let &(attempt, pt, _) = heads.first()?;
        let there = !matches!(kind, SUPERVISOR_CALL | CREATE_FAULT);
        there.then(|| Taken::of(&self.machine, attempt, task, pt, psw))
    }

    /// The processes of one of the queues of a task that is not trapped.
    fn queue(&self, task: u8, attempt: Attempt) -> String {
        let count = queue(&self.machine, task, attempt).len();
        (0..count).map(|place| self.process(task, attempt, place)).collect()
    }

    /// A process by its place in its queue: its next attempt is made on a copy.
    fn process(&self, task: u8, attempt: Attempt, place: usize) -> String {
        let mut copy = self.machine.clone();
        let row = &mut copy.rows[usize::from(task)];
        (0..place).for_each(|_| row.attempted(attempt).rotate());
        let Some(taken) = Taken::head(&copy, task, attempt) else { return String::new() };
        let ending = copy.attempt(task, attempt);
        let mut out = self.standing(&taken, ending);
        if ending == Ending::Waved {
            let look = Look { machine: &self.machine, symbols: self.symbols, taken: &taken };
            for unmet in look.unmet() {
                out += &format!("      {}: {}\n", unmet.name, self.last_change(unmet.cell));
            }
        }
        out
    }

    /// Where a process stands, and what its attempt comes to.
    fn standing(&self, taken: &Taken, ending: Ending) -> String {
        let at = self.place(taken);
        let instruction = taken.instruction(&self.machine, self.symbols);
        let look = Look { machine: &self.machine, symbols: self.symbols, taken };
        let (queue, next) = match taken.attempt {
            Attempt::Step => ("", "item"),
            Attempt::Try => (" (SFU queue)", "try"),
        };
        let said = match ending {
            Ending::Executed | Ending::Idle => format!("goes on at its next {next}"),
            Ending::Waved => reason(look, ending),
            Ending::Trapped { kind, .. } if self.machine.trap_record(taken.task).is_some() => {
                format!("trap {kind:02X}: {}", reason(look, ending))
            }
            Ending::Trapped { kind, .. } => {
                format!("will trap {kind:02X} at its next {next}: {}", reason(look, ending))
            }
        };
        format!("  PT {}{queue} at {at}: {instruction}\n      {said}\n", taken.pt)
    }

    fn place(&self, taken: &Taken) -> String {
        match place(&self.machine, self.symbols, taken.task, taken.pc()) {
            Some(place) => format!("{place} ({})", psw_fields(taken.psw)),
            None => psw_fields(taken.psw),
        }
    }

    /// Who last changed a cell.
    fn last_change(&self, cell: Cell) -> String {
        let Some(Made { item, taken }) = self.changed.get(&cell) else {
            return "as it was at the start, nobody changed it".to_string();
        };
        let at = self.place(taken);
        let instruction = taken.instruction(&self.machine, self.symbols);
        let (task, pt) = (taken.task, taken.pt);
        format!("last changed at item {item} by task {task}, PT {pt} at {at}: {instruction}")
    }
}
