//! Whether the isolation promise (docs/PROMISES.md, demand 3) covers tasks in two runs, premise by premise.

use super::share::{instructions, meetings, share};
use super::text::{self, Source};
use crate::emulator::draft::{Draft, Task};
use crate::emulator::machine::{OwnCounts, NO_TRAP};

/// What a premise is about.
#[derive(Clone, Copy, PartialEq, Eq, Debug)]
pub enum Broken {
    Disagree,
    WindowsMeet,
    ItemsDiffer,
    FlagUp,
}

/// What a premise comes to: in words, whether it holds or not.
type Held = Result<String, String>;

/// A premise.
pub struct Premise {
    pub about: Broken,
    pub name: &'static str,
    pub held: Held,
}

/// The premises for a list of tasks: two inputs with their schedules, and the states after both runs.
pub fn premises(tasks: &[u8], inputs: [&Source; 2], after: [&Draft; 2]) -> Vec<Premise> {
    let drafts = inputs.map(|source| &source.draft);
    let mut agreed = Vec::new();
    for &task in tasks {
        agreed.extend(of_task(task, drafts));
    }
    agreed.push(("constant memory", constants(drafts)));
    let premise = |about, (name, held)| Premise { about, name, held };
    let agreed = agreed.into_iter().map(|named| premise(Broken::Disagree, named));
    let scheduled = premise(Broken::ItemsDiffer, ("schedules accepted", schedules(inputs)));
    let mut premises = vec![scheduled];
    premises.extend(agreed);
    premises.push(premise(Broken::ItemsDiffer, ("items", items(tasks, inputs))));
    premises.push(premise(Broken::WindowsMeet, ("windows of others", apart(tasks, drafts))));
    premises.push(premise(Broken::FlagUp, ("create fault flag", flags(after))));
    premises
}

/// The lines, whether all premises hold, and whether what the promise compares is equal after both runs.
pub struct Agreement {
    pub lines: String,
    pub covered: bool,
    pub equal: bool,
}

/// The premises in words, `!` before each that does not hold; compared are shares and own counts.
pub fn agree(
    tasks: &[u8],
    inputs: [&Source; 2],
    after: [&Draft; 2],
    own: [&OwnCounts; 2],
) -> Agreement {
    let premises = premises(tasks, inputs, after);
    let line = |Premise { name, held, .. }: &Premise| match held {
        Ok(said) => format!("  {name:<20}{said}\n"),
        Err(said) => format!("! {name:<20}{said}\n"),
    };
    let lines = premises.iter().map(line).collect();
    let covered = premises.iter().all(|premise| premise.held.is_ok());
    let of = |run: usize, task: u8| (share(after[run], task), own[run][usize::from(task)]);
    let equal = tasks.iter().all(|&task| of(0, task) == of(1, task));
    Agreement { lines, covered, equal }
}

fn flags(after: [&Draft; 2]) -> Held {
    let up = after.map(|draft| draft.flag != 0);
    both(up.map(|up| if up { "up" } else { "down" }.to_string()), up == [false; 2])
}

fn both([first, second]: [String; 2], holds: bool) -> Held {
    let said = format!("{first}, {second}");
    if holds {
        Ok(said)
    } else {
        Err(said)
    }
}

fn schedules(inputs: [&Source; 2]) -> Held {
    let items = inputs.map(|source| source.schedule.as_ref().map_or(0, Vec::len));
    let most = usize::from(u16::MAX);
    if items.iter().all(|items| *items <= most) {
        return both(items.map(|items| format!("{items} items")), true);
    }
    Err(format!("{} and {} items: the promise is for at most {most}", items[0], items[1]))
}

/// What two images agree on for one task.
fn of_task(task: u8, drafts: [&Draft; 2]) -> Vec<(&'static str, Held)> {
    let rows = drafts.map(|draft| draft.tasks.iter().find(|row| row.number == task));
    let yes = |listed: bool| if listed { "yes" } else { "no" }.to_string();
    let listed = rows.map(|row| row.is_some());
    let mut premises = vec![("listed", both(listed.map(yes), listed[0] == listed[1]))];
    let ([Some(first), Some(second)], [Some(a), Some(b)]) =
        (rows, drafts.map(|draft| share(draft, task)))
    else {
        return premises;
    };
    let words = [(0, first), (1, second)].map(|(i, row)| instructions(drafts[i], row));
    premises.push(("CB and windows", windows(first, second)));
    premises.push(("program words", same("word ", &words[0], &words[1], |word| text::show(*word))));
    premises.push(("registers", same("r", &a.registers, &b.registers, text::register)));
    premises.push(("data words", same("data ", &a.data, &b.data, text::data)));
    let queues = [("task's queue", &a.processes, &b.processes), ("SFU queue", &a.sfu, &b.sfu)];
    premises.extend(queues.map(|(name, first, second)| {
        (name, same("process ", first, second, |psw| text::psw_fields(*psw)))
    }));
    let records = [(a.kind, a.trapped), (b.kind, b.trapped)];
    let shown = records.map(|(kind, psw)| match kind {
        NO_TRAP => "none".to_string(),
        kind => format!("{kind:02X} {}", text::psw_fields(psw)),
    });
    premises.push(("trap record", both(shown, records[0] == records[1])));
    premises
}

fn windows(first: &Task, second: &Task) -> Held {
    let fields = |row: &Task| {
        let Task { cb, rb, rl, pb, pl, db, dl, .. } = *row;
        [
            ("cb", cb.into()),
            ("rb", rb.into()),
            ("rl", rl.into()),
            ("pb", pb.into()),
            ("pl", pl.into()),
            ("db", db),
            ("dl", dl),
        ]
    };
    let differ = fields(first).into_iter().zip(fields(second)).filter(|(a, b)| a != b);
    let differ: Vec<String> =
        differ.map(|((name, a), (_, b))| format!("{name} is {a} and {b}")).collect();
    if differ.is_empty() {
        return Ok("the same".to_string());
    }
    Err(differ.join(", "))
}

/// Two lists entry by entry: the first that differs, and how many do.
fn same<T: PartialEq>(name: &str, first: &[T], second: &[T], show: impl Fn(&T) -> String) -> Held {
    if first.len() != second.len() {
        return Err(format!("{} and {} of them", first.len(), second.len()));
    }
    let differ: Vec<usize> = (0..first.len()).filter(|&i| first[i] != second[i]).collect();
    match differ[..] {
        [] => Ok(format!("the same, {} of them", first.len())),
        [i, ..] => {
            let (a, b) = (show(&first[i]), show(&second[i]));
            Err(format!("{name}{i} is {a} and {b} ({} differ)", differ.len()))
        }
    }
}

/// Every real address of constant memory, word and quality; past the count both are zero.
fn constants(drafts: [&Draft; 2]) -> Held {
    let count = drafts.iter().map(|draft| draft.constants.len()).max().unwrap_or(0);
    let [first, second] = drafts.map(|draft| {
        let mut cells = draft.constants.clone();
        cells.resize(count, (0, 0));
        cells
    });
    same("constant ", &first, &second, text::constant)
        .map(|_| "the same at every real address".to_string())
}

/// Both schedules with the other tasks struck out are the same list.
fn items(tasks: &[u8], inputs: [&Source; 2]) -> Held {
    let own = |source: &Source| -> Vec<u8> {
        let items = source.schedule.iter().flatten();
        items.copied().filter(|item| tasks.contains(item)).collect()
    };
    let [first, second] = inputs.map(own);
    both([&first, &second].map(|items| items.len().to_string()), first == second)
}

/// That no register or data window of the tasks meets one of a task outside, in either image.
fn apart(tasks: &[u8], drafts: [&Draft; 2]) -> Held {
    let met = drafts.map(|draft| {
        let met = tasks.iter().flat_map(|&task| meetings(draft, task));
        met.filter(|meeting| !tasks.contains(&meeting.other)).collect::<Vec<_>>()
    });
    let shown = met.each_ref().map(|met| match met.first() {
        None => "meet none".to_string(),
        Some(meeting) => meeting.to_string(),
    });
    both(shown, met.iter().all(Vec::is_empty))
}
