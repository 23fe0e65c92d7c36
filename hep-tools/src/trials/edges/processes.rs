//! Processes: their fields, their order, their number, and the flag.

use super::*;

pub fn all(edges: &mut Edges) {
    numbers(edges);
    tasks(edges);
    task_bytes(edges);
    status_words(edges);
    flags(edges);
    crowds(edges);
    numbers_twice(edges);
    both_queues(edges);
}

/// Whether a status word may have this bit, counted from the right.
pub fn is_status_bit(bit: u32) -> bool {
    bit < 56 && !(20..24).contains(&bit)
}

fn process(pt: u8, task: u8) -> Process {
    Process::new(pt, task, 0)
}

/// Rows of tasks 2 and 5, and these processes.
fn two_and_five(processes: &[Process]) -> Draft {
    Draft { tasks: rows_of([2, 5]), processes: processes.to_vec(), ..Draft::default() }
}

fn numbers(edges: &mut Edges) {
    for (pt, number) in [(0, 0), (63, 0), (64, 12), (255, 12)] {
        edges.image(format!("PT {pt}"), &bench(|draft| draft.processes[0].pt = pt), number);
        edges.image(format!("PT {pt} of task 2"), &two_and_five(&[process(pt, 2)]), number);
    }
}

/// A process's task is listed, and tasks do not descend.
fn tasks(edges: &mut Edges) {
    for task in [0, 2, 8, 255] {
        let draft = bench(|draft| draft.processes[0].task = task);
        edges.image(format!("a process of task {task} where 1 is listed"), &draft, 12);
    }
    for task in (0..=9).chain([255]) {
        let number = if [2, 5].contains(&task) { 0 } else { 12 };
        let name = format!("a process of task {task} where 2 and 5 are listed");
        edges.image(name, &two_and_five(&[process(0, task)]), number);
    }
    for (first, second) in [(2, 2), (2, 5), (5, 5), (5, 2)] {
        let number = if first <= second { 0 } else { 12 };
        let draft = two_and_five(&[process(0, first), process(1, second)]);
        edges.image(format!("processes of tasks {first} and {second}"), &draft, number);
    }
    for (first, second, number) in [(1, 1, 0), (1, 2, 0), (2, 2, 0), (2, 1, 12)] {
        let two = |draft: &mut Draft| {
            draft.tasks.push(Task::empty(2));
            draft.processes = vec![process(5, first), process(4, second)];
        };
        let name = format!("processes of tasks {first} and {second} on the bench");
        edges.image(name, &bench(two), number);
    }
}

/// Hex 10 added to a task byte is the task's SFU queue, which stands behind the task's own.
fn task_bytes(edges: &mut Edges) {
    let ascending = [2, 0x12, 5, 0x15];
    for byte in 0..=255 {
        let number = if ascending.contains(&byte) { 0 } else { 12 };
        let draft = two_and_five(&[process(0, byte)]);
        edges.image(format!("task byte {byte:02X} where 2 and 5 are listed"), &draft, number);
        let seven = Draft { tasks: rows_of(1..=7), ..draft };
        let number = if (1..8).contains(&(byte & !0x10)) { 0 } else { 12 };
        edges.image(format!("task byte {byte:02X} where all are listed"), &seven, number);
        // A field is tested once all its bytes are there: the task byte before a missing PSW.
        let whole = seven.bytes();
        let cut = whole.len() - Draft::default().bytes().len() + 3 - 8;
        let number = if number == 0 { 1 } else { 12 };
        edges.bytes(format!("task byte {byte:02X}, then the end"), &whole[..cut], number);
    }
    for (i, first) in ascending.into_iter().enumerate() {
        for (j, second) in ascending.into_iter().enumerate() {
            let draft = two_and_five(&[process(0, first), process(1, second)]);
            let name = format!("task bytes {first:02X} and {second:02X}");
            edges.image(name, &draft, if i <= j { 0 } else { 12 });
        }
    }
}

fn status_words(edges: &mut Edges) {
    for bit in 0..64 {
        let number = if is_status_bit(bit) { 0 } else { 12 };
        edges.both(&format!("bit {bit} of a PSW"), number, |draft| {
            draft.processes = vec![Process { psw: 1 << bit, ..process(0, 1) }]
        });
    }
}

fn flags(edges: &mut Edges) {
    for flag in 0..=255 {
        let number = if flag < 2 { 0 } else { 12 };
        edges.image(format!("flag {flag}"), &Draft { flag, ..Draft::default() }, number);
        edges.image(format!("flag {flag} on the bench"), &bench(|draft| draft.flag = flag), number);
    }
}

/// 64 processes need the flag, 65 are too many.
fn crowds(edges: &mut Edges) {
    for (count, flag, number) in [(63, 0, 0), (63, 1, 0), (64, 0, 6), (64, 1, 0), (65, 1, 2)] {
        let name = format!("{count} processes, flag {flag}");
        edges.both(&name, number, |draft| (draft.processes, draft.flag) = (crowd(count), flag));
    }
    for (flag, number) in [(0, 6), (1, 0)] {
        let spread = (0..64).map(|i| process(63 - i, i / 10 + 1)).collect();
        let draft = Draft { tasks: rows_of(1..=7), processes: spread, flag, ..Draft::default() };
        edges.image(format!("64 processes of seven tasks, flag {flag}"), &draft, number);
    }
}

fn numbers_twice(edges: &mut Edges) {
    for (first, second, number) in [(0, 1, 0), (0, 0, 6), (63, 63, 6)] {
        let two = |draft: &mut Draft| draft.processes = vec![process(first, 1), process(second, 1)];
        edges.both(&format!("PTs {first} and {second}"), number, two);
    }
    for again in [0, 62] {
        edges.both(&format!("PTs 0 to 62, and {again} again"), 6, |draft| {
            (draft.processes, draft.flag) = ([crowd(63), vec![process(again, 1)]].concat(), 1)
        });
    }
    let processes = vec![process(9, 1), process(9, 2)];
    let draft = Draft { tasks: rows_of([1, 2]), processes, ..Draft::default() };
    edges.image("a PT in two tasks", &draft, 6);
}

/// A PT twice, and 64 with the flag down, go over both queues.
fn both_queues(edges: &mut Edges) {
    let rows = rows_of([1, 2]);
    for (first, second) in [(1, 0x11), (0x11, 0x11), (0x11, 2), (0x11, 0x12), (1, 0x12)] {
        for (again, number) in [(9, 6), (8, 0)] {
            let processes = vec![process(9, first), process(again, second)];
            let draft = Draft { tasks: rows.clone(), processes, ..Draft::default() };
            let name = format!("PTs 9 and {again} under task bytes {first:02X} and {second:02X}");
            edges.image(name, &draft, number);
        }
    }
    for (count, flag, number) in [(63, 0, 0), (64, 0, 6), (64, 1, 0), (65, 1, 2)] {
        for own in [0, 1, 32, 63] {
            edges.both(
                &format!("{count} processes, {own} of them own, flag {flag}"),
                number,
                |draft| {
                    (draft.processes, draft.flag) = (crowd(count), flag);
                    draft.processes[own..].iter_mut().for_each(|process| process.sfu = true);
                },
            );
        }
    }
}
