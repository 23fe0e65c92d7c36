//! Rows: their fields, their order, and their windows beside the memories.

use super::*;

pub fn all(edges: &mut Edges) {
    fields(edges);
    kinds(edges);
    trapped_psws(edges);
    order(edges);
    windows(edges);
    seven_windows(edges);
}

fn fields(edges: &mut Edges) {
    let mut row = |name: &str, number, change: &dyn Fn(&mut Task)| {
        edges.both(name, number, |draft| change(&mut draft.tasks[0]));
    };
    row("CB", 0, &|task| task.cb = 0xFFF);
    row("CB passed", 3, &|task| task.cb = 0x1000);
    row("RB", 0, &|task| task.rb = 0x3FF);
    row("RB passed", 3, &|task| task.rb = 0x400);
    row("RL", 5, &|task| task.rl = 0x3FF);
    row("RL passed", 3, &|task| task.rl = 0x400);
    row("PB", 0, &|task| task.pb = 0xFFFF);
    row("PL", 5, &|task| task.pl = 0xFFFF);
    row("DB", 0, &|task| task.db = 0xFF_FFFF);
    row("DB passed", 3, &|task| task.db = 0x100_0000);
    row("DL", 5, &|task| task.dl = 0xFF_FFFF);
    row("DL passed", 3, &|task| task.dl = 0x100_0000);
    row("RL by one unit", 5, &|task| task.rl = 1);
    row("PL by one unit", 5, &|task| task.pl = 1);
    row("DL by one unit", 5, &|task| task.dl = 1);
    row("empty windows", 0, &|task| *task = Task::empty(1));
    for (rl, number) in [(0x3FF, 0), (0x400, 3)] {
        let change = |draft: &mut Draft| {
            (draft.tasks[0].rl, draft.registers) = (rl, cells(2_048, 0));
        };
        edges.image(format!("RL {rl:X} over all registers"), &bare(change), number);
    }
}

fn kinds(edges: &mut Edges) {
    for kind in 0..=255 {
        let legal = [0x00, 0x12, 0x14, 0x16, 0x1A, 0x1C, 0x1E, 0xFF].contains(&kind);
        let number = if legal { 0 } else { 3 };
        edges.both(&format!("kind {kind:02X}"), number, |draft| draft.tasks[0].kind = kind);
    }
}

fn trapped_psws(edges: &mut Edges) {
    for bit in 0..64 {
        let number = if processes::is_status_bit(bit) { 0 } else { 3 };
        edges.both(&format!("bit {bit} of a trapped PSW"), number, |draft| {
            (draft.tasks[0].kind, draft.tasks[0].trapped) = (0x12, 1 << bit)
        });
        let beside = format!("bit {bit} of a PSW beside FF");
        edges.both(&beside, 3, |draft| draft.tasks[0].trapped = 1 << bit);
    }
}

/// The tasks ascend from 1 to 7.
fn order(edges: &mut Edges) {
    for task in [0, 1, 7, 8] {
        let number = if (1..=7).contains(&task) { 0 } else { 3 };
        let draft = Draft { tasks: rows_of([task]), ..Draft::default() };
        edges.image(format!("the row of task {task}"), &draft, number);
    }
    for task in [0, 8] {
        let name = format!("the bench's task {task}");
        edges.image(name, &bench(|draft| draft.tasks[0].number = task), 3);
    }
    for first in 1..=7 {
        for second in 0..=8 {
            let number = if first < second && second <= 7 { 0 } else { 3 };
            let draft = Draft { tasks: rows_of([first, second]), ..Draft::default() };
            edges.image(format!("rows of tasks {first} and {second}"), &draft, number);
        }
    }
    for (second, number) in [(0, 3), (1, 3), (2, 0), (7, 0), (8, 3)] {
        let push = |draft: &mut Draft| draft.tasks.push(Task::empty(second));
        edges.image(format!("task {second} behind the bench's"), &bench(push), number);
    }
    let turned = Draft { tasks: rows_of([1, 2, 3, 4, 5, 7, 6]), ..Draft::default() };
    edges.image("the last two of seven rows turned", &turned, 3);
}

/// Makes a window of a draft's first task: base, limit, and a memory of so many places.
type Window = fn(&mut Draft, u16, u16, usize);

/// The windows: name, places to a unit.
const WINDOWS: [(&str, usize, Window); 3] = [
    ("registers", 2, |draft, base, limit, places| {
        (draft.tasks[0].rb, draft.tasks[0].rl) = (base, limit);
        draft.registers = cells(places, 0);
    }),
    ("program", 16, |draft, base, limit, places| {
        (draft.tasks[0].pb, draft.tasks[0].pl) = (base, limit);
        draft.program = words(places);
    }),
    ("data", 32, |draft, base, limit, places| {
        (draft.tasks[0].db, draft.tasks[0].dl) = (base.into(), limit.into());
        draft.data = cells(places, 0);
    }),
];

/// A window ends with its memory, one place past it, and one place before it; an empty window ends nowhere.
fn windows(edges: &mut Edges) {
    for (name, block, window) in WINDOWS {
        for limit in [0, 1, 3] {
            let places = block * (usize::from(limit) + 1);
            for base in if limit == 0 { vec![0] } else { vec![0, limit] } {
                for (places, number) in [(places - 1, 5), (places, 0), (places + 1, 0)] {
                    let draft = bare(|draft| window(draft, base, limit, places));
                    let name = format!("{places} places, window of {name} {base} to {limit}");
                    edges.image(name, &draft, number);
                }
            }
            let empty = bare(|draft| window(draft, limit + 1, limit, 0));
            edges.image(format!("an empty window of {name} behind {limit}"), &empty, 0);
        }
        for (places, number) in [(block - 1, 5), (block + 1, 0)] {
            let draft = bench(|draft| window(draft, 0, 0, places));
            edges.image(format!("{places} places on the bench, {name}"), &draft, number);
        }
    }
    for (places, number) in [(2_048, 0), (2_047, 5)] {
        let (_, _, registers) = WINDOWS[0];
        let draft = bare(|draft| registers(draft, 0, 0x3FF, places));
        edges.image(format!("a window of all registers, {places} there"), &draft, number);
    }
}

/// One row of seven has a window that isn't empty.
fn seven_windows(edges: &mut Edges) {
    for place in 0..7 {
        for (registers, number) in [(2, 0), (1, 5)] {
            let mut tasks = rows_of(1..=7);
            tasks[place].rb = 0;
            let draft = Draft { tasks, registers: cells(registers, 0), ..Draft::default() };
            let name = format!("the window of row {place} of seven, {registers} registers");
            edges.image(name, &draft, number);
        }
    }
}
