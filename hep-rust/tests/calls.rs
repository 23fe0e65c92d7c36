//! The printed case of document 01, each refusal that a caller of this crate can meet, lengths, what an image holds, and the header's numbers.

use hep::{sys, Cell, Counts, Filling, Refusal};
use hep_tools::emulator::draft::{batch_input, Draft, Process, Task};
use hep_tools::emulator::image;
use hep_tools::emulator::machine::PROTECTION;
use hep_tools::generate;
use hep_tools::tool::share::{instructions, share};
use hep_tools::tool::text;
use hep_tools::trials::edges;

const PRINTED: &str = "1 1 14 00000 E0 W0 T1 I0 S0\nE0 W0 T1 I0 S0 CF0\n";

fn printed() -> Vec<u8> {
    hep::example_image()
}

/// Task 1 with a window in each memory and a process that creates another.
fn creating() -> Vec<u8> {
    let text = "hep image
        task 1 cb=0 rb=0 rl=0 pb=0 pl=0 db=0 dl=0
        process 5 task=1
        registers
        full 0 * 2
        program
        CREATE c0, c0
        NOP * 15
        data
        empty 0 * 32";
    text::assemble(text).unwrap().bytes()
}

#[test]
fn printed_case() {
    let outcome = hep::run(&printed(), &[1]).unwrap();
    assert_eq!(outcome.report, PRINTED);
    let one = Counts { trapped: 1, ..Counts::default() };
    assert_eq!((outcome.counts, outcome.own(1)), (one, one));
    let mut after = image::draft(&image::read(&printed()).unwrap());
    after.tasks[0].kind = PROTECTION;
    assert_eq!(outcome.image, after.bytes());
    assert_eq!(hep::batch(&batch_input(&[1], &printed())), PRINTED);
}

#[test]
fn the_example_is_the_printed_case() {
    let draft = Draft {
        tasks: vec![Task::empty(1)],
        processes: vec![Process::new(0, 1, 0)],
        ..Draft::default()
    };
    assert_eq!(printed(), draft.bytes());
}

#[test]
fn no_items() {
    let outcome = hep::run(&printed(), &[]).unwrap();
    assert_eq!(outcome.image, printed());
    assert_eq!(outcome.report, "1 1 -- ----- E0 W0 T0 I0 S0\nE0 W0 T0 I0 S0 CF0\n");
}

#[test]
fn sizes() {
    let n = hep::sizes(&creating()).unwrap();
    assert_eq!((n.rows, n.constants, n.registers, n.program, n.data_words), (1, 0, 2, 16, 32));
}

#[test]
fn images_refused() {
    let refusals = [
        Refusal::InputEnds,
        Refusal::CountOverLimit,
        Refusal::TaskField,
        Refusal::BytesLeftOver,
        Refusal::WindowPastMemory,
        Refusal::ProcessesClash,
        Refusal::ProcessField,
        Refusal::CellField,
        Refusal::ConstantField,
    ];
    for ((number, image), refusal) in edges::smallest().iter().zip(refusals) {
        assert_eq!(refusal.number(), u32::from(*number));
        assert_eq!(hep::check(image), Err(refusal));
        assert_eq!(hep::sizes(image), Err(refusal));
        assert_eq!(hep::run(image, &[9]), Err(refusal));
        assert_eq!(hep::batch(&batch_input(&[], image)), format!("R{number}\n"));
    }
    let image = printed();
    assert_eq!(hep::check(&image[..image.len() - 1]), Err(Refusal::InputEnds));
    assert_eq!(hep::check(&[&image[..], &[0]].concat()), Err(Refusal::BytesLeftOver));
}

#[test]
fn schedules_refused() {
    assert_eq!(hep::run(&printed(), &vec![8; 65536]), Err(Refusal::ListTooLong));
    assert_eq!(hep::run(&printed(), &[1, 0]), Err(Refusal::ItemOutOfRange));
    assert_eq!(hep::run(&printed(), &[8]), Err(Refusal::ItemOutOfRange));
    let longest = hep::run(&printed(), &vec![7; 65535]).unwrap();
    assert_eq!((longest.counts.idle, longest.own(7).idle), (65535, 65535));
}

#[test]
fn an_image_gets_longer_and_runs_on() {
    let image = creating();
    let once = hep::run(&image, &[1]).unwrap();
    assert_eq!(once.counts.executed, 1);
    assert_eq!(once.image.len(), image.len() + 10);
    let on = hep::run(&once.image, &[1, 1]).unwrap();
    assert_eq!(on.image, hep::run(&image, &[1, 1, 1]).unwrap().image);
}

/// An image whose one process moves a constant of quality 5 under this UTM.
fn unset(utm: u8) -> Vec<u8> {
    let text = format!(
        "hep image
        task 1 cb=0 rb=0 rl=0 pb=0 pl=0 db=1 dl=0
        process 0 task=1 utm={utm}
        constants
        7 quality=5
        registers
        full 0 * 2
        program
        MOV r0, c0 * 16"
    );
    text::assemble(&text).unwrap().bytes()
}

#[test]
fn a_constants_quality() {
    assert_eq!(hep::sizes(&unset(0)).unwrap().constants, 1);
    let masked = hep::run(&unset(0x04), &[1]).unwrap();
    assert_eq!(masked.report, "1 1 1E 00000 E0 W0 T1 I0 S0\nE0 W0 T1 I0 S0 CF0\n");
    let moved = hep::run(&unset(0xFB), &[1]).unwrap();
    assert_eq!(moved.counts.executed, 1);
    let after = image::draft(&image::read(&moved.image).unwrap());
    assert_eq!((after.constants[0], after.registers[0]), ((5, 7), (0, 7)));
}

/// A state holds what hep-tools reads from the same image, and windows are cut as its shares are.
#[test]
fn states_are_what_images_hold() {
    for n in 0..200 {
        let bytes = generate::image(41, n);
        let outcome = hep::run(&bytes, &[1, 2, 3, 4, 5, 6, 7].repeat(10)).unwrap();
        let (state, draft) = (outcome.state(), image::draft(&image::read(&outcome.image).unwrap()));
        let tagged = |cells: &[Cell]| -> Vec<(u8, u64)> {
            cells.iter().map(|c| (c.quality + if c.full { 0 } else { 8 }, c.word)).collect()
        };
        let stated = |cells: &[Cell]| -> Vec<(u8, u64)> {
            cells.iter().map(|c| (u8::from(c.full), c.word)).collect()
        };
        assert_eq!(tagged(&state.constants), draft.constants);
        assert_eq!(tagged(&state.registers), draft.registers);
        assert_eq!(stated(&state.data), draft.data);
        assert_eq!((&state.program, state.create_fault), (&draft.program, draft.flag != 0));
        assert_eq!(state.tasks.len(), draft.tasks.len());
        for (task, row) in state.tasks.iter().zip(&draft.tasks) {
            let fields = (task.cb, task.rb, task.rl, task.pb, task.pl, task.db, task.dl);
            assert_eq!(fields, (row.cb, row.rb, row.rl, row.pb, row.pl, row.db, row.dl));
            let own = share(&draft, row.number).unwrap();
            let trap = task.trap.map_or((0xFF, 0), |trap| (trap.kind, trap.psw));
            assert_eq!((task.number, trap), (row.number, (own.kind, own.trapped)));
            assert_eq!(tagged(state.registers_of(row.number)), own.registers);
            assert_eq!(stated(state.data_of(row.number)), own.data);
            assert_eq!(state.program_of(row.number), instructions(&draft, row));
            let psws = |sfu| -> Vec<u64> {
                let queue = state.processes_of(row.number).filter(|process| process.sfu == sfu);
                queue.map(|process| process.psw).collect()
            };
            assert_eq!((psws(false), psws(true)), (own.processes, own.sfu));
        }
    }
    assert!(hep::State::of(&[]).is_err());
}

/// A process waits in the SFU queue until the other one stores the word; the items of three runs in a row add up.
const WAITING: &str = "hep image
    task 3 cb=0 rb=0 rl=0 pb=0 pl=0 db=0 dl=0
    process 7 task=3 pc=wait
    process 4 task=3 pc=store
    constants
    8
    registers
    full 5 * 2
    program
    wait: LODI:W r0, c0
    QT c1
    store: NOP * 2
    STOI r1, c0
    NOP * 11
    data
    empty 0 * 32";

#[test]
fn tries_and_the_sfu_queue() {
    let image = text::assemble(WAITING).unwrap().bytes();
    let first = hep::run(&image, &[3]).unwrap();
    assert_eq!(first.counts, Counts { waved: 1, ..Counts::default() });
    assert_eq!(first.report, "3 2 -- ----- E0 W1 T0 I0 S0\nE0 W1 T0 I0 S0 CF0\n");
    let state = first.state();
    let queues: Vec<(u8, u8, bool)> =
        state.processes_of(3).map(|process| (process.pt, process.task, process.sfu)).collect();
    assert_eq!(queues, [(4, 3, false), (7, 3, true)]);
    let all = hep::run(&image, &[3; 6]).unwrap();
    assert_eq!(all.report, "3 1 -- ----- E5 W1 T0 I0 S4\nE5 W1 T0 I0 S4 CF0\n");
    let rest = hep::run(&first.image, &[3; 5]).unwrap();
    assert_eq!((rest.counts.tries, &rest.image), (4, &all.image));
    let long = hep::run_in_slices(&first.image, &vec![3; hep::MOST_ITEMS + 5]).unwrap();
    assert_eq!((long.counts.tries, long.own(3)), (4, long.counts));
    assert!(long.report.contains(" S4\n") && long.report.contains(" S4 CF0\n"), "{}", long.report);
}

fn added(a: Counts, b: Counts) -> Counts {
    Counts {
        executed: a.executed + b.executed,
        waved: a.waved + b.waved,
        trapped: a.trapped + b.trapped,
        idle: a.idle + b.idle,
        tries: a.tries + b.tries,
    }
}

/// Each task's own counts are those of its items made one by one, add up to the run's, and end the task's line of the report.
#[test]
fn own_counts() {
    let mut tries = 0;
    for n in 0..60 {
        let (mut image, schedule) = (generate::image(42, n), [1, 2, 3, 4, 5, 6, 7, 7, 2].repeat(5));
        let outcome = hep::run(&image, &schedule).unwrap();
        let mut by_task = [Counts::default(); 8];
        for &task in &schedule {
            let item = hep::run(&image, &[task]).unwrap();
            let own = &mut by_task[usize::from(task)];
            *own = added(*own, item.counts);
            image = item.image;
        }
        assert_eq!(hep::TASKS.map(|task| outcome.own(task)).collect::<Vec<_>>(), by_task[1..]);
        assert_eq!(by_task.into_iter().fold(Counts::default(), added), outcome.counts);
        for (task, line) in outcome.state().tasks.iter().zip(outcome.report.lines()) {
            assert!(line.ends_with(&format!(" {}", outcome.own(task.number))), "{line}");
        }
        tries += outcome.counts.tries;
    }
    assert!(tries > 50, "{tries} tries");
}

/// Items of a task that is not listed count under its number; the report has no line for it. Other numbers have none.
#[test]
fn own_counts_of_unlisted_tasks() {
    let outcome = hep::run(&printed(), &[5, 1, 5]).unwrap();
    assert_eq!(outcome.own(5), Counts { idle: 2, ..Counts::default() });
    assert_eq!(outcome.report, "1 1 14 00000 E0 W0 T1 I0 S0\nE0 W0 T1 I2 S0 CF0\n");
    for task in [0, 2, 7, 8, 255] {
        assert_eq!(outcome.own(task), Counts::default(), "task {task}");
    }
}

/// Of a schedule in slices the counts are those of all of them, in the rows' lines too.
#[test]
fn own_counts_in_slices() {
    let schedule = [&[1, 6][..], &vec![3; hep::MOST_ITEMS], &[6]].concat();
    let outcome = hep::run_in_slices(&text::assemble(WAITING).unwrap().bytes(), &schedule).unwrap();
    let last = outcome.report.lines().last().unwrap();
    assert_eq!(outcome.report, format!("3 1 14 00010 {}\n{last}\n", outcome.own(3)));
    assert_eq!(last, format!("{} CF0", outcome.counts));
    let idle = Counts { idle: 1, ..Counts::default() };
    assert_eq!((outcome.own(1), outcome.own(6)), (idle, added(idle, idle)));
    assert_eq!(
        hep::TASKS.map(|task| outcome.own(task)).fold(Counts::default(), added),
        outcome.counts
    );
}

#[test]
fn fillings() {
    let filling = hep::fill(&[1000, 1048, 1048], 8).unwrap();
    assert_eq!(filling, Filling { choice: 3, sum: 2048, tries: 8, ceiling: 2048 });
    assert_eq!(filling.jobs().collect::<Vec<_>>(), [0, 1]);
    let none = hep::fill(&[], u64::MAX).unwrap();
    assert_eq!(none, Filling { choice: 0, sum: 0, tries: 1, ceiling: 0 });
    assert_eq!(none.jobs().count(), 0);
    let last = hep::fill(&[2; 15], 1 << 15).unwrap();
    assert_eq!(last, Filling { choice: 127, sum: 14, tries: 32_768, ceiling: 14 });
}

#[test]
fn fillings_refused() {
    assert_eq!(hep::fill(&[2; 16], 0), Err(Refusal::BadJobs));
    assert_eq!(hep::fill(&[2, 2050], 0), Err(Refusal::BadJobs));
    assert_eq!(hep::fill(&[2, 2048], 0), Err(Refusal::NoTries));
    assert_eq!((Refusal::BadJobs.number(), Refusal::NoTries.number()), (17, 18));
    assert_eq!(Refusal::NoTries.to_string(), "refused: R18: zero tries");
}

#[test]
fn the_numbers_are_the_headers() {
    let header = include_str!("../../include/hep.h");
    let numbers = [
        ("ACCEPTED", sys::ACCEPTED),
        ("INPUT_ENDS", sys::INPUT_ENDS),
        ("COUNT_OVER_LIMIT", sys::COUNT_OVER_LIMIT),
        ("TASK_FIELD", sys::TASK_FIELD),
        ("PROCESS_FIELD", sys::PROCESS_FIELD),
        ("CONSTANT_FIELD", sys::CONSTANT_FIELD),
        ("CELL_FIELD", sys::CELL_FIELD),
        ("BYTES_LEFT_OVER", sys::BYTES_LEFT_OVER),
        ("WINDOW_PAST_MEMORY", sys::WINDOW_PAST_MEMORY),
        ("PROCESSES_CLASH", sys::PROCESSES_CLASH),
        ("SHORT_BUFFER", sys::SHORT_BUFFER),
        ("LIST_TOO_LONG", sys::LIST_TOO_LONG),
        ("ITEM_OUT_OF_RANGE", sys::ITEM_OUT_OF_RANGE),
        ("BAD_JOBS", sys::BAD_JOBS),
        ("NO_TRIES", sys::NO_TRIES),
    ];
    let stated = |line: String| header.lines().any(|found| found == line);
    for (name, number) in numbers {
        let line = format!("    HEP_{name} = {number}");
        assert!(header.lines().any(|found| {
            found.strip_prefix(&line).is_some_and(|rest| !rest.starts_with(char::is_numeric))
        }));
    }
    let refusals = header.lines().filter(|line| line.starts_with("    HEP_")).count();
    assert_eq!(refusals, numbers.len());
    assert!(stated(format!("#define HEP_SIZES {}", sys::SIZES)));
    assert!(stated(format!("#define HEP_COUNTS {}", sys::COUNTS)));
    assert!(stated(format!("#define HEP_FILLING {}", sys::FILLING)));
    assert!(stated(format!("#define HEP_REPORT_ROOM {}", sys::REPORT_ROOM)));
    let room = sys::output_room(0);
    assert!(stated(format!("#define HEP_OUTPUT_ROOM(image_len) ((image_len) + {room})")));
    assert!(stated("#define HEP_OWN(task) (HEP_REPORT_LEN + 1 + 5 * ((task) - 1))".to_string()));
    assert_eq!([1, 2, 8].map(sys::own_place), [7, 12, sys::COUNTS]);
}
