//! Jobs joined into one image: each task has what it had alone, before and after a run.

use hep_tools::emulator::draft::{Draft, Process, Task};
use hep_tools::emulator::image;
use hep_tools::generate;
use hep_tools::tool::join::{join, Job};
use hep_tools::tool::machine;
use hep_tools::tool::share::share;
use hep_tools::tool::text::{assemble, Source};

/// The nth generated image with its first task alone, over these constants, and a schedule for it.
fn job(n: u64, constants: Option<&[(u8, u64)]>) -> Option<Source> {
    let mut draft = image::draft(&image::read(&generate::image(13, n)).unwrap());
    let task = *draft.tasks.first()?;
    draft.tasks.truncate(1);
    draft.processes.retain(|process| process.task == task.number);
    draft.flag = 0;
    if let Some(constants) = constants {
        draft.constants = constants.to_vec();
    }
    Some(Source { schedule: Some(vec![task.number; 30 + n as usize % 40]), draft })
}

/// Up to five jobs from the nth image on, with the first one's constants.
fn jobs(n: u64) -> Vec<Source> {
    let Some(first) = job(5 * n, None) else { return Vec::new() };
    let others = (1..5).filter_map(|i| job(5 * n + i, Some(&first.draft.constants)));
    [first.clone()].into_iter().chain(others).collect()
}

fn joined(jobs: &[Source]) -> Result<Source, String> {
    let names: Vec<String> = (1..).map(|n| format!("job{n}")).take(jobs.len()).collect();
    let jobs = jobs.iter().zip(&names).map(|(source, name)| Job { name, source });
    join(&jobs.collect::<Vec<_>>())
}

/// The image after the schedule, and whether the create fault flag is down.
fn after(source: &Source) -> (Draft, bool) {
    let mut machine = machine(source);
    machine.run(source.schedule.as_ref().unwrap());
    (image::draft(&machine), !machine.create_fault())
}

#[test]
fn every_job_runs_as_alone() {
    let mut compared = 0;
    for n in 0..300 {
        let jobs = jobs(n);
        let registers: usize = jobs.iter().map(|job| job.draft.registers.len()).sum();
        let live: usize = jobs.iter().map(|job| job.draft.processes.len()).sum();
        if jobs.is_empty() || registers > 2_048 || live > 40 {
            continue;
        }
        let all = joined(&jobs).unwrap();
        assert!(image::read(&all.draft.bytes()).is_ok(), "{n}");
        let (end, down) = after(&all);
        for (number, job) in (1..).zip(&jobs) {
            let own = job.draft.tasks[0].number;
            assert_eq!(share(&all.draft, number), share(&job.draft, own), "{n}");
            let (alone, alone_down) = after(job);
            if down && alone_down {
                assert_eq!(share(&end, number), share(&alone, own), "{n}: task {number}");
                compared += 1;
            }
        }
    }
    assert!(compared > 500, "{compared}");
}

#[test]
fn windows_processes_and_items() {
    let text = |task: u8, pt: u8, rows: &str| {
        format!(
            "hep input\ntask {task} cb=3 {rows}\nprocess {pt} task={task} pc=2\nprocess 9 task={task}\n\
             constants\n  7\nregisters\n  full 0 * 8\nprogram\n  NOP * 32\ndata\n  full {task} * 64\nschedule\n  {task} * {pt}\n"
        )
    };
    let one = assemble(&text(7, 3, "rb=1 rl=2 pb=1 pl=1 db=1 dl=1")).unwrap();
    let two = assemble(&text(2, 1, "rb=0 rl=3 pb=0 pl=1 db=5 dl=4")).unwrap();
    let all = joined(&[one, two]).unwrap();
    let rows = [
        Task { cb: 3, rb: 0, rl: 1, pb: 0, pl: 0, db: 0, dl: 0, ..Task::empty(1) },
        Task { cb: 3, rb: 2, rl: 5, pb: 1, pl: 2, db: 1, dl: 0, ..Task::empty(2) },
    ];
    assert_eq!(all.draft.tasks, rows);
    let processes = [(0, 1, 2), (1, 1, 0), (2, 2, 2), (3, 2, 0)];
    assert_eq!(all.draft.processes, processes.map(|(pt, task, psw)| Process::new(pt, task, psw)));
    assert_eq!(all.draft.constants, [(0, 7)]);
    let sizes = [all.draft.registers.len(), all.draft.program.len(), all.draft.data.len()];
    assert_eq!(sizes, [12, 48, 32]);
    assert_eq!(all.schedule, Some(vec![1, 2, 1, 1]));
    assert_eq!(joined(&[]).unwrap(), Source { schedule: None, draft: Draft::default() });
}

/// The SFU queue of a job stands behind its task's queue, and runs there as alone.
#[test]
fn sfu_queues_are_joined() {
    let text = |task: u8| {
        format!(
            "hep input\ntask {task} cb=0 rb=0 rl=0 pb=0 pl=0 db=0 dl=0\nprocess 1 task={task} pc=1\n\
             process 0 task={task} sfu\nconstants\n  8\nregisters\n  full 9 * 2\nprogram\n  LODI:W r0, c0\n  NOP\n  STOI r1, c0\n  NOP * 13\n\
             data\n  empty 0 * 32\nschedule\n  {task} * 4\n"
        )
    };
    let jobs = [assemble(&text(5)).unwrap(), assemble(&text(3)).unwrap()];
    let all = joined(&jobs).unwrap();
    let queues: Vec<(u8, u8, bool)> =
        all.draft.processes.iter().map(|process| (process.pt, process.task, process.sfu)).collect();
    assert_eq!(queues, [(0, 1, false), (1, 1, true), (2, 2, false), (3, 2, true)]);
    let mut machine = machine(&all);
    let counted = machine.run(all.schedule.as_ref().unwrap());
    assert_eq!((counted.counts.executed, counted.counts.tries), (8, 6));
    for (number, job) in (1..).zip(&jobs) {
        let own = job.draft.tasks[0].number;
        let alone = share(&after(job).0, own);
        assert_eq!(share(&image::draft(&machine), number), alone);
        assert_eq!(alone.unwrap().registers[0], (0, 9));
    }
}

#[test]
fn what_cannot_go_in() {
    let one = |lines: &str| assemble(&format!("hep image\n{lines}")).unwrap();
    let row = "task 1 cb=0 rb=1 rl=0 pb=1 pl=0 db=1 dl=0\n";
    let many: String = (0..32).map(|pt| format!("process {pt} task=1\n")).collect();
    let cases = [
        ([one(row), one("")], "job2: it has 0 tasks, and a job has one"),
        ([one(row), one(&format!("{row}flag 1\n"))], "job2: its create fault flag is up"),
        (
            [
                one(&format!("{row}constants\n  0\n  5\n  0\n")),
                one(&format!("{row}constants\n  0\n")),
            ],
            "job2: constant 1 is 0, in job1 it is 5: the jobs need one constant memory",
        ),
        (
            [one(&format!("{row}{many}")), one(&format!("{row}{many}"))],
            "the jobs have 64 processes together, over 63",
        ),
        (
            [assemble(&format!("hep input\n{row}schedule\n  1\n")).unwrap(), one(row)],
            "job2: it has no schedule, and others have one",
        ),
        (
            [one(row), assemble(&format!("hep input\n{row}schedule\n  1 2\n")).unwrap()],
            "job1: it has no schedule, and others have one",
        ),
    ];
    for (jobs, words) in cases {
        assert_eq!(joined(&jobs).unwrap_err(), words);
    }
    let other = assemble(&format!("hep input\n{row}schedule\n  1 2\n")).unwrap();
    assert_eq!(joined(&[other]).unwrap_err(), "job1: an item is of task 2, and its task is 1");
    let zeros =
        [one(&format!("{row}constants\n  4\n  0\n")), one(&format!("{row}constants\n  4\n"))];
    assert_eq!(joined(&zeros).unwrap().draft.constants, [(0, 4), (0, 0)]);
}
