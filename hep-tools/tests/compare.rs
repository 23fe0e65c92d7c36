//! The trials, the comparison and isolation, on the emulator and on faulty ones.

use hep_tools::compare::isolation::{self, Broken};
use hep_tools::compare::{self, Emulator, Implementation, Lines, Program};
use hep_tools::emulator::batch::{self, Answer};
use hep_tools::emulator::draft::{Draft, Process, Task};
use hep_tools::emulator::machine::Counts;
use hep_tools::generate::Pair;
use hep_tools::tool;
use hep_tools::tool::text::Source;
use hep_tools::trials;

#[test]
fn the_emulator_meets_every_trial() {
    let all = trials::all().unwrap_or_else(|reason| panic!("{reason}"));
    assert!(all.len() > 3_000);
    if let Some(difference) = compare::trials(&mut Emulator, &all) {
        panic!("{difference:?}");
    }
}

/// The emulator with its answers changed.
struct Faulty {
    change: fn(&[u8], Answer) -> Answer,
}

impl Implementation for Faulty {
    fn answer(&mut self, input: &[u8]) -> Result<Answer, String> {
        Ok((self.change)(input, batch::answer(input)))
    }
}

/// The smallest input that tells the faulty emulator apart.
fn told_apart(change: fn(&[u8], Answer) -> Answer) -> Vec<u8> {
    let difference = compare::random(&mut Faulty { change }, &mut Emulator, 34, 2_000);
    difference.expect("it differs").input
}

#[test]
fn cases_are_shrunk() {
    // One trap printed as two: one row, one process, one item are left.
    let trap = told_apart(|_, answer| {
        let output = String::from_utf8_lossy(&answer.output).replace(" T1 ", " T2 ").into_bytes();
        Answer { output, ..answer }
    });
    let source = tool::load(&trap).expect("accepted");
    assert_eq!(source.schedule.as_ref().map(Vec::len), Some(1));
    assert_eq!((source.draft.tasks.len(), source.draft.processes.len()), (1, 1));
    assert!(!source.draft.processes[0].sfu);
    // An image in which a register's quality is lost.
    let quality = told_apart(|_, answer| {
        let Some(image) = &answer.image else { return answer };
        let mut state = tool::load(image).expect("accepted").draft;
        state.registers.iter_mut().for_each(|register| register.0 &= 8);
        Answer { image: Some(state.bytes()), ..answer }
    });
    let source = tool::load(&quality).expect("accepted");
    assert!(source.draft.registers.len() <= 2, "{}", tool::to_hex(&quality));
    // A refusal that isn't given, for a field of each kind of section; before a cell a row may be left.
    let refused = [
        (told_apart(|_, answer| renumbered(answer, b"R3\n", b"R2\n")), 20),
        (told_apart(|_, answer| renumbered(answer, b"R12\n", b"R3\n")), 20),
        (told_apart(|_, answer| renumbered(answer, b"R13\n", b"R3\n")), 50),
        (told_apart(|_, answer| renumbered(answer, b"R14\n", b"R13\n")), 50),
    ];
    for (input, most) in refused {
        assert!(input.len() < most, "{}", tool::to_hex(&input));
    }
}

/// An answer in which the counts of two task numbers stand in each other's place, and the output is as it was.
fn exchanged<const FIRST: usize, const SECOND: usize>(_: &[u8], mut answer: Answer) -> Answer {
    answer.own.iter_mut().for_each(|own| own.swap(FIRST, SECOND));
    answer
}

#[test]
fn counts_that_no_line_shows_are_compared() {
    let all = trials::all().unwrap_or_else(|reason| panic!("{reason}"));
    let faults = [
        exchanged::<0, 7>,
        exchanged::<1, 2>,
        exchanged::<3, 4>,
        exchanged::<5, 6>,
        exchanged::<6, 7>,
    ];
    for change in faults {
        assert!(compare::trials(&mut Faulty { change }, &all).is_some());
    }
    // One item of one of the two is left.
    let items = tool::load(&told_apart(exchanged::<5, 6>)).expect("accepted").schedule.unwrap();
    assert!(items == [5] || items == [6], "{items:?}");
}

/// The answer with a refusal in another's place.
fn renumbered(answer: Answer, from: &[u8], to: &[u8]) -> Answer {
    if answer.output == from {
        Answer { output: to.to_vec(), ..answer }
    } else {
        answer
    }
}

#[test]
fn isolation_is_kept() {
    let tally = isolation::tried(&mut Emulator, 41, 1_000).expect("images");
    assert!(tally.failure.is_none());
    assert!(tally.met > 500 && tally.met_changed > 400, "{tally:?}");
    // Where a premise is broken the shares often differ, so the pairs do put it to the test.
    assert!(tally.broken.iter().sum::<u64>() > 100 && tally.broken_differed > 50, "{tally:?}");
}

/// Which premise a pair breaks that differs in its constants only.
fn broken_by(first: &[(u8, u64)], second: &[(u8, u64)]) -> Option<Broken> {
    broken_between([first, second].map(|constants| Draft {
        tasks: vec![Task::empty(1)],
        constants: constants.to_vec(),
        ..Draft::default()
    }))
}

/// Which premise a pair breaks that differs in its processes only: the PCs of own queue and SFU queue.
fn broken_by_queues(first: [&[u64]; 2], second: [&[u64]; 2]) -> Option<Broken> {
    let process = |sfu| move |&pc: &u64| Process { sfu, ..Process::new(pc as u8, 1, pc) };
    broken_between([first, second].map(|[own, waiting]| Draft {
        tasks: vec![Task::empty(1)],
        processes:
            own.iter().map(process(false)).chain(waiting.iter().map(process(true))).collect(),
        ..Draft::default()
    }))
}

fn broken_between(drafts: [Draft; 2]) -> Option<Broken> {
    let [first, second] = drafts.clone().map(|draft| Source { schedule: Some(vec![1]), draft });
    isolation::broken(&Pair { first, second, task: 1 }, &drafts)
}

#[test]
fn constant_memory_agrees_by_what_it_reads() {
    let nine: Vec<(u8, u64)> = (0..9).map(|i| (i as u8 % 7, i)).collect();
    let and = |more: &[(u8, u64)]| [&nine, more].concat();
    assert_eq!(broken_by(&nine, &nine), None);
    assert_eq!(broken_by(&nine, &and(&[(0, 0)])), None);
    assert_eq!(broken_by(&[], &[(0, 0); 4_096]), None);
    for tenth in [(1, 0), (6, 0), (0, 1)] {
        assert_eq!(broken_by(&nine, &and(&[tenth])), Some(Broken::Disagree));
        assert_eq!(broken_by(&and(&[tenth]), &nine), Some(Broken::Disagree));
        assert_eq!(broken_by(&and(&[tenth]), &and(&[tenth])), None);
        assert_eq!(broken_by(&and(&[tenth]), &and(&[(5, 7)])), Some(Broken::Disagree));
    }
}

#[test]
fn both_queues_must_agree() {
    assert_eq!(broken_by_queues([&[1, 2], &[3, 4]], [&[1, 2], &[3, 4]]), None);
    for other in
        [[&[1, 2, 3][..], &[4]], [&[1], &[2, 3, 4]], [&[1, 2], &[4, 3]], [&[3, 4], &[1, 2]]]
    {
        assert_eq!(
            broken_by_queues([&[1, 2], &[3, 4]], other),
            Some(Broken::Disagree),
            "{other:?}"
        );
    }
}

/// An answer in which the number of all processes leaks into the status words of one kind of queue.
fn leaked(answer: Answer, sfu: bool) -> Answer {
    let Some(image) = &answer.image else { return answer };
    let mut state = tool::load(image).expect("accepted").draft;
    let live = state.processes.len() as u64;
    let queues = state.processes.iter_mut().filter(|process| process.sfu == sfu);
    queues.for_each(|process| process.psw ^= live);
    Answer { image: Some(state.bytes()), ..answer }
}

/// An answer in which an SFU queue's head is back in the task's own queue where a neighbour is live.
fn moved(answer: Answer) -> Answer {
    let Some(image) = &answer.image else { return answer };
    let mut state = tool::load(image).expect("accepted").draft;
    if state.tasks.len() > 1 {
        let mut last = 0;
        for process in state.processes.iter_mut().filter(|process| process.sfu) {
            process.sfu = process.task == last;
            last = process.task;
        }
    }
    Answer { image: Some(state.bytes()), ..answer }
}

/// An answer in which each task's line ends with the run's counts.
fn run_counts_printed(answer: Answer) -> Answer {
    let output = String::from_utf8_lossy(&answer.output).into_owned();
    let Some((all, _)) = output.lines().last().and_then(|last| last.split_once(" CF")) else {
        return answer;
    };
    let line = |line: &str| match line.split_once(" E") {
        Some((row, _)) => format!("{row} {all}\n"),
        None => format!("{line}\n"),
    };
    Answer { output: output.lines().map(line).collect::<String>().into_bytes(), ..answer }
}

/// An answer in which the idle items of other tasks are in each task's counts.
fn idle_of_others(answer: Answer) -> Answer {
    let all = |own: [Counts; 8]| own.map(|counts| counts.idle).iter().sum();
    let own = answer.own.map(|own| own.map(|counts| Counts { idle: all(own), ..counts }));
    Answer { own, ..answer }
}

#[test]
fn isolation_that_is_broken_shows() {
    let faults: [fn(&[u8], Answer) -> Answer; 5] = [
        |_, answer| leaked(answer, false),
        |_, answer| leaked(answer, true),
        |_, answer| moved(answer),
        |_, answer| run_counts_printed(answer),
        |_, answer| idle_of_others(answer),
    ];
    for change in faults {
        let tally = isolation::tried(&mut Faulty { change }, 42, 300).expect("images");
        assert!(tally.failure.is_some());
    }
}

#[test]
fn programs_are_compared_too() {
    let emulator = env!("CARGO_BIN_EXE_hep-emulator").to_string();
    let mut program = Program { command: vec![emulator.clone()] };
    assert!(compare::random(&mut program, &mut Emulator, 51, 60).is_none());
    let mut lines = Lines::new(&[emulator, "--lines".to_string()]).expect("it starts");
    assert!(compare::random(&mut lines, &mut Emulator, 52, 300).is_none());
    assert!(isolation::tried(&mut lines, 53, 20).expect("images").failure.is_none());
    let mut broken = Program { command: vec!["false".to_string()] };
    let difference = compare::random(&mut broken, &mut Emulator, 54, 1).expect("it fails");
    assert!(difference.found.is_err());
    assert!(isolation::tried(&mut program, 55, 1).is_err());
}
