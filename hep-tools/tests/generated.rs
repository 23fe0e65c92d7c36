//! Generated images and the workloads.

use hep_tools::benchmark;
use hep_tools::emulator::assemble::{word, LODI};
use hep_tools::emulator::batch;
use hep_tools::emulator::codes::{decode, listed, Low, Op};
use hep_tools::emulator::draft::{batch_input, Task};
use hep_tools::emulator::image;
use hep_tools::emulator::machine::{
    Attempt, Counts, Ending, Machine, CREATE_FAULT, DATA_EXCEPTION, ILLEGAL, NO_TRAP,
};
use hep_tools::emulator::psw;
use hep_tools::emulator::refusal::{Refusal, Section};
use hep_tools::generate;

#[test]
fn written_images_are_the_read_ones() {
    for n in 0..2_000 {
        let bytes = generate::image(11, n);
        let machine = image::read(&bytes).expect("a generated image is accepted");
        assert_eq!(image::write(&machine), bytes, "image {n}");
    }
}

#[test]
fn states_after_runs_are_images() {
    for n in 0..500 {
        let mut machine = image::read(&generate::image(12, n)).expect("accepted");
        let schedule: Vec<u8> = (0..700).map(|i| i as u8 % 7 + 1).collect();
        let Counts { executed, waved, trapped, idle, tries } = machine.run(&schedule).counts;
        assert_eq!(executed + waved + trapped + idle, 700);
        assert!(tries <= 700, "{tries} tries");
        let bytes = image::write(&machine);
        let again = image::read(&bytes).expect("the state after a run is an image");
        assert_eq!(image::write(&again), bytes);
    }
}

#[test]
fn own_counts_add_up_to_the_items() {
    let (mut steps, mut unlisted) = (0, 0);
    for n in 0..2_000 {
        let input = generate::input(19, n);
        let Ok((schedule, mut machine)) = batch::accepted(&input) else { continue };
        let listed: Vec<u8> = machine.tasks().collect();
        let counted = machine.run(schedule);
        assert_eq!(counted.own(0), Counts::default(), "input {n}");
        for task in 1..=7 {
            let own = counted.own(task);
            let Counts { executed, waved, trapped, idle, tries } = own;
            let items = schedule.iter().filter(|item| **item == task).count() as u64;
            assert_eq!(executed + waved + trapped + idle, items, "input {n}, task {task}");
            assert!(tries <= items - idle && trapped <= 1, "input {n}, task {task}: {own}");
            if listed.contains(&task) {
                steps += items - idle;
            } else {
                assert_eq!(own, Counts { idle: items, ..Counts::default() }, "input {n}");
                unlisted += items;
            }
        }
    }
    assert!(steps > 10_000 && unlisted > 1_000, "{steps} steps, {unlisted} unlisted");
}

/// The refusals that the batch program has.
const REFUSALS: [usize; 11] = [1, 2, 3, 4, 5, 6, 10, 11, 12, 13, 14];

/// Whether this is the line of one of them.
fn is_refusal(output: &str) -> bool {
    REFUSALS.iter().any(|number| output == format!("R{number}\n"))
}

/// Whether these are lines of tasks by ascending number, then the line of the counts.
fn is_report(output: &str) -> bool {
    let Some(lines) = output.strip_suffix('\n') else { return false };
    let mut lines: Vec<&str> = lines.split('\n').collect();
    let counts = lines.pop().is_some_and(is_last);
    let tasks: Vec<&str> = lines.iter().filter_map(|line| line.split(' ').next()).collect();
    let ascending = tasks.windows(2).all(|pair| pair[0] < pair[1]);
    counts && ascending && lines.into_iter().all(is_task)
}

fn is_task(line: &str) -> bool {
    let fields: Vec<&str> = line.split(' ').collect();
    let [task, live, kind, pc, ref own @ ..] = fields[..] else { return false };
    let hex = |text: &str, digits| text.len() == digits && text.bytes().all(is_hex);
    let trap = (kind, pc) == ("--", "-----") || hex(kind, 2) && hex(pc, 5);
    ["1", "2", "3", "4", "5", "6", "7"].contains(&task)
        && is_number(live)
        && trap
        && are_counts(own)
}

fn is_last(line: &str) -> bool {
    let fields: Vec<&str> = line.split(' ').collect();
    let Some((flag, counts)) = fields.split_last() else { return false };
    are_counts(counts) && ["CF0", "CF1"].contains(flag)
}

fn are_counts(fields: &[&str]) -> bool {
    let names = ["E", "W", "T", "I", "S"];
    let is_count = |(field, name): (&&str, &str)| field.strip_prefix(name).is_some_and(is_number);
    fields.len() == names.len() && fields.iter().zip(names).all(is_count)
}

fn is_hex(byte: u8) -> bool {
    byte.is_ascii_digit() || (b'A'..=b'F').contains(&byte)
}

/// Whether this is a number in decimal without zeros before it.
fn is_number(text: &str) -> bool {
    text.parse::<u64>().is_ok_and(|number| number.to_string() == text)
}

#[test]
fn outputs_are_reports_or_refusals() {
    let mut refused = [0; 15];
    for n in 0..3_000 {
        let output = String::from_utf8(batch::output(&generate::input(13, n))).unwrap();
        assert!(is_report(&output) || is_refusal(&output), "{output:?}");
        if let Some(number) = output.strip_prefix('R') {
            refused[number.trim().parse::<usize>().unwrap()] += 1;
        }
    }
    for number in REFUSALS {
        assert!(refused[number] > 0, "refusal {number} never came");
    }
}

/// The fields that are refused by 3, 12, 13 and 14.
const FIELDS: [(Section, &str); 15] = [
    (Section::Tasks, "task number"),
    (Section::Tasks, "CB"),
    (Section::Tasks, "RB"),
    (Section::Tasks, "RL"),
    (Section::Tasks, "DB"),
    (Section::Tasks, "DL"),
    (Section::Tasks, "trap kind"),
    (Section::Tasks, "trapped PSW"),
    (Section::Processes, "create fault flag"),
    (Section::Processes, "PT"),
    (Section::Processes, "task"),
    (Section::Processes, "PSW"),
    (Section::Constants, "quality"),
    (Section::Registers, "tag"),
    (Section::Data, "state"),
];

/// Each of them, and each other refusal of an image, comes more than five times.
#[test]
fn every_field_is_spoilt() {
    for make in [generate::input, generate::small_input] {
        let refusals = (0..6_000).filter_map(|n| batch::accepted(&make(14, n)).err());
        let (of_fields, others): (Vec<Refusal>, Vec<Refusal>) =
            refusals.partition(|refusal| [3, 12, 13, 14].contains(&refusal.number));
        let came = |field| {
            let is_it = |refusal: &&Refusal| (refusal.section, refusal.field) == field;
            of_fields.iter().filter(is_it).count()
        };
        let rare: Vec<_> = FIELDS.into_iter().filter(|field| came(*field) <= 5).collect();
        assert!(rare.is_empty(), "{rare:?}");
        let came = |number| others.iter().filter(|refusal| refusal.number == number).count();
        let rare: Vec<u8> = [1, 2, 4, 5, 6].into_iter().filter(|n| came(*n) <= 5).collect();
        assert!(rare.is_empty(), "{rare:?}");
    }
}

/// Whether the data exception of a trapped task is a constant's: it doesn't come where each has quality 0.
fn is_a_constants(machine: &Machine, task: u8) -> bool {
    let mut draft = image::draft(machine);
    let own = |row: &&mut Task| row.number == task;
    for row in draft.tasks.iter_mut().filter(own) {
        (row.kind, row.trapped) = (NO_TRAP, 0);
    }
    draft.constants.iter_mut().for_each(|constant| constant.0 = 0);
    let mut machine = image::read(&draft.bytes()).expect("accepted");
    !matches!(machine.item(task).ending, Ending::Trapped { kind: DATA_EXCEPTION, .. })
}

/// Whether an input is accepted and its run has such a data exception.
fn has_a_constants_exception(input: &[u8]) -> bool {
    let Ok((schedule, mut machine)) = batch::accepted(input) else { return false };
    schedule.iter().any(|&task| {
        let excepted =
            matches!(machine.item(task).ending, Ending::Trapped { kind: DATA_EXCEPTION, .. });
        excepted && is_a_constants(&machine, task)
    })
}

#[test]
fn constants_cause_data_exceptions() {
    for make in [generate::input, generate::small_input] {
        let came = (0..3_000).filter(|n| has_a_constants_exception(&make(16, *n))).count();
        assert!(came > 100, "{came}");
    }
}

/// Makes the attempts of an input's run: `make` makes each and tells of it.
fn attempted<T>(
    input: &[u8],
    mut make: impl FnMut(&mut Machine, u8, Attempt) -> (Ending, Option<T>),
) -> Vec<T> {
    let Ok((schedule, mut machine)) = batch::accepted(input) else { return Vec::new() };
    let mut all = Vec::new();
    for &task in schedule {
        for &attempt in machine.attempts(task) {
            let (ending, told) = make(&mut machine, task, attempt);
            all.extend(told);
            if let Ending::Trapped { .. } = ending {
                break;
            }
        }
    }
    all
}

/// Status word and instruction of the process that this attempt takes.
fn taken(machine: &Machine, task: u8, attempt: Attempt) -> Option<(u64, u64)> {
    let queue = match attempt {
        Attempt::Try => machine.sfu_processes(task),
        Attempt::Step => machine.processes(task),
    };
    let &(_, psw) = queue.first()?;
    Some((psw, machine.instruction(task, psw::pc(psw))?))
}

/// A data access: whether it stores, B, and the low three bits of its address and of S1.
#[derive(Clone, Copy)]
struct Access {
    stores: bool,
    byte: bool,
    low: u64,
    low_of_s1: u64,
}

/// The access that an attempt asks for.
fn access(machine: &Machine, task: u8, attempt: Attempt) -> Option<Access> {
    let (psw, instruction) = taken(machine, task, attempt)?;
    let stores = listed(instruction)?.low == Low::Store;
    let low = |word| machine.data_address(task, psw, word).map(|address| address & 7);
    let low_of_s1 = low(word(LODI, 0, (instruction >> 16) as u16, 0))?;
    let byte = instruction >> 52 & 1 != 0;
    Some(Access { stores, byte, low: low(instruction)?, low_of_s1 })
}

/// The accesses of an input's run that are executed, and those that trap with kind 12.
fn accesses(input: &[u8]) -> Vec<Access> {
    attempted(input, |machine, task, attempt| {
        let access = access(machine, task, attempt);
        let ending = machine.attempt(task, attempt);
        let wanted = match ending {
            Ending::Trapped { kind, .. } => kind == ILLEGAL,
            ending => ending == Ending::Executed,
        };
        (ending, access.filter(|_| wanted))
    })
}

/// Loads and stores reach each byte and each part, also part 4, which traps with kind 12; some
/// addresses carry out of their low three bits; whole words are the most.
#[test]
fn parts_are_loaded_and_stored() {
    for make in [generate::input, generate::small_input] {
        let all: Vec<Access> = (0..6_000).flat_map(|n| accesses(&make(17, n))).collect();
        let came = |is_it: &dyn Fn(&Access) -> bool| all.iter().filter(|a| is_it(a)).count();
        for (stores, byte) in [(false, false), (false, true), (true, false), (true, true)] {
            for low in 0..8 {
                let came = came(&|a| (a.stores, a.byte, a.low) == (stores, byte, low));
                assert!(came > 10, "{came} accesses: store {stores}, B {byte}, low bits {low}");
            }
        }
        let carried = came(&|a| a.low < a.low_of_s1);
        assert!(carried > 100, "{carried} carried");
        let whole = came(&|a| a.low == 0 && !a.byte);
        assert!(whole > all.len() / 2, "{whole} of {} were whole words", all.len());
    }
}

/// A process that was created or that quit while another task had some.
struct Change {
    /// The processes before it, and whether the flag was up.
    live: u8,
    flag: bool,
    quits: bool,
    faults: bool,
    /// Whether one quit earlier in the run with the flag down.
    after_quit: bool,
}

/// The changes in an input's run.
fn changes(input: &[u8]) -> Vec<Change> {
    let mut after_quit = false;
    attempted(input, |machine, task, attempt| {
        let (live, flag) = (machine.live_total(), machine.create_fault());
        let others = live - machine.live_count(task);
        let ending = machine.attempt(task, attempt);
        let quits = machine.live_total() < live;
        let faults = matches!(ending, Ending::Trapped { kind: CREATE_FAULT, .. });
        let change = Change { live, flag, quits, faults, after_quit };
        after_quit |= quits && !flag;
        (ending, (others > 0 && machine.live_total() != live).then_some(change))
    })
}

/// Near 64 processes of several tasks some are created and some quit; the 64th faults, and no other.
#[test]
fn processes_come_and_go_near_the_total() {
    for make in [generate::input, generate::small_input] {
        let all: Vec<Change> = (0..6_000).flat_map(|n| changes(&make(19, n))).collect();
        let came = |is_it: &dyn Fn(&Change) -> bool| all.iter().filter(|c| is_it(c)).count();
        assert_eq!(came(&|c| c.faults != (!c.quits && c.live == 63)), 0);
        let came = [
            ("the 62nd is created", came(&|c| !c.quits && c.live == 61)),
            ("the 63rd is created", came(&|c| !c.quits && c.live == 62)),
            ("the 64th is created", came(&|c| c.faults)),
            ("one quits near the total", came(&|c| c.quits && c.live >= 60 && !c.flag)),
            ("one quits with the flag up", came(&|c| c.quits && c.flag)),
            ("the 63rd or 64th after a quit", came(&|c| !c.quits && c.live >= 62 && c.after_quit)),
        ];
        let rare: Vec<_> = came.into_iter().filter(|(_, came)| *came <= 10).collect();
        assert!(rare.is_empty(), "{rare:?}");
    }
}

/// How a try ends, and whether a step of its item follows.
type Tried = (&'static str, bool);

/// The ways in which tries end.
const TRIES: [&str; 9] = [
    "loads or stores",
    "executes another operation",
    "creates",
    "quits",
    "waits at a load or store",
    "waits for a register",
    "waits at a create with the flag up",
    "makes the 64th",
    "traps",
];

/// The way in which a try of this instruction ended that changed the number of processes so.
fn tried(op: Op, ending: Ending, flag: bool, more: i16) -> &'static str {
    let data = matches!(op, Op::Lodi | Op::Lodx | Op::Stoi | Op::Stox);
    let way = match ending {
        Ending::Executed if data => 0,
        Ending::Executed => [3, 1, 2][(more + 1) as usize],
        Ending::Waved if data => 4,
        Ending::Waved if op == Op::Create && flag => 6,
        Ending::Trapped { kind: CREATE_FAULT, .. } => 7,
        Ending::Trapped { .. } => 8,
        _ => 5,
    };
    TRIES[way]
}

/// The tries of an input's run.
fn tries(input: &[u8]) -> Vec<Tried> {
    attempted(input, |machine, task, attempt| {
        let word = taken(machine, task, attempt).map_or(!0, |(_, word)| word);
        let (live, flag) = (i16::from(machine.live_total()), machine.create_fault());
        let step = machine.attempts(task).len() == 2;
        let ending = machine.attempt(task, attempt);
        let way = tried(decode(word), ending, flag, i16::from(machine.live_total()) - live);
        (ending, (attempt == Attempt::Try).then_some((way, step)))
    })
}

/// Tries end in every way, with a step behind them and without one.
#[test]
fn tries_end_in_every_way() {
    for make in [generate::input, generate::small_input] {
        let all: Vec<Tried> = (0..6_000).flat_map(|n| tries(&make(20, n))).collect();
        for way in TRIES {
            for step in [false, true] {
                let came = all.iter().filter(|tried| **tried == (way, step)).count();
                assert!(came > 5, "{came} tries: {way}, a step or none: {step}");
            }
        }
    }
}

/// An input that is cut before its refused field lacks that very field.
#[test]
fn places_are_those_of_the_fields() {
    let refusal = |input: &[u8]| batch::accepted(input).err();
    let mut tried = 0;
    for input in (0..3_000).map(|n| generate::input(15, n)) {
        let of_field = |found: &Refusal| [2, 3, 12, 13, 14].contains(&found.number);
        let Some(found) = refusal(&input).filter(of_field) else { continue };
        let cut = refusal(&input[..found.place]).expect("refused");
        let wrong = cut.wrong.clone();
        assert_eq!(cut, Refusal { number: 1, wrong, ..found });
        tried += 1;
    }
    assert!(tried > 300, "{tried}");
}

#[test]
fn workloads_do_what_they_say() {
    for workload in &benchmark::ALL {
        let (bytes, schedule) = (workload.build)();
        let counts = image::read(&bytes).expect("accepted").run(&schedule).counts;
        let expected = match workload.name {
            "waved" => Counts { waved: 60_000, ..Counts::default() },
            "tried" => Counts { waved: 60_000, tries: 60_000, ..Counts::default() },
            _ => Counts { executed: 60_000, ..Counts::default() },
        };
        assert_eq!(counts, expected, "{}", workload.name);
        assert!(batch_input(&schedule, &bytes).len() <= 65_536);
    }
}
