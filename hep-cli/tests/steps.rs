//! `trace`, `why`, `agree`, `show`, `share`, `dump`, `timeline`.

mod common;

use common::{example, hep, Folder};
use hep_tools::emulator::machine::{Attempt, Ending, Machine};
use hep_tools::generate;
use hep_tools::tool::load::open;
use hep_tools::tool::reason::{reason, Look};
use hep_tools::tool::taken::{item, Taken};
use hep_tools::tool::{self, text};
use std::fs;

/// Two processes: one fills r4 and data word 1 late, the other waits for both; then a store past the window.
const TEXT: &str = "hep input
task 2 cb=0 rb=0 rl=3 pb=0 pl=0 db=0 dl=0
process 0 task=2 pc=start
process 1 task=2 pc=wait
name left = r4
name word_1 = c1
constants
  0
  8
  256
registers
  full 0 * 4
  empty 3
  full 7 * 3
program
start:
  NOP
  MOV left, r5
  NOP
  B start, c0, c0
wait:
  MOV r6:F, left:W
  LODI:W r7, word_1
  NOP
store:
  STOI r7, c2
  NOP * 8
data
  empty 0 * 32
schedule
  2 * 12
";

fn lines(arguments: &[&str], input: &str) -> Vec<String> {
    let ended = hep(arguments, input);
    assert_eq!((ended.code, ended.err.as_str()), (0, ""), "{arguments:?}");
    ended.out.lines().map(str::to_string).collect()
}

#[test]
fn a_trace_says_why() {
    let all = lines(&["trace"], TEXT);
    assert_eq!(all.len(), 1 + 12 + 6);
    let waved =
        "   1    2 step     1 00004 wait             MOV r6:F, left:W                 waved      \
                 waits until left (r4) is full; r6 = full 7, left (r4) = empty 3";
    assert_eq!(all[2], waved);
    assert_eq!(all[3], "   2    2 step     0 00001 start+1          MOV left, r5                     executed   left (r4) = full 7");
    let data = lines(&["trace", "--only", "waved", "--from", "2"], TEXT);
    let waits = "waits in the SFU queue until data 1 is full; word_1 (c1) = 8, data 1 = empty 0";
    assert!(data[1].ends_with(waits), "{}", data[1]);
    assert!(data[1].starts_with("   5    2 step     1 "), "{}", data[1]);
    assert!(data[2].starts_with("   6    2 try      1 "), "{}", data[2]);
    assert_eq!(data.len(), 1 + all.iter().skip(3).filter(|line| line.contains(" waved ")).count());
    assert_eq!(lines(&["trace", "--task", "1"], TEXT).len(), 1);
    assert_eq!(lines(&["trace", "--from", "3", "--to", "5"], TEXT)[1..], all[4..7]);
    let goes = all.iter().find(|line| line.contains("goes to")).unwrap();
    assert!(goes.ends_with("goes to pc=0x00000 (start)"), "{goes}");
}

#[test]
fn a_trap_says_why() {
    let trapping = TEXT.replace("pc=wait", "pc=store");
    let trapped = lines(&["trace", "--only", "trapped"], &trapping);
    let words = "STOI r7, c2                      trapped 14 byte address 256 is data word 32, outside the window (32 words); c2 = 256, r7 = full 7";
    assert!(trapped[1].ends_with(words), "{}", trapped[1]);
    let why = lines(&["why"], &trapping);
    assert_eq!(why[0], "task 2: 2 processes, trapped 14 at item 1; E1 W0 T1 I10 S0");
    assert_eq!(why[1], "  PT 1 at store (pc=0x00007): STOI r7, c2");
    assert!(why[2].starts_with(
        "      trap 14: byte address 256 is data word 32, outside the window (32 words)"
    ));
    assert_eq!(why[3], "  the others (1) stand still: a trapped task neither tries nor steps");
}

#[test]
fn why_names_the_last_change() {
    let why = lines(&["why"], TEXT);
    let expected = [
        "task 2: 2 processes, 1 in the SFU queue; E10 W2 T0 I0 S6",
        "  PT 0 at start+1 (pc=0x00001): MOV left, r5",
        "      goes on at its next item",
        "  PT 1 (SFU queue) at wait+1 (pc=0x00005): LODI:W r7, word_1",
        "      waits in the SFU queue until data 1 is full; word_1 (c1) = 8, data 1 = empty 0",
        "      data 1: as it was at the start, nobody changed it",
    ];
    assert_eq!(why, expected);
    let taken = TEXT
        .replace("MOV left, r5\n", "MOV r5, left:W:U\n")
        .replace("empty 3", "full 3")
        .replace("2 * 12", "2 * 6");
    let why = lines(&["why"], &taken);
    let change = "      left (r4): last changed at item 2 by task 2, PT 0 at start+1 (pc=0x00001): MOV r5, left:W:U";
    assert!(!why.contains(&change.to_string()), "{why:#?}");
    let early = taken.replace("pc=wait", "pc=start");
    let why = lines(&["why"], &early);
    assert!(why.contains(&change.to_string()), "{why:#?}");
}

#[test]
fn every_wait_and_trap_of_random_inputs_has_a_reason() {
    let (mut waits, mut traps, mut tries) = (0, 0, 0);
    for n in 0..400 {
        let Ok(loaded) = open(&generate::input(34, n), None) else { continue };
        let mut machine = tool::machine(&loaded.source);
        let mut told = |machine: &Machine, taken: Taken, ending: Ending| {
            let look = Look { machine, symbols: &loaded.symbols, taken: &taken };
            let said = reason(look, ending);
            match ending {
                Ending::Waved => assert!(said.starts_with("waits"), "input {n}: {said}"),
                Ending::Trapped { .. } => {
                    assert!(!said.is_empty() && !said.starts_with(';'), "input {n}: {said}")
                }
                _ => assert_eq!(said, ""),
            }
            let is_try = taken.attempt == Attempt::Try;
            let stays = machine.sfu_processes(taken.task).iter().any(|(pt, _)| *pt == taken.pt);
            assert_eq!(
                said.starts_with("waits in the SFU queue"),
                ending == Ending::Waved && stays
            );
            waits += u32::from(ending == Ending::Waved);
            traps += u32::from(matches!(ending, Ending::Trapped { .. }));
            tries += u32::from(is_try);
        };
        for &task in loaded.source.schedule.iter().flatten() {
            item(&mut machine, task, |_, taken| taken, &mut told);
        }
    }
    assert!(
        waits > 300 && traps > 200 && tries > 100,
        "{waits} waits, {traps} traps, {tries} tries"
    );
}

#[test]
fn profiles_count_by_instruction() {
    let profile = lines(&["trace", "--profile"], TEXT);
    assert_eq!(
        profile[1],
        "   2 00000 start            NOP                                     3        0        0               0"
    );
    assert!(
        profile.iter().any(|line| line.contains("wait+1")
            && line.ends_with("        0        7        0               6")),
        "{profile:#?}"
    );
}

#[test]
fn the_promise_covers_house_one() {
    let [a, b] = [example("frame-a.hep"), example("frame-b.hep")];
    let covered = hep(&["agree", "1", &a, &b], b"");
    assert_eq!(covered.code, 0, "{}", covered.out);
    assert!(!covered.out.contains('!'), "{}", covered.out);
    assert!(covered.out.contains("covered by the isolation promise: registers, data words"));
    let end =
        "after both runs they are equal\nown counts E185 W6 T0 I109 S90, E185 W6 T0 I109 S90\n";
    assert!(covered.out.ends_with(end), "{}", covered.out);
}

/// What is changed in the text, into what, and the line of the premise that then fails.
const CHANGES: [(&str, &str, &str); 12] = [
    ("  256\n", "  256\n  9\n", "! constant memory     constant 3 is 0 and 9 (1 differ)"),
    ("2 * 12", "2 * 11", "! items               12, 11"),
    ("full 7 * 3", "full 7\nfull 8 quality=1 * 2", "! registers           r6 is full 7 and full 8 quality=1 (2 differ)"),
    ("empty 0 * 32", "empty 0 * 31\nfull 5", "! data words          data 31 is empty 0 and full 5 (1 differ)"),
    ("pc=wait", "pc=store", "! task's queue        process 1 is pc=0x00004 and pc=0x00007 (1 differ)"),
    ("MOV left, r5", "MOV left, r6", "! program words       word 1 is MOV r4, r5 and MOV r4, r6 (1 differ)"),
    ("task 2 cb=0", "task 2 cb=1", "! CB and windows      cb is 0 and 1"),
    ("dl=0\n", "dl=0 trap=0x14 pc=7\n", "! trap record         none, 14 pc=0x00007"),
    ("dl=0\n", "dl=0\nflag 1\n", "! create fault flag   down, up"),
    ("2 * 12", "2 * 12\n1 * 65535", "! schedules accepted  12 and 65547 items: the promise is for at most 65535"),
    (
        "dl=0\n",
        "dl=0\ntask 3 cb=0 rb=1 rl=1 pb=1 pl=0 db=1 dl=0\n",
        "! windows of others   meet none, meet task 3's in registers 2 to 3",
    ),
    (
        "task 2 cb=0 rb=0 rl=3 pb=0 pl=0 db=0 dl=0\nprocess 0 task=2 pc=start\nprocess 1 task=2 pc=wait\n",
        "",
        "! listed              yes, no",
    ),
];

#[test]
fn each_premise_that_fails_is_told_with_its_place() {
    let folder = Folder::new("agree");
    let a = folder.file("a.hep", TEXT);
    for (from, to, line) in CHANGES {
        assert!(TEXT.contains(from), "{from}");
        let b = folder.file("b.hep", TEXT.replacen(from, to, 1));
        let ended = hep(&["agree", "2", &a, &b], b"");
        assert_eq!(ended.code, 1, "{line}: {}", ended.out);
        let failed: Vec<&str> = ended.out.lines().filter(|line| line.starts_with('!')).collect();
        assert_eq!(failed.len(), 1, "{line}: {}", ended.out);
        assert!(failed[0].starts_with(line), "{line}: {}", ended.out);
        assert!(ended.out.contains("not covered by the isolation promise\n"), "{line}");
        let own = ended.out.lines().last().unwrap().strip_prefix("own counts ").unwrap();
        let (first, second) = own.split_once(", ").unwrap();
        let equal = ended.out.contains("after both runs they are equal\n");
        assert!(!equal || first == second, "{}", ended.out);
        assert_eq!(first, "E10 W2 T0 I0 S6", "{line}");
    }
    let neither = hep(&["agree", "5", &a, &a], b"");
    assert_eq!(neither.code, 1, "{}", neither.out);
    assert!(neither.out.contains("neither file lists the task"), "{}", neither.out);
}

/// Two images must agree on the SFU queue too, by status words from head to tail, without PTs.
#[test]
fn the_sfu_queue_must_agree() {
    let folder = Folder::new("agree-sfu");
    let waiting = TEXT.replace("process 1 task=2", "process 1 task=2 sfu");
    let a = folder.file("a.hep", &waiting);
    let other_number = folder.file("b.hep", waiting.replace("process 1", "process 9"));
    let covered = hep(&["agree", "2", &a, &other_number], b"");
    assert_eq!(covered.code, 0, "{}", covered.out);
    assert!(covered.out.contains("  SFU queue           the same, 1 of them\n"), "{}", covered.out);
    assert!(covered.out.contains("both queues, trap record and own counts"), "{}", covered.out);
    let cases = [
        (
            waiting.replace("pc=wait", "pc=store"),
            vec!["! SFU queue           process 0 is pc=0x00004 and pc=0x00007 (1 differ)"],
        ),
        (
            TEXT.to_string(),
            vec!["! task's queue        1 and 2 of them", "! SFU queue           1 and 0 of them"],
        ),
    ];
    for (text, expected) in cases {
        let ended = hep(&["agree", "2", &a, &folder.file("c.hep", text)], b"");
        let failed: Vec<&str> = ended.out.lines().filter(|line| line.starts_with('!')).collect();
        assert_eq!((ended.code, failed), (1, expected));
    }
}

#[test]
fn show_tells_the_queues() {
    let waiting = TEXT.replace("process 1 task=2", "process 1 task=2 sfu");
    let show = hep(&["show"], &waiting).out;
    let (row, queues) = (
        "2     0..7         0..15          0..31          0     2, 1 SFU   none      yes\n",
        "PT task queue PSW\n 0    2 task  pc=0x00000\n 1    2 SFU   pc=0x00004\n",
    );
    assert!(show.contains(row) && show.contains(queues), "{show}");
    let mut image = tool::load(waiting.as_bytes()).unwrap().draft.bytes();
    image.push(0);
    let refused = hep(&["show", "--image"], &image).out;
    assert!(refused.contains(row.trim_end()) && refused.contains(queues), "{refused}");
}

#[test]
fn show_maps_a_file() {
    let show = lines(&["show", &example("frame-a.hep")], "");
    assert_eq!(show[0], "batch input, 2620 bytes, accepted: 600 items (task 1: 300, task 2: 300)");
    assert_eq!(show[4], "tasks      602..658         2");
    assert_eq!(
        show[12],
        "1     0..15        0..47          0..63          0     1          none      yes"
    );
    let met = TEXT
        .replace("process 0", "task 3 cb=0 rb=3 rl=1 pb=1 pl=0 db=0 dl=0\nprocess 0")
        .replace("2 * 12", "2 * 3\n7 * 2");
    let show = hep(&["show"], &met).out;
    assert!(show.contains("no: its windows meet task 3's in data words 0 to 31\n"), "{show}");
    for note in [
        "note: task 3 has no process: its items are idle\n",
        "note: task 3's register window is empty: its base is above its limit\n",
        "note: task 7 is not listed: its items (2) are idle\n",
    ] {
        assert!(show.contains(note), "{show}");
    }
    assert!(hep(&["show"], "hep input\n").out.ends_with("note: the schedule has no items\n"));
}

/// Cells behind the windows are noted by show and check, zeros that the text fills up with are not.
#[test]
fn cells_in_no_window_are_noted() {
    let more = TEXT
        .replace("full 7 * 3", "full 7 * 3\n  full 0\n  full 5\n  empty 0")
        .replace("NOP * 8\n", "NOP * 8\nprogram at 20\n  ADD r0, r0, r0\n")
        .replace("empty 0 * 32", "empty 0 * 32\ndata at 40\n  full 1");
    let notes = [
        "note: 2 registers lie in no task's window, the first is 9\n",
        "note: program word 20 lies in no task's window\n",
        "note: data word 40 lies in no task's window\n",
    ];
    let (show, check) = (hep(&["show"], &more), hep(&["check", "-"], &more));
    assert!(show.out.ends_with(&notes.concat()), "{}", show.out);
    assert_eq!(check.err, notes.map(|note| format!("<stdin>: {note}")).concat());
    assert_eq!((check.code, check.out.as_str()), (0, ""));
    assert_eq!(hep(&["check", "-"], TEXT).err, "");
}

#[test]
fn show_goes_up_to_the_fault() {
    let image = tool::load(TEXT.as_bytes()).unwrap().draft.bytes();
    let cut = hep(&["show", "--image", "-"], &image[..100]);
    assert_eq!(cut.code, 1);
    assert!(cut.out.starts_with("image, 100 bytes, refused by 1\n"), "{}", cut.out);
    assert!(cut.out.contains("constants  51..79           3\n"), "{}", cut.out);
    assert!(
        cut.out.contains("registers  80..153          8, but 20 bytes are there\n"),
        "{}",
        cut.out
    );
    assert!(
        cut.out.contains(
            "2     0..7         0..15          0..31          0     2          none      yes\n"
        ),
        "{}",
        cut.out
    );
    assert!(
        cut.err.contains("R1: register section, register 3 of 8: tag is not whole"),
        "{}",
        cut.err
    );
    for n in 0..200 {
        let input = generate::input(35, n);
        let ended = hep(&["show", "--input", "-"], &input);
        assert_eq!(ended.code, i32::from(hep::batch(&input).starts_with('R')), "input {n}");
    }
}

#[test]
fn dumps_keep_names_and_labels() {
    let frame = fs::read_to_string(example("frame-a.hep")).unwrap();
    for text in [TEXT, &frame] {
        let dump = hep(&["dump"], text).out;
        assert_eq!(
            tool::load(dump.as_bytes()).unwrap().bytes(),
            tool::load(text.as_bytes()).unwrap().bytes()
        );
        assert_eq!(hep(&["dump"], &dump).out, dump);
    }
    let dump = hep(&["dump"], TEXT).out;
    for line in ["name left = r4", "wait:", "  MOV r6:F, left:W                         ; 00004"] {
        assert!(dump.lines().any(|found| found == line), "{dump}");
    }
    let second = hep(&["dump", &example("frame-a.hep")], b"").out;
    assert!(second.contains("; 0003B, PC 0000B of task 2\n"), "{second}");
    let after = hep(&["dump", "--after"], TEXT).out;
    assert!(after.starts_with("hep image\n") && after.contains("wait:\n"));
    let again = hep(&["share", "2", "--schedule", "", "-"], &after).out;
    let ran = hep(&["share", "2"], TEXT).out;
    assert_eq!(again, ran.replace("counts E10 W2 T0 I0 S6\n", "counts E0 W0 T0 I0 S0\n"));
}

#[test]
fn shares() {
    let table = hep(&["share", "--data", "32..41", "1", &example("frame-a.hep")], b"").out;
    assert_eq!(table, fs::read_to_string(example("house-one.table")).unwrap());
    assert_eq!(
        hep(&["share", "--data", "40", "1", &example("frame-b.hep")], b"").out,
        "40 10991997000000000 full\n"
    );
    assert_eq!(hep(&["share", "--registers=4..5", "2"], TEXT).out, "4 7 full\n5 7 full\n");
    let past = hep(&["share", "--data", "32", "2"], TEXT);
    assert_eq!(
        (past.code, past.err.as_str()),
        (1, "<stdin>: the window has 32 data words, counted from 0\n")
    );
    assert_eq!(hep(&["share", "3"], TEXT).err, "<stdin>: task 3 isn't listed\n");
    let after = tool::load(TEXT.as_bytes()).unwrap();
    let image = hep::run(&after.draft.bytes(), &after.schedule.unwrap()).unwrap().image;
    let (of_bytes, of_text) = (hep(&["share", "2"], &image).out, hep(&["share", "2"], TEXT).out);
    let own = of_text.strip_prefix("counts E10 W2 T0 I0 S6\n").unwrap();
    assert_eq!(of_bytes, own.replace(" (start+1)", "").replace(" (wait+1)", ""));
    let unlisted = hep(&["share", "3", "--schedule", "3 2 * 4, 3"], TEXT);
    assert_eq!(unlisted.err, "<stdin>: task 3 isn't listed: its items (5) are idle\n");
    let queues = format!(
        "process {} (start+1)\nprocess sfu {} (wait+1)\n",
        text::psw_fields(1),
        text::psw_fields(5)
    );
    assert!(of_text.contains(&queues), "{of_text}");
}

#[test]
fn timelines() {
    let picture = hep(&["timeline", &example("frame-b.hep")], b"").out;
    for part in [
        "<title>",
        "trap 14 at item 1381, PC 00003 (store)",
        "byte address 256 is data word 32, outside the window (32 words)",
        "waited for data 32 (",
        "steps by the emulator of hep-tools, which is not proved",
    ] {
        assert!(picture.contains(part), "{part}");
    }
    let zoomed =
        hep(&["timeline", "--from", "100", "--to", "199", &example("frame-b.hep")], b"").out;
    assert!(zoomed.contains("items 100 to 199 (of 2225) of 2 tasks, a column for each item"));
    assert!(hep(&["timeline"], TEXT).out.contains("12 items of 1 task, "));
}
