//! `hep run`: reports, images, slices, several files, and what can't be read or written.

mod common;

use common::{example, hep, shell, Folder};
use hep_tools::emulator::batch;
use hep_tools::emulator::draft::batch_input;
use hep_tools::emulator::image;
use hep_tools::generate;
use hep_tools::tool;
use std::fs;

const TEXT: &str = "hep input
task 1 cb=0 rb=0 rl=0 pb=0 pl=0 db=1 dl=0
process 0 task=1
constants
  7
registers
  full 0 * 2
program
again:
  ADD r0, r0, c0
  B again, c1, c1
  NOP * 14
schedule
  1 * 4
";

const REPORT: &str = "1 1 -- ----- E4 W0 T0 I0 S0\nE4 W0 T0 I0 S0 CF0\n";

fn bytes() -> Vec<u8> {
    tool::load(TEXT.as_bytes()).unwrap().bytes()
}

#[test]
fn text_hex_and_bytes() {
    let hex = tool::to_hex(&bytes());
    for input in [TEXT.as_bytes(), hex.as_bytes(), &bytes()] {
        let ended = hep(&["run", "--check"], input);
        assert_eq!((ended.code, ended.out.as_str(), ended.err.as_str()), (0, REPORT, ""));
    }
    assert_eq!(hep(&["run", "-"], TEXT).out, REPORT);
}

#[test]
fn the_examples() {
    for name in ["frame-a", "frame-b", "handover"] {
        let ended = hep(&["run", "--check", &example(&format!("{name}.hep"))], b"");
        assert_eq!(ended.out, fs::read_to_string(example(&format!("{name}.out"))).unwrap());
    }
}

#[test]
fn one_file_is_the_batch_programs_bytes() {
    let folder = Folder::new("bytes");
    let mut refused = 0;
    for n in 0..40 {
        let input = generate::input(31, n);
        let file = folder.file("input", &input);
        let (ended, expected) =
            (hep(&["run", "--input", "--check", &file], b""), hep::batch(&input));
        assert_eq!(ended.out, expected, "input {n}");
        let is_refused = expected.starts_with('R');
        assert_eq!(ended.code, i32::from(is_refused), "input {n}");
        let told = ended.err.lines().any(|line| !line.contains(": note: "));
        assert_eq!(told, is_refused, "input {n}: {}", ended.err);
        refused += u32::from(is_refused);
    }
    assert!((5..35).contains(&refused), "{refused} of 40 are refused");
}

#[test]
fn several_files_have_a_line_each() {
    let folder = Folder::new("several");
    let inputs: Vec<Vec<u8>> = (0..300).map(|n| generate::input(32, n)).collect();
    let names: Vec<String> =
        inputs.iter().enumerate().map(|(n, input)| folder.file(&n.to_string(), input)).collect();
    let log = folder.path("log");
    let mut arguments = vec!["run", "--input", "--check", "--log", &log];
    arguments.extend(names.iter().map(String::as_str));
    let ended = hep(&arguments, b"");
    assert_eq!(ended.code, 1);
    let lines: Vec<&str> = ended.out.lines().collect();
    assert_eq!(lines.len(), inputs.len());
    for ((line, input), name) in lines.iter().zip(&inputs).zip(&names) {
        let output = hep::batch(input);
        let last = output.lines().last().unwrap();
        match last.starts_with('R') {
            true => assert_eq!(*line, format!("{name}\t{last}")),
            false => {
                let tasks = line.strip_prefix(&format!("{name}\taccepted\t{last}")).unwrap();
                told_by_task(input, &output, tasks);
            }
        }
    }
    let log = String::from_utf8(folder.read("log")).unwrap();
    let logged: Vec<&str> = log.lines().map(|line| line.split_once("Z\t").unwrap().1).collect();
    assert_eq!(logged, lines);
    assert!(log.starts_with("20"), "{}", &log[..40]);
}

/// Behind the counts of a file stand its tasks, each with its own counts: those that the report has a line for, and others with items, idle.
fn told_by_task(input: &[u8], report: &str, tasks: &str) {
    let rows: Vec<&str> = report.lines().rev().skip(1).collect();
    let schedule = batch::split(input).unwrap().0;
    let mut expected = String::new();
    for task in 1..=7 {
        let row = rows.iter().find(|row| row.starts_with(&format!("{task} ")));
        let items = schedule.iter().filter(|item| **item == task).count();
        expected += &match row {
            Some(row) => format!("\t{task} {}", row.splitn(5, ' ').last().unwrap()),
            None if items > 0 => format!("\t{task} E0 W0 T0 I{items} S0"),
            None => String::new(),
        };
    }
    assert_eq!(tasks, expected, "{report}");
}

#[test]
fn the_image_after() {
    let folder = Folder::new("after");
    let text = folder.file("a.hep", TEXT);
    let (image, schedule) = (&bytes()[6..], [1; 4]);
    let expected = hep::run(image, &schedule).unwrap().image;
    let after = folder.path("after");
    for form in [
        &["-o", &after][..],
        &[&format!("-o{after}")],
        &["--output", &after],
        &[&format!("--output={after}")],
    ] {
        let _ = fs::remove_file(&after);
        let ended = hep(&[&["run"], form, &["--", &text]].concat(), b"");
        assert_eq!((ended.code, ended.out.as_str()), (0, REPORT), "{form:?}");
        assert_eq!(folder.read("after"), expected);
    }
    let on = hep(&["run", "--image", "--schedule", "1 * 4", &after], b"");
    assert_eq!(on.out, REPORT);
    assert_eq!(hep(&["run", "-o", &after, &text, &text], b"").code, 2);
    assert_eq!(hep(&["run", "-o", "-", &text], b"").code, 2);
    let unwritable = hep(&["run", "-o", "/no/such/file", &text], b"");
    assert_eq!(
        (unwritable.code, unwritable.err.as_str()),
        (2, "hep: /no/such/file: No such file or directory (os error 2)\n")
    );
}

#[test]
fn images_of_any_size_and_schedules_in_slices() {
    let folder = Folder::new("large");
    let text = TEXT
        .replace("hep input", "hep image")
        .replace("schedule\n  1 * 4\n", "data\n  empty 0 * 9000\n");
    let image = folder.file("large.img", tool::load(text.as_bytes()).unwrap().bytes());
    assert!(fs::metadata(&image).unwrap().len() > 65_536);
    let ended = hep(&["run", "--check", "--schedule", "1 2 * 100000", &image], b"");
    assert_eq!(
        (ended.code, ended.out.as_str()),
        (0, "1 1 -- ----- E100000 W0 T0 I0 S0\nE100000 W0 T0 I100000 S0 CF0\n"),
        "{}",
        ended.err
    );
    assert_eq!(
        hep(&["run", "--schedule", "1 * 20, 2 * 5", &image], b"").out,
        "1 1 -- ----- E20 W0 T0 I0 S0\nE20 W0 T0 I5 S0 CF0\n"
    );
    let alone = hep(&["run", &image], b"");
    assert_eq!(alone.code, 2);
    assert!(alone
        .err
        .ends_with("an image alone has no schedule: give one, as --schedule '1 2 * 300'\n"));
    let long = TEXT.replace("1 * 4\n", "1 * 70000\n");
    let report = "1 1 -- ----- E70000 W0 T0 I0 S0\nE70000 W0 T0 I0 S0 CF0\n";
    assert_eq!(hep(&["run", "--check"], &long).out, report);
    let asm = hep(&["asm"], &long);
    assert_eq!(asm.code, 1);
    assert!(
        asm.err.contains("no batch input: its schedule has 70000 items, over 65535"),
        "{}",
        asm.err
    );
    let trace = hep(&["trace", "--schedule", "1 * 70000", "--from", "69999", &image], b"");
    assert_eq!(trace.out.lines().count(), 2);
    for command in [&["share", "1"][..], &["why"], &["timeline"], &["dump", "--after"]] {
        let ended = hep(&[command, &["--schedule", "1 * 3", &image]].concat(), b"");
        assert_eq!(ended.code, 0, "{command:?}: {}", ended.err);
    }
}

#[test]
fn json() {
    let ended = hep(&["run", "--json", "-", &example("frame-b.hep"), "/no/file"], [8, 9]);
    let lines: Vec<&str> = ended.out.lines().collect();
    assert!(
        lines[0].starts_with("{\"file\":\"-\",\"result\":\"refused\",\"refusal\":2,\"reason\":\""),
        "{}",
        lines[0]
    );
    let counts = |[executed, waved, trapped, idle, tries]: [u64; 5]| {
        format!("\"executed\":{executed},\"waved\":{waved},\"trapped\":{trapped},\"idle\":{idle},\"tries\":{tries}")
    };
    let task =
        |number: u8, rest: &str, own| format!("{{\"task\":{number},{rest},{}}}", counts(own));
    let run = counts([311, 1121, 1, 792, 90]);
    let one = task(1, "\"listed\":true,\"live\":0,\"trap\":null", [185, 6, 0, 109, 90]);
    let trap = "{\"kind\":\"14\",\"pc\":3}";
    let rest = format!("\"listed\":true,\"live\":11,\"trap\":{trap}");
    let five = task(5, &rest, [126, 1115, 1, 683, 0]);
    let end = format!("{run},\"create_fault\":false,\"tasks\":[{one},{five}]}}");
    assert!(lines[1].ends_with(&format!("\"result\":\"accepted\",{end}")), "{}", lines[1]);
    assert!(lines[2].contains("\"result\":\"failed\""));
    assert_eq!(ended.code, 2);
    let unlisted = hep(&["run", "--json", "--schedule", "7 1 * 3, 2"], TEXT).out;
    let none = "\"listed\":false,\"live\":0,\"trap\":null";
    let listed = task(1, "\"listed\":true,\"live\":1,\"trap\":null", [3, 0, 0, 0, 0]);
    let others = [(2, 1), (7, 3)].map(|(number, idle)| task(number, none, [0, 0, 0, idle, 0]));
    let end = format!("\"tasks\":[{listed},{}]}}\n", others.join(","));
    assert!(unlisted.ends_with(&end), "{unlisted}");
}

#[test]
fn refused_inputs_have_words() {
    let mut refused = bytes();
    let image = image::read(&refused[6..]).is_ok();
    assert!(image);
    refused[6 + 1 + 19] = 2;
    let ended = hep(&["run", "--input"], &refused);
    assert_eq!((ended.code, ended.out.as_str()), (1, "R3\n"));
    let words = "<stdin>: refused as a batch input: R3: task section, row 1 of 1: trap kind 0x02 is none of";
    assert!(ended.err.starts_with(words), "{}", ended.err);
    assert_eq!(hep(&["run", "--input"], batch_input(&[9], &bytes()[6..])).out, "R10\n");
    let text = hep(&["run"], "hep input\nflag 3\n");
    assert_eq!((text.code, text.out.as_str()), (1, ""));
    assert!(text.err.starts_with("<stdin>:2:6: error: the flag must be from 0 to 1\n"));
    assert_eq!(hep(&["run", "--input", "--image"], TEXT).code, 2);
}

const FULL: &str = "No space left on device (os error 28)";

/// Command lines, where FRAME is a file, and the words of each failure.
const BROKEN: [(&str, &str, &str); 12] = [
    ("$HEP run FRAME > /dev/full", "standard output", FULL),
    ("$HEP run FRAME >&-", "standard output", "it is closed"),
    ("$HEP run FRAME 1< /dev/null", "standard output", "Bad file descriptor (os error 9)"),
    ("$HEP trace FRAME > /dev/full", "standard output", FULL),
    ("$HEP --help > /dev/full", "standard output", FULL),
    ("$HEP run -o /dev/full FRAME", "/dev/full", FULL),
    ("$HEP run --log /dev/full FRAME", "/dev/full", FULL),
    ("$HEP run < /", "standard input", "Is a directory (os error 21)"),
    ("$HEP run 0> /dev/null", "standard input", "Bad file descriptor (os error 9)"),
    ("$HEP run <&-", "standard input", "it is closed"),
    ("$HEP run /", "/", "Is a directory (os error 21)"),
    ("$HEP run /no/file", "/no/file", "No such file or directory (os error 2)"),
];

#[test]
fn what_cannot_be_read_or_written() {
    for (line, what, words) in BROKEN {
        let ended = shell(&line.replace("FRAME", &example("frame-a.hep")));
        assert_eq!((ended.code, ended.err), (2, format!("hep: {what}: {words}\n")), "{line}");
    }
}

#[test]
fn a_file_that_is_read_is_not_written_over() {
    let folder = Folder::new("written-over");
    let (file, other) = (folder.file("own.hep", TEXT), folder.file("other.hep", TEXT));
    let (hard, soft) = (folder.path("hard.hep"), folder.path("soft.hep"));
    fs::hard_link(&file, &hard).unwrap();
    std::os::unix::fs::symlink(&file, &soft).unwrap();
    for to in [&file, &hard, &soft] {
        let lines = [
            format!("$HEP run -o {to} {file}"),
            format!("$HEP run -o {to} < {file}"),
            format!("$HEP run --log {to} {file}"),
            format!("$HEP run --log {to} {other} {file}"),
            format!("$HEP run --log {to} < {file}"),
            format!("$HEP timeline -o {to} {file}"),
            format!("$HEP dump -o {to} {file}"),
            format!("$HEP asm -o {to} {file}"),
        ];
        for line in lines {
            let ended = shell(&line);
            let words = format!("hep: {to}: it is a file that is read, and is not written over\n");
            assert_eq!((ended.code, ended.err, ended.out), (2, words, String::new()), "{line}");
            assert_eq!(fs::read(&file).unwrap(), TEXT.as_bytes(), "{line}");
        }
    }
    assert_eq!(shell("$HEP run -o /dev/null --log /dev/null --image < /dev/null").code, 1);
    assert_eq!(hep(&["run", "--log", &other, &file], b"").code, 0);
    // `rt ci` refuses a tree with a link in it, so the gate would not run again here.
    fs::remove_file(&soft).unwrap();
}

#[test]
fn a_reader_that_has_gone_is_no_failure() {
    let frame = example("frame-b.hep");
    let commands = [
        "--help".to_string(),
        format!("trace {frame}"),
        format!("dump {frame}"),
        format!("run {frame} {frame}"),
    ];
    for command in commands {
        let ended = shell(&format!("{{ sleep 0.1; $HEP {command}; echo $? >&2; }} | true"));
        assert_eq!(ended.err, "0\n", "{command}");
    }
}

#[test]
fn a_small_stack_is_enough() {
    let ended = shell("ulimit -s 256; printf '\\0\\1\\1' | $HEP run --input");
    assert_eq!((ended.code, ended.out.as_str()), (1, "R1\n"), "{}", ended.err);
}

#[test]
fn a_schedule_without_items_is_noted() {
    let ended = hep(&["run"], "hep input\n");
    assert_eq!(ended.code, 0);
    assert_eq!(ended.err, "<stdin>: note: the schedule has no items, so nothing runs\n");
}
