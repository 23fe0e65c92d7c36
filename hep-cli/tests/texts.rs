//! Texts and bytes that are refused, the command line, help, version and the man page.

mod common;

use common::{example, hep, shell, Folder};
use hep_tools::emulator::draft::batch_input;
use hep_tools::generate;
use hep_tools::tool;
use hep_tools::trials::edges;
use std::collections::BTreeSet;
use std::fs;

/// The commands, by the general help.
fn commands() -> Vec<String> {
    let help = hep(&["--help"], b"").out;
    let lines = help.lines().filter_map(|line| line.strip_prefix("  "));
    lines.filter_map(|line| line.split_whitespace().next().map(str::to_string)).collect()
}

/// The requests that have a landing note.
fn landed() -> BTreeSet<u32> {
    let notes = fs::read_dir(concat!(env!("CARGO_MANIFEST_DIR"), "/../docs/landings")).unwrap();
    let names = notes.map(|note| note.unwrap().file_name().into_string().unwrap());
    names.filter_map(|name| name.strip_prefix('L')?.strip_suffix(".md")?.parse().ok()).collect()
}

#[test]
fn help_and_version() {
    assert_eq!(commands().len(), 11);
    for command in commands() {
        let help = hep(&[&command, "--help"], b"");
        assert_eq!(help.code, 0);
        assert!(help.out.starts_with(&format!("usage: hep {command} ")), "{}", help.out);
        assert_eq!(hep(&[&command, "-h"], b""), help);
        assert_eq!(hep(&["help", &command], b""), help);
        assert!(help.out.lines().all(|line| line.chars().count() <= 170), "{}", help.out);
    }
    let run = hep(&["run", "--help"], b"").out;
    assert!(run.lines().next().unwrap().ends_with(" [FILE..]"), "{run}");
    assert!(run.contains("Without FILE it reads standard input."), "{run}");
    let version = hep(&["--version"], b"");
    let number = fs::read_to_string(concat!(env!("CARGO_MANIFEST_DIR"), "/../VERSION")).unwrap();
    let level: u32 = number.split('.').nth(1).unwrap().parse().unwrap();
    let others: String = landed().range(level + 1..).map(|n| format!(" and L{n}")).collect();
    let start = format!("hep {}, requests L1 to L{level}{others}, its library ", number.trim());
    assert!(version.out.starts_with(&start), "{}", version.out);
    assert_eq!(hep(&["-V"], b""), version);
    assert_eq!(env!("CARGO_PKG_VERSION"), number.trim());
}

#[test]
fn completion() {
    let complete = |words: &str| {
        let place = words.split(' ').count() - 1;
        let words: Vec<String> = words.split(' ').map(|word| format!("'{word}'")).collect();
        let line = format!(
            "COMP_WORDS=({}) COMP_CWORD={place}; _hep; echo \"${{COMPREPLY[*]}}\"",
            words.join(" ")
        );
        shell(&format!("eval \"$($HEP --completion)\"; {line}"))
    };
    for (words, expected) in [
        ("hep t", "trace timeline"),
        ("hep trace --p", "--profile"),
        ("hep dump --", "--after --schedule --output --input --image --help"),
        (&format!("hep run {}", example("frame-a.o")), &example("frame-a.out")),
    ] {
        let ended = complete(words);
        assert_eq!((ended.out.trim_end(), ended.err.as_str()), (expected, ""), "{words}");
    }
}

#[test]
fn wrong_usage() {
    let cases = [
        (&[][..], "hep: a command is missing\n"),
        (&["disasm"], "hep: `disasm` is no command (did you mean `dump`?): run, "),
        (&["tracee"], "hep: `tracee` is no command (did you mean `trace`?): run, "),
        (&["help", "runn"], "hep: `runn` is no command (did you mean `run`?): run, "),
        (&["dump", "--form"], "hep: unknown option --form\nusage: hep dump "),
        (
            &["trace", "--form=3"],
            "hep: unknown option --form (did you mean `--from`?)\nusage: hep trace ",
        ),
        (&["asm", "-o"], "hep: -o needs FILE\n"),
        (&["asm", "a", "b"], "hep: one file is taken, so what is `b`?\n"),
        (
            &["trace", "--only", "wave"],
            "hep: `wave` is no ending (did you mean `waved`?): executed, waved, trapped, idle\n",
        ),
        (&["trace", "--from", "x"], "hep: --from needs a number, not `x`\n"),
        (&["trace", "--from", "2", "--to", "1"], "hep: --from 2 is behind --to 1\n"),
        (&["share"], "hep: the task's number is missing\n"),
        (&["share", "0x3"], "hep: a task is a number from 1 to 7, not `0x3`\n"),
        (&["share", "--data", "5..4", "1"], "hep: --data needs places, as 0..7 or 5, not `5..4`\n"),
        (&["agree", "1", "a"], "hep: agree takes a task and two files\n"),
        (&["check"], "hep: a file is missing; `-` is standard input\n"),
        (
            &["run", "--schedule", "1 8"],
            "hep: --schedule needs items 1 to 7, as `1 2 * 300`: an item must be from 1 to 7\n",
        ),
    ];
    for (arguments, words) in cases {
        let ended = hep(arguments, "hep input\n");
        assert_eq!(ended.code, 2, "{arguments:?}");
        assert!(ended.err.starts_with(words), "{arguments:?}: {}", ended.err);
    }
}

#[test]
fn a_text_has_all_its_errors_told() {
    let text = "hep input\n\
                task 1 cb=0 rb=0 rx=0 pb=0 pl=0 db=1 dl=0\n\
                process 0 task=1 pc=strat\n\
                registers\n  full 0 * 2\n\
                program\nstart:\n\tMOVE r0, r1\n  ADD r0, r0, r9999\n  NOP * 14\n";
    let folder = Folder::new("errors");
    let file = folder.file("bad.hep", text);
    let expected = format!(
        "{file}:2:18: error: `rx` is no field here (did you mean `rb` or `rl`?)
    2 | task 1 cb=0 rb=0 rx=0 pb=0 pl=0 db=1 dl=0
      |                  ^~
{file}:3:21: error: `strat` is unknown (did you mean `start`?)
    3 | process 0 task=1 pc=strat
      |                     ^~~~~
{file}:8:2: error: `MOVE` is no instruction (did you mean `MOV`?)
    8 | \tMOVE r0, r1
      | \t^~~~
{file}:9:15: error: the displacement must be from 0 to 2047
    9 |   ADD r0, r0, r9999
      |               ^~~~~
"
    );
    for command in ["asm", "run", "check", "dump", "trace", "why", "show"] {
        let ended = hep(&[command, &file], b"");
        assert_eq!(
            (ended.code, ended.err.as_str(), ended.out.as_str()),
            (1, expected.as_str(), ""),
            "{command}"
        );
    }
    let many = hep(&["check", "-"], format!("hep image\nregisters\n{}", "5\n".repeat(30)));
    assert_eq!(many.err.lines().filter(|line| line.contains(": error: ")).count(), 20);
    assert!(many.err.ends_with("<stdin>: 20 errors; the rest is not told\n"));
    let header = hep(&["check", "-"], "hep tape\nflag 7\n");
    assert_eq!(header.err.lines().count(), 3);
}

#[test]
fn letters_that_are_not_utf_8() {
    let ended = hep(&["run"], b"hep input\n; Tr\xE4ger\nschedule\n1\n");
    assert_eq!(ended.code, 1);
    let start = "<stdin>:2:5: error: byte 0xE4 is no letter in UTF-8\n";
    assert!(ended.err.starts_with(start), "{}", ended.err);
}

#[test]
fn a_byte_order_mark_is_taken() {
    let ended = hep(&["run"], "\u{FEFF}hep input\r\nschedule\r\n1\r\n");
    assert_eq!((ended.code, ended.out.as_str()), (0, "E0 W0 T0 I1 S0 CF0\n"));
}

#[test]
fn empty_and_foreign_files_are_told_as_such() {
    let cases: [(&[u8], &str); 6] = [
        (b"", "the file is empty"),
        (b"\x89PNG\r\n\x1A\n", "no image of this machine: it begins with 89 50 4E 47, like a PNG picture"),
        (b"\x1F\x8B\x08\0\0", "no image of this machine: it begins with 1F 8B, like a file packed by gzip"),
        (b"\x7FELF\x02\x01", "no image of this machine: it begins with 7F 45 4C 46, like a program (ELF)"),
        (b"\xFF\xFEh\0e\0", "no image of this machine: it begins with FF FE, like UTF-16 text, which should be saved as UTF-8"),
        (b"001", "3 hex digits make no whole bytes: one is missing or too much"),
    ];
    for (bytes, words) in cases {
        for command in ["run", "check", "show", "asm"] {
            let ended = hep(&[command, "-"], bytes);
            assert_eq!((ended.code, ended.err), (1, format!("<stdin>: {words}\n")), "{command}");
        }
    }
}

#[test]
fn hex_digits_in_any_dress() {
    let input = tool::load(&fs::read(example("frame-a.hep")).unwrap()).unwrap().bytes();
    let report = hep(&["run"], &input).out;
    let bytes: Vec<String> = input.iter().map(|byte| format!("0x{byte:02x}")).collect();
    let rows = input.chunks(16).enumerate().map(|(i, row)| {
        let pairs: Vec<String> = row.chunks(2).map(tool::hex_line).collect();
        format!("{:08x}: {:<39}  ..text..\n", 16 * i, pairs.join(" ").to_lowercase())
    });
    let plain: String = tool::to_hex(&input).to_lowercase();
    for dress in [bytes.join(" "), rows.collect(), plain] {
        assert_eq!(hep(&["run"], &dress).out, report, "{}", &dress[..60]);
    }
}

#[test]
fn a_tape_with_ten_faults_is_one_round() {
    let mut image = edges::full().bytes();
    let faults: [(usize, u8, &str); 10] = [
        (2, 0x10, "R3: task section, row 1 of 2: CB 0x1"),
        (48, 2, "R3: task section, row 2 of 2: trap kind 0x02"),
        (58, 2, "R12: process section: create fault flag 0x02"),
        (59, 64, "R12: process section, process 1 of 3: PT 0x40"),
        (70, 8, "R12: process section, process 2 of 3: task 0x08"),
        (91, 7, "R14: constant section, constant 1 of 2: quality 0x07"),
        (111, 7, "R13: register section, register 1 of 5: tag 0x07"),
        (147, 15, "R13: register section, register 5 of 5: tag 0x0F"),
        (292, 2, "R13: data section, word 1 of 32: state 0x02"),
        (571, 255, "R13: data section, word 32 of 32: state 0xFF"),
    ];
    for (place, byte, _) in faults {
        image[place] = byte;
    }
    image.extend([0; 3]);
    let ended = hep(&["check", "--image", "-"], &image);
    let lines: Vec<&str> = ended.err.lines().collect();
    assert_eq!((ended.code, lines.len()), (1, 11), "{}", ended.err);
    for ((place, _, words), line) in faults.iter().zip(&lines) {
        assert!(line.starts_with(&format!("<stdin>: {words}")), "{line}");
        assert!(
            line.ends_with(&format!("(byte {place} of the image, 0x{place:X}, counted from 0)")),
            "{line}"
        );
    }
    assert!(lines[10].contains("R4: data section: the end has more bytes behind it: 3"));
    let input = batch_input(&[1, 9, 0], &image);
    let as_input = hep(&["check", "--input", "-"], &input);
    assert_eq!(as_input.err.lines().count(), 13);
    let either = hep(&["check", "-"], &input);
    assert_eq!(either.err.lines().count(), 2, "{}", either.err);
    assert_eq!(hep(&["check", &example("frame-a.hep"), &example("frame-b.hep")], b"").err, "");
}

#[test]
fn every_refused_input_is_checked_to_its_end() {
    let folder = Folder::new("checked");
    let inputs =
        (0..400).map(|n| generate::input(33, n)).filter(|input| hep::batch(input).starts_with('R'));
    let inputs: Vec<Vec<u8>> = inputs.collect();
    assert!(inputs.len() > 50);
    let files: Vec<String> =
        inputs.iter().enumerate().map(|(n, i)| folder.file(&n.to_string(), i)).collect();
    let mut arguments = vec!["check", "--input"];
    arguments.extend(files.iter().map(String::as_str));
    let ended = hep(&arguments, b"");
    assert_eq!(ended.code, 1);
    for (file, input) in files.iter().zip(&inputs) {
        let mine = ended.err.lines().filter_map(|line| line.strip_prefix(&format!("{file}: ")));
        let first = mine.clone().next().expect("it is told");
        let number = first.split(':').next().unwrap();
        assert!(
            first == "the file is empty" || format!("{number}\n") == hep::batch(input),
            "{first}"
        );
    }
}

/// Every command and option of the program stands in its man page, and the page shows a text that it takes.
#[test]
fn the_man_page_names_every_option() {
    let page =
        fs::read_to_string(concat!(env!("CARGO_MANIFEST_DIR"), "/../install/hep.1")).unwrap();
    for command in commands() {
        assert!(page.contains(&format!("\n.SS hep {command}")), "{command}");
        let help = hep(&[&command, "--help"], b"").out;
        let options = help.lines().filter_map(|line| {
            line.trim_start().split("--").nth(1).filter(|_| line.starts_with("  "))
        });
        for option in options {
            let name = option.split(['=', ' ']).next().unwrap();
            assert!(
                page.contains(&format!("\\-\\-{}", name.replace('-', "\\-"))),
                "{command} --{name}"
            );
        }
    }
    let start = page.find("hep input\n").expect("an example");
    let text = &page[start..start + page[start..].find(".fi").unwrap()];
    assert_eq!(hep(&["run"], text).out, "1 1 -- ----- E2 W0 T0 I0 S0\nE2 W0 T0 I0 S0 CF0\n");
}

/// The text that FORMAT.md begins with does what is said below it.
#[test]
fn the_first_text_of_the_format() {
    let page =
        fs::read_to_string(concat!(env!("CARGO_MANIFEST_DIR"), "/../hep-tools/FORMAT.md")).unwrap();
    let start = page.find("    hep input\n").expect("an example");
    let text = &page[start..start + page[start..].find("\n`hep run`").unwrap()];
    let report = hep(&["run", "--check"], text).out;
    let said = format!("`{}`", report.trim_end().replace('\n', "` and `"));
    assert!(page.contains(&format!("`hep run` reports {said}")), "{said}");
    let share = hep(&["share", "--data", "3", "1"], text).out;
    assert!(
        page.contains(&format!("`hep share --data 3 1` shows `{}`", share.trim_end())),
        "{share}"
    );
    let json = hep(&["run", "--json", "--schedule", "1 * 20, 4 * 2"], text).out;
    let start = page.find("    {\"file\":\"first.hep\"").expect("an object");
    let object = &page[start..start + page[start..].find("\n\n").unwrap()];
    let object: String = object.lines().map(str::trim_start).collect();
    assert_eq!(json, object.replace("first.hep", "-") + "\n");
    let share = hep(&["share", "1"], text).out;
    let counts = share.lines().next().unwrap();
    assert!(page.contains(&format!("in `hep share` too, as `{counts}`")), "{counts}");
}
