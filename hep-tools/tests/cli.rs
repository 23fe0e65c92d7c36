//! The programs: exit codes, files and standard input.

use hep_tools::emulator::image;
use hep_tools::{generate, tool};
use std::io::Write;
use std::process::{Command, Output, Stdio};
use std::{env, fs, process};

const EMULATOR: &str = env!("CARGO_BIN_EXE_hep-emulator");

fn run(program: &str, arguments: &[&str], input: &[u8]) -> Output {
    let mut child = Command::new(program)
        .args(arguments)
        .stdin(Stdio::piped())
        .stdout(Stdio::piped())
        .stderr(Stdio::piped())
        .spawn()
        .expect("it starts");
    // It may stop before it reads everything.
    let _ = child.stdin.take().unwrap().write_all(input);
    child.wait_with_output().expect("it ends")
}

#[test]
fn the_emulator_answers_lines() {
    let hex = |text: &str| tool::to_hex(&tool::load(text.as_bytes()).unwrap().bytes());
    let input = hex("hep input\nconstants\n  7\nschedule\n  1 2 3\n");
    let image = hex("hep image\nconstants\n7\n");
    let lines = run(EMULATOR, &["--lines"], input.as_bytes()).stdout;
    let output: String = "E0 W0 T0 I3 S0 CF0\n".bytes().map(|byte| format!("{byte:02X}")).collect();
    assert_eq!(String::from_utf8(lines).unwrap(), format!("{output} {image}"));
    assert_eq!(run(EMULATOR, &["--lines"], b"00\n").stdout, b"52310A -\n");
    assert_eq!(run(EMULATOR, &["--lines"], b"0g\n").status.code(), Some(1));
    assert_eq!(run(EMULATOR, &["--line"], b"").status.code(), Some(2));
}

#[test]
fn comparison() {
    let folder = env::temp_dir().join(format!("hep-compare-{}", process::id()));
    let compare = env!("CARGO_BIN_EXE_hep-compare");
    let few = ["--count", "50", "--pairs", "20", "--save", folder.to_str().unwrap()];
    let code = |more: &[&str]| run(compare, &[&few[..], more].concat(), b"").status.code();
    assert_eq!(code(&[]), Some(0));
    assert_eq!(code(&["--lines", EMULATOR, "--lines"]), Some(0));
    assert_eq!(code(&["false"]), Some(1));
    assert!(fs::read_to_string(folder.join("differs.hex")).is_ok());
    assert_eq!(code(&["--seed"]), Some(2));
    assert_eq!(code(&["--unknown"]), Some(2));
    fs::remove_dir_all(folder).unwrap();
}

#[test]
fn generated_files() {
    let folder = env::temp_dir().join(format!("hep-generate-{}", process::id()));
    let path = folder.to_str().unwrap();
    let generate = |arguments: &[&str]| run(env!("CARGO_BIN_EXE_hep-generate"), arguments, b"");
    assert!(generate(&["--refused", path]).status.success());
    for number in [1, 2, 3, 4, 5, 6, 12, 13, 14] {
        let image = fs::read(folder.join(format!("R{number}.bin"))).unwrap();
        assert_eq!(image::read(&image).err().map(|refusal| refusal.number), Some(number));
    }
    assert!(generate(&["--small", "3", "2", path]).status.success());
    assert_eq!(fs::read(folder.join("3-000001.bin")).unwrap(), generate::small_input(3, 1));
    let line = String::from_utf8(generate(&["3", "1"]).stdout).unwrap();
    assert_eq!(tool::from_hex(&line).unwrap(), generate::input(3, 0));
    for wrong in [&[][..], &["--refused"], &["--images", "1", "1"], &["1"]] {
        assert_eq!(generate(wrong).status.code(), Some(2), "{wrong:?}");
    }
    fs::remove_dir_all(folder).unwrap();
}
