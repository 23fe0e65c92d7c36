//! `hep fill`: jobs in, the choice out, the chosen ones joined.

mod common;

use common::{hep, Folder};

#[test]
fn the_choice_and_its_names() {
    let jobs = "; the night's jobs\nframe a  2000\nframe b\t40\n\nframe c 1000 ; late\n";
    let ended = hep(&["fill"], jobs);
    assert_eq!(ended.out, "choice 011 frame a frame b\nsum 2040\ntries 8\nceiling 2048\n");
    assert_eq!((ended.code, ended.err.as_str()), (0, ""));
    let three = hep(&["fill", "--tries", "2"], jobs);
    assert_eq!(three.out, "choice 001 frame a\nsum 2000\ntries 2\nceiling 2048\n");
    assert_eq!(hep(&["fill"], "1 12\n2 14\n").out, "choice 11 1 2\nsum 26\ntries 4\nceiling 26\n");
    assert_eq!(hep(&["fill", "-"], "\u{FEFF}").out, "choice 0\nsum 0\ntries 1\nceiling 0\n");
}

#[test]
fn refused_jobs() {
    let said = "more than 15 jobs, or a need that is odd, below 2 or above 2,048";
    let cases = [
        (
            "a 2\nb 2049\n".to_string(),
            "5",
            format!("<stdin>: refused: R17: {said}: `b` needs 2049\n"),
        ),
        ("a 2\n".repeat(16), "0", format!("<stdin>: refused: R17: {said}\n")),
        ("a 2\n".repeat(15), "0", "<stdin>: refused: R18: zero tries\n".to_string()),
        (
            "a 2\nb -2\n".to_string(),
            "1",
            "<stdin>:2: error: a line is a name and a number of registers, not `b -2`\n"
                .to_string(),
        ),
        (
            "a 12 12\n".to_string(),
            "1",
            "<stdin>:1: error: `a 12 12` ends in two numbers, so it is not plain which is the need\n"
                .to_string(),
        ),
    ];
    for (jobs, tries, words) in cases {
        let ended = hep(&["fill", "--tries", tries], jobs);
        assert_eq!((ended.code, ended.err, ended.out.as_str()), (1, words, ""));
    }
    assert_eq!(hep(&["fill", "--tries", "x"], "").err, "hep: --tries needs a number, not `x`\n");
}

/// A job that stores its task's sum of two constants, with this many registers.
fn adder(task: u8, limit: u8, data: u8) -> String {
    format!(
        "hep input\ntask {task} cb=0 rb=0 rl={limit} pb=0 pl=0 db={data} dl={data}\nprocess 5 task={task}\n\
         constants\n  {{constant}}\n  8\nregisters\n  full {task} * 64\nprogram\n  ADD r0, r1, c0\n  STOI r0, c1\n  QT c2\n  NOP * 13\n\
         data\n  empty 0 * 96\nschedule\n  {task} * 4\n"
    )
}

#[test]
fn chosen_jobs_become_one_batch() {
    let folder = Folder::new("joined");
    let write = |name: &str, text: String, constant: &str| {
        folder.file(name, text.replace("{constant}", constant))
    };
    let a = write("a.hep", adder(3, 9, 1), "100");
    let b = write("b.hep", adder(1, 31, 2), "100");
    write("c.hep", adder(1, 4, 0), "101");
    let list = folder.file("jobs", "a.hep 20\nb.hep 64\n");
    let to = folder.path("night.hep");
    let ended = hep(&["fill", "--join", &to, &list], b"");
    assert_eq!(ended.out, "choice 11 a.hep b.hep\nsum 84\ntries 4\nceiling 84\n");
    let report = hep(&["run", "--check", &to], b"");
    assert_eq!(
        report.out,
        "1 0 -- ----- E3 W0 T0 I1 S0\n2 0 -- ----- E3 W0 T0 I1 S0\nE6 W0 T0 I2 S0 CF0\n"
    );
    for (number, own, file) in [("1", "3", &a), ("2", "1", &b)] {
        let share = hep(&["share", number, &to], b"");
        assert_eq!(share.out, hep(&["share", own, file], b"").out);
        assert_eq!(
            hep(&["share", "--data", "1", number, &to], b"").out,
            format!("1 10{own} full\n")
        );
    }
    let differs = hep(&["fill", "--join", &to, &folder.file("more", "a.hep 20\nc.hep 10\n")], b"");
    assert_eq!(differs.code, 1);
    let words = "a.hep: constant 0 is 100, in c.hep it is 101: the jobs need one constant memory\n";
    assert!(differs.err.ends_with(words), "{}", differs.err);
    let small = hep(&["fill", "--join", &to, &folder.file("small", "a.hep 18\n")], b"");
    assert_eq!(small.err, format!("{a}: its window has 20 registers, over its need of 18\n"));
    let missing = hep(&["fill", "--join", &to, &folder.file("missing", "d.hep 18\n")], b"");
    assert_eq!((missing.code, missing.err.contains("d.hep: ")), (2, true));
}
