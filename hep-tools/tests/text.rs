//! The text of images and inputs, both ways, and what is said of bad text.

use hep_tools::emulator::assemble::*;
use hep_tools::emulator::batch;
use hep_tools::emulator::codes::{self, Role, OPERATIONS};
use hep_tools::emulator::draft::{batch_input, Process};
use hep_tools::emulator::image;
use hep_tools::emulator::machine::Counts;
use hep_tools::generate;
use hep_tools::generate::random::Random;
use hep_tools::tool;
use hep_tools::tool::load::open;
use hep_tools::tool::profile::profile;
use hep_tools::tool::text::{assemble, dump, show, Symbols};
use hep_tools::tool::timeline::{svg, View};
use hep_tools::tool::trace::{self, Filter};
use hep_tools::tool::why::why;
use hep_tools::trials::edges;
use std::fs;

/// That the bytes come back from their text, and the text from the bytes.
fn both_ways(bytes: &[u8]) {
    let text = tool::dumped(bytes).expect("accepted");
    let source = assemble(&text).unwrap_or_else(|errors| panic!("{}\n{text}", errors[0]));
    assert_eq!(source.bytes(), bytes, "{text}");
    assert_eq!(dump(&source), text);
}

#[test]
fn generated_inputs() {
    let accepted = |input: &Vec<u8>| !batch::output(input).starts_with(b"R");
    let inputs = (0..4_000).map(|n| generate::input(21, n)).filter(accepted);
    assert!(inputs.map(|input| both_ways(&input)).count() > 2_000);
}

#[test]
fn generated_images() {
    (0..1_000).for_each(|n| both_ways(&generate::image(22, n)));
}

/// The instruction's text gives the word again.
fn word_both_ways(word: u64) {
    let text = format!("hep image\nprogram\n{}\n", show(word));
    let source = assemble(&text).unwrap_or_else(|errors| panic!("{}\n{text}", errors[0]));
    assert_eq!(source.draft.program, [word], "{text}");
}

#[test]
fn every_code_and_any_word() {
    let mut random = Random::new(23);
    for code in 0..=0xFFFF {
        word_both_ways(word(code, 0, 0, 0));
        word_both_ways(u64::from(code) << 48 | random.draw() >> 16);
        let plain = |random: &mut Random| random.draw() as u16 & !0x2000;
        let (d, s1, s2) = (plain(&mut random), plain(&mut random), plain(&mut random));
        word_both_ways(word(code, d, s1, s2));
    }
    let named = |code: &u16| !show(word(*code, 0, 0, 0)).starts_with("word");
    // 20 whole codes, 16 tests of CALL and QT, 256 codes of B and CREATE, 6 loads, 4 stores.
    assert_eq!((0..=0xFFFF).filter(named).count(), 20 + 2 * 16 + 2 * 256 + 2 * 6 + 2 * 4);
}

#[test]
fn instructions_read_as_the_source_writes_them() {
    let cases = [
        (word(NOP, 0, 0, 0), "NOP"),
        (word(SVC, 5, 0, 0), "SVC 5"),
        (word(ADD, register(0), accessed(2, 1), constant(7)), "ADD r0, r1:W:U, c7"),
        (word(MOV, accessed(3, 9), INDEXED | accessed(1, 2), 0), "MOV r9:E:U, r2+RI:W"),
        (word(NOT, accessed(1, 9), INDEXED | constant(2), 0), "NOT r9:F, c2+CI"),
        (word(CLR, accessed(2, 9), 0, 0), "CLR r9:E"),
        (branch(7, 0x1_0002, constant(0), register(3)), "B 0x10002, r3, c0"),
        (branch(2, 4, constant(0), accessed(3, 3)), "BEQ 0x00004, r3:E, c0"),
        (call(14, register(1), register(2), register(3)), "CALLPE r1, r2, r3"),
        (create(7, 0, constant(1), constant(0)), "CREATE c1, c0"),
        (create(9, 9, accessed(2, 1), constant(0)), "CREATEF r1:W:U(RCI,RPC), c0"),
        (quit(0, constant(0)), "QTNV c0"),
        (word(LODI | SAC_TAKE, 0, register(1), 0), "LODI:W:U r0, r1"),
        (word(LODX | BYTE | SAC_FULL, 0, register(1), register(2)), "LODX:B:W r0, r1, r2"),
        (word(STOI | DAC_EMPTY, 0, register(1), register(2)), "STOI:E r2, r1"),
        (word(STOX, register(0), register(1), register(2)), "STOX r0, r1, r2"),
        (word(0x711E, 0, 0, 0), "word 0x711E000000000000"),
        (word(codes::PRIVILEGED[0], 0, 0, 0), "word 0x0700000000000000"),
        (word(ADD, accessed(4, 0), 0, 0), "word 0x7126200000000000"),
    ];
    for (word, text) in cases {
        assert_eq!(show(word), text);
    }
}

/// The rows of the table with this heading in a document: their cells.
fn table(document: &str, heading: &str) -> Vec<Vec<String>> {
    let path = format!("{}/../{document}", env!("CARGO_MANIFEST_DIR"));
    let text = fs::read_to_string(path).unwrap();
    let start = text.find(heading).expect(heading);
    let rows = text[start..].lines().skip(2).take_while(|line| line.starts_with('|'));
    let cells =
        |row: &str| row.trim_matches('|').split('|').map(|c| c.trim().to_string()).collect();
    rows.map(cells).collect()
}

/// The roles of an operation's fields, by their names in a document.
fn roles(fields: &str) -> Vec<Role> {
    let role = |field: &str| match field {
        "-" => Role::Unused,
        "D" => Role::Destination,
        "S0" | "S1" | "S2" => Role::Source,
        _ => Role::Free,
    };
    fields.split_whitespace().map(role).collect()
}

/// FORMAT.md and MACHINE.md have the fields of each operation alike, as the word has them, and FORMAT.md says how they are written.
#[test]
fn documents_have_one_order_of_fields() {
    let written = table("hep-tools/FORMAT.md", "| Operation | Written |");
    let coded = table("docs/MACHINE.md", "| Operation | Code |");
    for operation in OPERATIONS {
        let has = |cell: &str| cell.split([',', ' ']).position(|name| name == operation.name);
        let row = written.iter().find(|row| has(&row[0]).is_some()).expect(operation.name);
        assert_eq!(roles(&row[2]), operation.fields, "{}", operation.name);
        let fields: Vec<&str> = row[2].split_whitespace().collect();
        let order: Vec<&str> = operation.order.iter().map(|&i| fields[i]).collect();
        let plain = row[1].split(';').next().unwrap().replace("(RCI,RRI,RUTM,RPC)", "");
        assert_eq!(plain.replace("code", "free"), order.join(", "), "{}", operation.name);
        let machine = coded.iter().find(|row| has(&row[0]).is_some()).expect(operation.name);
        let place = machine[0].split(", ").position(|name| name == operation.name).unwrap();
        let each: Vec<&str> = machine[2].split(", ").collect();
        assert_eq!(each[place.min(each.len() - 1)], row[2], "{}", operation.name);
    }
}

#[test]
fn names_labels_and_repetitions() {
    let text = "
        ; comments and empty lines count for nothing
        hep input
        task 1 cb=0 rb=0 rl=0 pb=1 pl=1 db=1 dl=0
        process 3 task=1 pc=again
        name sum = r1
        name step = c1
        name LIMIT = 0x10
        constants
          psw ri=2 utm=0x40 pc=done quality=1
          -1
          LIMIT quality=5 * 2
        registers
          empty 5 quality=4
          full step_word
        name step_word = -7
        program at 16
        again:
          add sum, sum, step   ; lower case is as good
          BNE again, sum, c9
        done: QT c9
          NOP * 13
        schedule
          1 2 * 3
          7
    ";
    let source = assemble(text).unwrap();
    let draft = &source.draft;
    assert_eq!(draft.constants, [(1, psw(0, 2, 0x40, 2)), (0, u64::MAX), (5, 16), (5, 16)]);
    assert_eq!(draft.registers, [(12, 5), (0, -7_i64 as u64)]);
    assert_eq!(draft.program[..16], [0; 16]);
    assert_eq!(draft.program[16], word(ADD, register(1), register(1), constant(1)));
    assert_eq!(draft.program[17], branch(5, 0, constant(9), register(1)));
    assert_eq!((draft.program.len(), draft.processes[0].psw), (32, 0));
    assert_eq!(source.schedule, Some(vec![1, 2, 1, 2, 1, 2, 7]));
    both_ways(&source.bytes());
}

/// Bad text as lines behind `hep input`, with the line, column and reason.
const BAD: [(&str, usize, usize, &str); 66] = [
    ("task", 2, 5, "a number should stand here"),
    ("task 0 cb=0", 2, 6, "the task must be from 1 to 7"),
    ("task 8 cb=0", 2, 6, "the task must be from 1 to 7"),
    ("task 1 cb=4096", 2, 11, "cb must be from 0 to 4095"),
    ("task 1 cb=0 rb=1024", 2, 16, "rb must be from 0 to 1023"),
    ("task 1 cb=0 pl=65536", 2, 16, "pl must be from 0 to 65535"),
    ("task 1 dl=0x1000000", 2, 11, "dl must be from 0 to 16777215"),
    ("task 1 cb=0 cb=0", 2, 13, "cb is given twice"),
    ("task 1 cb 0", 2, 11, "`=` is missing"),
    ("task 1 cb=0 rb=1 rl=0 pb=1 pl=0 db=1", 2, 37, "dl is missing"),
    ("task 1 cb=0 rb=1 rl=0 pb=1 pl=0 db=1 dl=0 x", 2, 43, "the line should end here"),
    (
        "task 1 cb=0 rb=1 rl=0 pb=1 pl=0 db=1 dl=0 trap=0x10",
        2,
        48,
        "the kinds are 0x00 0x12 0x14 0x16 0x1A 0x1C 0x1E",
    ),
    (
        "task 1 cb=0 rb=0 rl=1 pb=1 pl=0 db=1 dl=0\nregisters\nfull 0",
        2,
        1,
        "the register window ends past its memory: it needs 4 registers, 1 are there, 3 are missing (`full 0 * 3`)",
    ),
    (
        "task 1 cb=0 rb=1 rl=0 pb=0 pl=2 db=1 dl=0\nprogram\nNOP * 45",
        2,
        1,
        "the program window ends past its memory: it needs 48 words, 45 are there, 3 are missing (`NOP * 3`)",
    ),
    (
        "task 1 cb=0 rb=1 rl=0 pb=1 pl=0 db=0 dl=0",
        2,
        1,
        "the data window ends past its memory: it needs 32 words, 0 are there, 32 are missing (`empty 0 * 32`)",
    ),
    ("task 1 cb=0 rb=1 rx=0", 2, 18, "`rx` is no field here (did you mean `rb` or `rl`?)"),
    ("task 1 cb=0 rb=1", 2, 17, "rl, pb, pl, db, dl are missing"),
    ("registrs", 2, 1, "`registrs` is no section (did you mean `registers`?)"),
    ("taks 1 cb=0", 2, 1, "`task`, `process` or a section should stand here (did you mean `task`?)"),
    ("constants\n7 qualty=5", 3, 3, "`qualty` is no field here (did you mean `quality`?)"),
    ("program\nstart: NOP\nB strat, c0, c0", 4, 3, "`strat` is unknown (did you mean `start`?)"),
    ("program\nMOVE r0, r1", 3, 1, "`MOVE` is no instruction (did you mean `MOV`?)"),
    ("flag 2", 2, 6, "the flag must be from 0 to 1"),
    ("process 0 task=1", 2, 16, "task 1 isn't listed above"),
    (
        "task 1 cb=0 rb=1 rl=0 pb=1 pl=0 db=1 dl=0\nprocess 0 task=1 suf pc=1",
        3,
        18,
        "`suf` is no field here (did you mean `sfu`?)",
    ),
    ("process 64", 2, 9, "the process number must be from 0 to 63"),
    (
        "task 1 cb=0 rb=1 rl=0 pb=1 pl=0 db=1 dl=0\nprocess 0 task=1 sfu\nprocess 1 task=1",
        4,
        16,
        "a task's queue stands before its SFU queue",
    ),
    (
        "task 1 cb=0 rb=1 rl=0 pb=1 pl=0 db=1 dl=0\ntask 2 cb=0 rb=1 rl=0 pb=1 pl=0 db=1 dl=0\n\
         process 0 task=2\nprocess 1 task=1 sfu",
        5,
        16,
        "processes stand by ascending task",
    ),
    ("task 1 cb=0 rb=1 rl=0 pb=1 pl=0 db=1 dl=0\nprocess 0 task=1 pc=1 sfu", 3, 23, "the line should end here"),
    ("process 0 pc=1", 2, 11, "`task=` should stand here"),
    ("1 2 3", 2, 1, "`task`, `process` or a section should stand here"),
    ("name r3 = 5", 2, 6, "`r3` can't be a name"),
    ("name 3 = 5", 2, 6, "`3` can't be a name"),
    ("name x = y", 2, 10, "`y` is unknown"),
    ("name x = 1\nname x = 2", 3, 6, "`x` has its meaning from line 2"),
    ("constants at 4097", 2, 14, "the address must be from 0 to 4096"),
    ("constants\n1\nconstants at 0", 4, 14, "there are 1 cells already"),
    ("constants\n12x", 3, 1, "a number should stand here"),
    ("constants\n0x10000000000000000", 3, 1, "a word must be from -2^63 to 2^64 - 1"),
    ("constants\npsw pc=0x100000", 3, 8, "pc must be from 0 to 1048575"),
    ("constants\n1 * 0", 3, 5, "the repetition must be from 1 to 1048576"),
    ("constants\n1 * 4097", 3, 1, "the section has at most 4096"),
    ("constants\n1 2", 3, 3, "the line should end here"),
    ("constants\nfull 1", 3, 1, "`full` is unknown"),
    ("constants\n5 quality=7", 3, 11, "quality must be from 0 to 6"),
    ("constants\nquality=5 5", 3, 1, "`quality` is unknown"),
    ("registers\n5", 3, 1, "`full` or `empty` should stand here"),
    ("registers\nfull 5 quality=7", 3, 16, "quality must be from 0 to 6"),
    ("program\nAND r0, r1, r2", 3, 1, "`AND` is no instruction (did you mean `ADD` or `NAND`?)"),
    ("program\nADD r0, r1", 3, 11, "`,` is missing"),
    ("program\nADD r0, r1,", 3, 12, "an operand should stand here"),
    ("program\nADD r0, r1, 2", 3, 13, "an operand should stand here"),
    ("program\nADD r2048, r1, r2", 3, 5, "the displacement must be from 0 to 2047"),
    ("program\nMOV r1, c8192", 3, 9, "the displacement must be from 0 to 8191"),
    ("program\nMOV r1:W, c0", 3, 7, "the access may be :F :E :E:U"),
    ("program\nMOV r1, r2:U", 3, 11, "the access may be :W :W:U :E"),
    ("program\nMOV r1, r2+CI", 3, 12, "the index RI should stand here"),
    ("program\nLODI:E r1, r2", 3, 5, "the access may be :W :W:U :B :B:W :B:W:U"),
    ("program\nCREATE c1(RPC,RPC), c0", 3, 15, "each of RCI, RRI, RUTM, RPC may stand here once"),
    ("program\nCREATE c1(RPC, c0", 3, 16, "each of RCI, RRI, RUTM, RPC may stand here once"),
    ("program\nB nowhere, c0, c0", 3, 3, "`nowhere` is unknown"),
    ("program\nB 0x100000, c0, c0", 3, 3, "the branch address must be from 0 to 1048575"),
    ("program\nx: NOP\nx: NOP", 4, 1, "`x` has its meaning from line 3"),
    ("program\nx: MOV r0, x", 3, 12, "`x` is a number"),
    ("schedule\n1 8", 3, 3, "an item must be from 1 to 7"),
    ("schedule\n0", 3, 1, "an item must be from 1 to 7"),
];

#[test]
fn bad_text() {
    for (text, line, column, reason) in BAD {
        let errors = assemble(&format!("hep input\n{text}\n")).expect_err(text);
        let error = &errors[0];
        assert_eq!(
            (error.line, error.column, error.reason.as_str()),
            (line, column, reason),
            "{text}"
        );
    }
    let whole = [
        ("", 1, "the text must begin with `hep image` or `hep input`"),
        ("task 1", 1, "the text must begin with `hep image` or `hep input`"),
        ("hep tape", 5, "`image` or `input` should stand here"),
    ];
    for (text, column, reason) in whole {
        let error = &assemble(text).expect_err(text)[0];
        assert_eq!((error.line, error.column, error.reason.as_str()), (1, column, reason));
    }
    let errors = assemble("hep image\nschedule\n").expect_err("an image has none");
    assert_eq!(errors[0].to_string(), "line 2, column 1: only `hep input` has a schedule");
}

/// A misspelt section is one error: its lines are read as those of the section that it means, or passed over.
#[test]
fn a_misspelt_section_is_one_error() {
    let text = "hep input
        task 1 cb=0 rb=0 rl=0 pb=0 pl=0 db=1 dl=0
        process 0 task=1 pc=start
        constants
          7
        registers
          full 0 * 2
        program
        start:
          ADD r0, r0, c0
          B start, c1, c1
          NOP * 14
        data at 0
          empty 0 * 32
        schedule
          1 * 4";
    assert!(assemble(text).is_ok());
    let told = |text: &str| -> Vec<String> {
        assemble(text).unwrap_err().iter().map(ToString::to_string).collect()
    };
    for (word, wrong, line) in [
        ("constants", "constnats", 4),
        ("registers", "register", 6),
        ("program", "Program", 8),
        ("program", "progam at 0", 8),
        ("data at", "dta at", 13),
        ("schedule", "shedule", 15),
    ] {
        let (written, meant) = (wrong.split(' ').next().unwrap(), word.split(' ').next().unwrap());
        let reason = format!("`{written}` is no section (did you mean `{meant}`?)");
        let expected = format!("line {line}, column 9: {reason}");
        assert_eq!(told(&text.replacen(word, wrong, 1)), [expected], "{wrong}");
    }
    let unknown = text.replacen("constants", "memory", 1);
    let reason = "line 4, column 9: `task`, `process` or a section should stand here";
    assert_eq!(told(&unknown), [reason]);
    let both = text.replacen("registers", "registrs", 1).replacen("full 0 * 2", "fll 0 * 2", 1);
    assert_eq!(told(&both)[1], "line 7, column 11: `full` or `empty` should stand here");
    let named = text.replacen("constants", "name datum = 5\n        constants\n          datum", 1);
    assert_eq!(assemble(&named).unwrap().draft.constants[0], (0, 5));
}

#[test]
fn bad_crowds() {
    let row = "hep input\ntask 1 cb=0 rb=1 rl=0 pb=1 pl=0 db=1 dl=0\n";
    let crowd =
        |count| (0..count).map(|pt| format!("process {pt} task=1 pc=0\n")).collect::<String>();
    let error = |text: String| assemble(&text).expect_err("a crowd")[0].to_string();
    assert!(assemble(&format!("{row}{}", crowd(63))).is_ok());
    assert_eq!(
        error(format!("{row}{}", crowd(64))),
        "line 66, column 1: 64 processes need `flag 1`"
    );
    let more = format!("{row}flag 1\n{}process 0 task=1 pc=0\n", crowd(64));
    assert_eq!(error(more), "line 68, column 1: there are 64 processes already");
    let order = format!("{row}task 1 cb=0 rb=1 rl=0 pb=1 pl=0 db=1 dl=0\n");
    assert_eq!(error(order), "line 3, column 6: tasks stand in ascending order");
    let twice = format!("{row}{}process 1 task=1 pc=0\n", crowd(2));
    assert_eq!(error(twice), "line 5, column 9: process number 1 stands twice");
    let long = |items| {
        assemble(&format!("hep input\nconstants\n0 * 4096\nschedule\n1 * {items}\n")).unwrap()
    };
    assert_eq!(long(28_655).over(), None);
    assert_eq!(long(28_656).over().unwrap(), "it has 65537 bytes, over 65536");
    assert_eq!(long(65_536).over().unwrap(), "its schedule has 65536 items, over 65535");
}

/// The kept dump of each level assembles, is accepted, and is dumped again word by word: what a later request added has its default.
#[test]
fn kept_dumps_of_earlier_levels() {
    let folder = concat!(env!("CARGO_MANIFEST_DIR"), "/tests/dumps");
    let files = fs::read_dir(folder).unwrap().map(|file| file.unwrap().path());
    let levels = files.map(|path| {
        let text = fs::read_to_string(&path).unwrap();
        let source = assemble(&text).unwrap_or_else(|errors| panic!("{path:?}: {}", errors[0]));
        assert_eq!(dump(&source), text, "{path:?}");
        assert!(batch::accepted(&source.bytes()).is_ok(), "{path:?}");
    });
    assert_eq!(levels.count(), 2);
}

#[test]
fn files_are_text_hex_or_bytes() {
    let text = "hep input\nconstants\n7\nschedule\n1 * 5\n";
    let bytes = assemble(text).unwrap().bytes();
    let hex = tool::to_hex(&bytes);
    for file in [text.as_bytes(), hex.as_bytes(), &bytes] {
        assert_eq!(tool::load(file).unwrap().bytes(), bytes);
    }
    let image = batch::split(&bytes).unwrap().1;
    assert_eq!(tool::load(image).unwrap().schedule, None);
    let refused = tool::load(&batch_input(&[1, 0], image)).unwrap_err();
    let both = "refused as a batch input: R10: schedule, item 2 of 2: task 0x00 is not 0x01 to 0x07 \
                (byte 3 of the batch input, 0x3, counted from 0)\n\
                or as an image: R12: process section, process 1 of 2: task 0x00 is neither 0x01 to 0x07 nor 0x11 to 0x17 \
                (byte 4 of the image, 0x4, counted from 0)";
    assert_eq!(refused, both);
}

/// Fields of the full image that get these bytes, and what is said of them: number, words, and the field's place.
const REFUSED: [(usize, &[u8], &str); 31] = [
    (0, &[8], "R2: task section: count 0x08 is over 0x07"),
    (1, &[0], "R3: task section, row 1 of 2: task number 0x00 must be over 0x00"),
    (2, &[0x10, 0], "R3: task section, row 1 of 2: CB 0x1000 is over 0x0FFF"),
    (10, &[0, 1], "R5: task section, row 1 of 2: PL 0x0001 ends the program window past its memory"),
    (16, &[0, 0, 0, 1], "R5: task section, row 1 of 2: DL 0x00000001 ends the data window past its memory"),
    (21, &[0, 0, 0, 0, 0, 0, 0, 7], "R3: task section, row 1 of 2: trapped PSW 0x0000000000000007 must be zero beside trap kind 0xFF"),
    (29, &[1], "R3: task section, row 2 of 2: task number 0x01 must be over 0x01"),
    (34, &[0, 2], "R5: task section, row 2 of 2: RL 0x0002 ends the register window past its memory"),
    (40, &[1, 0, 0, 1], "R3: task section, row 2 of 2: DB 0x01000001 is over 0x00FFFFFF"),
    (48, &[2], "R3: task section, row 2 of 2: trap kind 0x02 is none of 0x00 0x12 0x14 0x16 0x1A 0x1C 0x1E 0xFF"),
    (49, &[1, 0, 0, 0, 0, 0, 0, 7], "R3: task section, row 2 of 2: trapped PSW 0x0100000000000007 sets bits of 0xFF00000000F00000, which must be zero"),
    (57, &[65], "R2: process section: count 0x41 is over 0x40"),
    (58, &[2], "R12: process section: create fault flag 0x02 is over 0x01"),
    (59, &[64], "R12: process section, process 1 of 3: PT 0x40 is over 0x3F"),
    (60, &[2], "R12: process section, process 1 of 3: task 0x02 is not listed in the task section"),
    (69, &[5], "R6: process section, process 2 of 3: PT 0x05 stands twice"),
    (70, &[8], "R12: process section, process 2 of 3: task 0x08 is neither 0x01 to 0x07 nor 0x11 to 0x17"),
    (70, &[0x10], "R12: process section, process 2 of 3: task 0x10 is neither 0x01 to 0x07 nor 0x11 to 0x17"),
    (70, &[0x12], "R12: process section, process 2 of 3: task 0x12 is not listed in the task section"),
    (80, &[1], "R12: process section, process 3 of 3: task 0x01 belongs before 0x11 of the process before it"),
    (81, &[0, 0, 0, 0, 0, 0x10, 0, 0], "R12: process section, process 3 of 3: PSW 0x0000000000100000 sets bits of 0xFF00000000F00000, which must be zero"),
    (89, &[0x10, 1], "R2: constant section: count 0x1001 is over 0x1000"),
    (91, &[7], "R14: constant section, constant 1 of 2: quality 0x07 is over 0x06"),
    (100, &[255], "R14: constant section, constant 2 of 2: quality 0xFF is over 0x06"),
    (109, &[8, 1], "R2: register section: count 0x0801 is over 0x0800"),
    (111, &[7], "R13: register section, register 1 of 5: tag 0x07 is neither 0x00 to 0x06 nor 0x08 to 0x0E"),
    (147, &[15], "R13: register section, register 5 of 5: tag 0x0F is over 0x0E"),
    (156, &[0, 0x10, 0, 1], "R2: program section: count 0x00100001 is over 0x00100000"),
    (288, &[1, 0, 0, 0], "R2: data section: count 0x01000000 is over 0x00100000"),
    (292, &[2], "R13: data section, word 1 of 32: state 0x02 is over 0x01"),
    (571, &[255], "R13: data section, word 32 of 32: state 0xFF is over 0x01"),
];

/// What is said of an image with a reason at this place, alone and in a batch input of two items.
fn said_of(image: &[u8], place: usize, reason: &str) {
    let as_image = format!("{reason} (byte {place} of the image, 0x{place:X}, counted from 0)");
    let failure = tool::dumped(image).unwrap_err();
    let first = failure.lines().next().unwrap();
    assert_eq!(first, format!("refused as an image: {as_image}"));
    let place = place + 4;
    let as_input =
        format!("{reason} (byte {place} of the batch input, 0x{place:X}, counted from 0)");
    let failure = tool::load(&batch_input(&[1, 7], image)).unwrap_err();
    let first = failure.lines().next().unwrap();
    assert_eq!(first, format!("refused as a batch input: {as_input}"));
}

#[test]
fn refusals_in_words() {
    let full = edges::full().bytes();
    for (place, bytes, reason) in REFUSED {
        let mut image = full.clone();
        image[place..][..bytes.len()].copy_from_slice(bytes);
        said_of(&image, place, reason);
    }
    let longer = [&full[..], &[0; 3]].concat();
    said_of(&longer, 580, "R4: data section: the end has more bytes behind it: 3");
}

#[test]
fn cut_images_in_words() {
    let full = edges::full().bytes();
    let cases = [
        (3, 2, "task section, row 1 of 2: CB", (1, 2)),
        (58, 58, "process section: create fault flag", (0, 1)),
        (88, 81, "process section, process 3 of 3: PSW", (7, 8)),
        (90, 89, "constant section: count", (1, 2)),
        (91, 91, "constant section, constant 1 of 2: quality", (0, 1)),
        (92, 92, "constant section, constant 1 of 2: word", (0, 8)),
        (100, 100, "constant section, constant 2 of 2: quality", (0, 1)),
        (147, 147, "register section, register 5 of 5: tag", (0, 1)),
        (167, 160, "program section, word 1 of 16: word", (7, 8)),
        (579, 572, "data section, word 32 of 32: word", (7, 8)),
    ];
    for (end, place, field, (there, width)) in cases {
        let reason = format!("R1: {field} is not whole: the bytes end after {there} of {width}");
        said_of(&full[..end], place, &reason);
    }
}

#[test]
fn refusals_of_processes_in_words() {
    let mut turned = edges::full();
    turned.processes.swap(0, 2);
    let words =
        "R12: process section, process 2 of 3: task 0x11 belongs before 0x14 of the process before it";
    said_of(&turned.bytes(), 70, words);
    let mut crowd = edges::full();
    crowd.flag = 0;
    crowd.processes = (0..64).map(|pt| Process::new(pt, 1, 0)).collect();
    let words = "R6: process section: create fault flag 0x00 must be 0x01 beside 64 processes";
    said_of(&crowd.bytes(), 58, words);
}

#[test]
fn refused_schedules_in_words() {
    let image = edges::full().bytes();
    let said = |input: &[u8], reason: &str| {
        let failure = tool::dumped(input).unwrap_err();
        assert!(failure.lines().any(|line| line.contains(reason)), "{failure}");
    };
    let place =
        |place: usize| format!("(byte {place} of the batch input, 0x{place:X}, counted from 0)");
    let input = batch_input(&[1, 8, 0], &image);
    let words = "batch input: R10: schedule, item 2 of 3: task 0x08 is not 0x01 to 0x07";
    said(&input, &format!("{words} {}", place(3)));
    let words =
        "batch input: R1: schedule, item 3 of 3: task is not whole: the bytes end after 0 of 1";
    said(&input[..4], &format!("{words} {}", place(4)));
    let words = "batch input: R1: schedule: count is not whole: the bytes end after 1 of 2";
    said(&[0], &format!("{words} {}", place(0)));
    let long = batch_input(&vec![1; 65_000], &image);
    let words = "batch input: R11: batch input: length of 65582 bytes is over 65536";
    said(&long, &format!("{words} {}", place(65_536)));
}

/// Six steps of one task and one of an unlisted one.
const TRACED: &str = "hep input
        task 1 cb=0 rb=0 rl=1 pb=0 pl=0 db=0 dl=0
        process 5 task=1 pc=0
        constants
          8
          psw pc=4
        registers
          full 3 * 4
        program
          ADD r0:F, r1:W:U, c0
          STOI r0, c0
          LODI:W:U r2, c0
          CREATE c1(RPC), c9
          QT c9
          word 5
          NOP * 10
        data
          full 0 * 32
        schedule
          1 * 6
          2";

#[test]
fn a_trace_shows_what_is_written() {
    let trace = traced(TRACED);
    let lines: Vec<&str> = trace.lines().collect();
    let expected = [
        "item task attempt PT PC    instruction                      ending     what it wrote, or why it waits or traps",
        "   0    1 step     5 00000 ADD r0:F, r1:W:U, c0             executed   r1 set empty, r0 = full 11",
        "   1    1 step     5 00001 STOI r0, c0                      executed   data 1 = full 11",
        "   2    1 step     5 00002 LODI:W:U r2, c0                  executed   r2 = full 11, data 1 = empty 11",
        "   3    1 step     5 00003 CREATE c1(RPC), c9               executed   PT 0 joins at pc=0x00004",
        "   4    1 step     5 00004 QT c9                            executed   PT 5 leaves",
        "   5    1 step     0 00004 QT c9                            executed   PT 0 leaves",
        "   6    2 -       -- ----- -                                idle",
    ];
    assert_eq!(lines, expected);
}

/// The trace of a text.
fn traced(text: &str) -> String {
    let loaded = open(text.as_bytes(), None).unwrap();
    let schedule = loaded.source.schedule.clone().unwrap();
    let (filter, mut machine) = (Filter::default(), tool::machine(&loaded.source));
    let lines = trace::lines(&mut machine, &schedule, &loaded.symbols, &filter);
    lines.map(|line| line + "\n").collect()
}

/// A task whose SFU queue has three processes: one that executes, one that waits for a register, one that traps.
const TRIED: &str = "hep input
        task 1 cb=0 rb=0 rl=1 pb=0 pl=0 db=0 dl=0
        process 9 task=1 pc=5
        process 4 task=1 sfu pc=0
        process 7 task=1 sfu ri=1 pc=1
        process 2 task=1 sfu pc=2
        constants
          8
          256
        registers
          empty 3 * 4
        program
          LODI:W r0, c0
          MOV r1, r2+RI:W
          STOI r1, c1
          NOP * 13
        data
          full 6 * 32
        schedule
          1 * 4";

#[test]
fn a_trace_has_a_line_for_each_try() {
    let source = assemble(TRIED).unwrap();
    let queues: Vec<(u8, bool)> =
        source.draft.processes.iter().map(|process| (process.pt, process.sfu)).collect();
    assert_eq!(queues, [(9, false), (4, true), (7, true), (2, true)]);
    both_ways(&source.bytes());
    let trace = traced(TRIED);
    let lines: Vec<&str> = trace.lines().skip(1).collect();
    let expected = [
        "   0    1 try      4 00000 LODI:W r0, c0                    executed   r0 = full 6",
        "   0    1 step     9 00005 NOP                              executed",
        "   1    1 try      7 00001 MOV r1, r2+RI:W                  waved      waits in the SFU queue until r3 is full; r3 = empty 3",
        "   1    1 step     4 00001 MOV r1, r2+RI:W                  waved      waits until r2 is full; r2 = empty 3",
        "   2    1 try      2 00002 STOI r1, c1                      trapped 14 byte address 256 is data word 32, outside the window (32 words); c1 = 256, r1 = empty 3",
        "   3    1 -       -- ----- -                                idle",
    ];
    assert_eq!(lines, expected);
    let only = Filter { only: vec!["waved".to_string()], from: 1, to: 1, task: Some(1) };
    let loaded = open(TRIED.as_bytes(), None).unwrap();
    let schedule = loaded.source.schedule.clone().unwrap();
    let mut machine = tool::machine(&loaded.source);
    let shown: Vec<String> =
        trace::lines(&mut machine, &schedule, &loaded.symbols, &only).skip(1).collect();
    assert_eq!(shown, expected[2..4]);
}

/// Of random inputs: each task's lines with `try` are its own tries, the last line of each of its items is that item's ending, and the lines end
/// where a run does.
#[test]
fn trace_lines_add_up_to_the_report() {
    let (mut tries, mut ends) = (0, [0; 4]);
    for n in 0..400 {
        let input = generate::input(25, n);
        let Ok((schedule, mut machine)) = batch::accepted(&input) else { continue };
        let mut traced = machine.clone();
        let (symbols, filter) = (Symbols::default(), Filter::default());
        let lines: Vec<String> =
            trace::lines(&mut traced, schedule, &symbols, &filter).skip(1).collect();
        let counts = machine.run(schedule);
        assert_eq!(image::write(&traced), image::write(&machine), "input {n}");
        let words: Vec<Vec<&str>> =
            lines.iter().map(|line| line.split_whitespace().collect()).collect();
        let last_of_item = |i: &usize| words.get(i + 1).is_none_or(|next| next[0] != words[*i][0]);
        for task in 1..=7 {
            let own = |i: &usize| words[*i][1] == task.to_string();
            let tried = (0..words.len()).filter(own).filter(|i| words[*i][2] == "try").count();
            let last: Vec<usize> = (0..words.len()).filter(own).filter(last_of_item).collect();
            let [executed, waved, trapped, idle] = trace::ENDINGS.map(|ending| {
                last.iter().filter(|i| lines[**i][60..].contains(ending)).count() as u64
            });
            let told = Counts { executed, waved, trapped, idle, tries: tried as u64 };
            assert_eq!(told, counts.own(task), "input {n}, task {task}");
        }
        let Counts { executed, waved, trapped, idle, tries: tried } = counts.counts;
        tries += tried;
        let ended = [executed, waved, trapped, idle];
        ends.iter_mut().zip(ended).for_each(|(sum, count)| *sum += count);
    }
    assert!(tries > 500 && ends.iter().all(|&count| count > 100), "{tries} tries, {ends:?}");
}

#[test]
fn why_tells_both_queues() {
    let standing = |text: &str| {
        let loaded = open(text.as_bytes(), None).unwrap();
        let schedule = loaded.source.schedule.clone().unwrap();
        why(tool::machine(&loaded.source), &schedule, &loaded.symbols).0
    };
    let two = "task 1: 4 processes, 2 in the SFU queue; E1 W1 T0 I0 S2
  PT 9 at pc=0x00007: NOP
      goes on at its next item
  PT 4 at pc=0x00001: MOV r1, r2+RI:W
      waits until r2 is full; r2 = empty 3
      r2: as it was at the start, nobody changed it
  PT 2 (SFU queue) at pc=0x00002: STOI r1, c1
      will trap 14 at its next try: byte address 256 is data word 32, outside the window (32 words); c1 = 256, r1 = empty 3
  PT 7 (SFU queue) at ri=1 pc=0x00001: MOV r1, r2+RI:W
      waits in the SFU queue until r3 is full; r3 = empty 3
      r3: as it was at the start, nobody changed it
";
    assert_eq!(standing(&TRIED.replace("1 * 4", "1 * 2").replace("pc=5", "pc=6")), two);
    let trapped = standing(TRIED);
    let start = "task 1: 4 processes, 2 in the SFU queue, trapped 14 at item 2; E1 W1 T1 I1 S3
  PT 2 (SFU queue) at pc=0x00002: STOI r1, c1
      trap 14: byte address 256 is data word 32";
    assert!(trapped.starts_with(start), "{trapped}");
    assert!(
        trapped.ends_with("  the others (3) stand still: a trapped task neither tries nor steps\n")
    );
    let before = TRIED.replace("dl=0\n", "dl=0 trap=0x14 pc=2\n").replace("1 * 4", "");
    let swapped = before.replace("process 4 task=1 sfu pc=0", "process 4 task=1 sfu pc=2");
    let start = "task 1: 4 processes, 3 in the SFU queue, trapped 14 before the run
  PT 4 (SFU queue) at pc=0x00002: STOI r1, c1\n";
    assert!(standing(&swapped).starts_with(start), "{}", standing(&swapped));
    let unlisted = standing(&TRIED.replace("1 * 4", "1\n5 * 3"));
    assert!(
        unlisted.ends_with("\ntask 5: not listed, so it is idle; E0 W0 T0 I3 S0\n"),
        "{unlisted}"
    );
}

/// Tries are counted at their instructions.
#[test]
fn profiles_count_tries() {
    let source = assemble(TRIED).unwrap();
    let mut machine = tool::machine(&source);
    let profile = profile(&mut machine, &source.schedule.unwrap(), &Symbols::default());
    let counts: Vec<String> = profile.lines().skip(1).map(|line| line[61..].to_string()).collect();
    let counts: Vec<Vec<&str>> =
        counts.iter().map(|line| line.split_whitespace().collect()).collect();
    assert_eq!(
        counts,
        [["1", "0", "0", "1"], ["0", "2", "0", "1"], ["0", "0", "1", "1"], ["1", "0", "0", "0"]]
    );
}

/// Five steps with parts of data word 1, whose address is 8.
const PARTS_TRACED: &str = "hep input
        task 1 cb=0 rb=0 rl=1 pb=0 pl=0 db=0 dl=0
        process 5 task=1 pc=0
        constants
          11
          14
          13
          12
        registers
          full 0x1234 * 4
        program
          STOI r0, c0
          LODI:W:U r1, c1
          STOI:B:E r0, c2
          LODI r2, c0
          STOI r0, c3
          NOP * 11
        data
          full 0 * 32
        schedule
          1 * 5";

#[test]
fn a_trace_shows_parts() {
    let trace = traced(PARTS_TRACED);
    let steps: Vec<&str> = trace.lines().skip(1).map(|line| &line[27..]).collect();
    let expected = [
        "STOI r0, c0                      executed   data 1 = full 0x0000123400000000 (quarter 1)",
        "LODI:W:U r1, c1                  executed   r1 = full 0, data 1 = empty 0x0000123400000000 (half 1)",
        "STOI:B:E r0, c2                  executed   data 1 = full 0x0000123400340000 (byte 5)",
        "LODI r2, c0                      executed   r2 = full 4660",
        "STOI r0, c3                      trapped 12 byte address 12 ends in 4, which names no part of data word 1; c3 = 12, r0 = full 4660, data 1 = full 0x0000123400340000",
    ];
    assert_eq!(steps, expected);
}

#[test]
fn states_after_runs_come_back() {
    for n in 0..300 {
        let mut machine = image::read(&generate::image(24, n)).expect("accepted");
        machine.run(&[1, 2, 3, 4, 5, 6, 7].repeat(50));
        both_ways(&image::write(&machine));
    }
}

/// What a picture says of its lanes: the texts that begin like this.
fn said<'a>(svg: &'a str, start: &str) -> Vec<&'a str> {
    let texts = svg
        .lines()
        .filter_map(|line| line.strip_prefix("<text").and_then(|line| line.split_once('>')));
    texts
        .map(|(_, text)| text.trim_end_matches("</text>"))
        .filter(|text| text.starts_with(start))
        .collect()
}

/// The picture of a text's run.
fn drawn(text: &str) -> String {
    let loaded = open(text.as_bytes(), None).unwrap();
    let schedule = loaded.source.schedule.clone().unwrap();
    let view = View { name: "a <b>", symbols: &loaded.symbols, items: 0..usize::MAX };
    svg(&mut tool::machine(&loaded.source), &schedule, &view)
}

#[test]
fn timelines() {
    let frame = include_str!("../../examples/frame-b.hep");
    let svg = drawn(frame);
    assert_eq!(said(&svg, "task "), ["task 1", "task 5"]);
    assert_eq!(said(&svg, "E"), ["E185 W6 T0 I109 S90", "E126 W1115 T1 I683 S0"]);
    assert_eq!(said(&svg, "trap "), ["trap 14 at item 1381, PC 00003 (store)"]);
    let totals =
        ["executed E311", "waved (waits) W1121", "trapped T1", "idle I792", "thin lane: tries S90"];
    for total in totals {
        assert_eq!(said(&svg, total), [total]);
    }
    assert!(svg.starts_with("<svg ") && svg.ends_with("</svg>\n"));
}

/// Behind each lane of a whole picture stand the task's own counts, as the report has them.
#[test]
fn timelines_count_by_task() {
    let mut lanes = 0;
    for n in 0..200 {
        let input = generate::input(26, n);
        let Ok((schedule, mut machine)) = batch::accepted(&input) else { continue };
        let symbols = Symbols::default();
        let view = View { name: "random", symbols: &symbols, items: 0..usize::MAX };
        let svg = svg(&mut machine.clone(), schedule, &view);
        let listed: Vec<u8> = machine.tasks().collect();
        let counts = machine.run(schedule);
        let shown = (1..=7).filter(|task| listed.contains(task) || schedule.contains(task));
        let own: Vec<String> = shown.map(|task| counts.own(task).to_string()).collect();
        assert_eq!(said(&svg, "E"), own, "input {n}");
        lanes += own.len();
    }
    assert!(lanes > 200, "{lanes} lanes");
}

#[test]
fn timelines_stay_small() {
    let task = "task 1 cb=0 rb=1 rl=0 pb=0 pl=0 db=1 dl=0\nprocess 0 task=1\nprogram\nNOP * 16\n";
    let long = format!("hep input\n{task}schedule\n1 * 15\n{}", "2\n1 * 3\n".repeat(15_000));
    let svg = drawn(&long);
    assert_eq!(said(&svg, "60015 items of 2 tasks, each column is 251 items").len(), 1);
    assert_eq!(said(&svg, "trap "), ["trap 14 at item 17, PC 00010"]);
    assert_eq!(said(&svg, "not in the image").len(), 1);
    assert!(svg.len() < 10_000, "{} bytes", svg.len());
    let none = drawn(&format!("hep input\n{task}schedule\n"));
    assert_eq!(said(&none, "E"), ["E0 W0 T0 I0 S0"]);
    assert_eq!(said(&none, "thin lane").len(), 0);
}

/// A picture is as wide as the counts behind its lanes ask for.
#[test]
fn timelines_have_room_for_counts() {
    // One process goes round, the other waits in the SFU queue.
    let text = "hep input
        task 1 cb=0 rb=0 rl=0 pb=0 pl=0 db=0 dl=0
        process 9 task=1 pc=1
        process 4 task=1 sfu
        registers
          full 0 * 2
        program
          LODI:W r0, c0
          B 1, c0, c0
          NOP * 14
        data
          empty 0 * 32
        schedule
          1 * ";
    for (items, width) in [(4, 80 + 960 + 190), (300_000, 80 + 960 + 8 * 24 + 16)] {
        let svg = drawn(&format!("{text}{items}"));
        assert_eq!(said(&svg, "E"), [format!("E{items} W0 T0 I0 S{items}")]);
        assert!(svg.contains(&format!("<rect width=\"{width}\" ")), "{}", &svg[..400]);
    }
}

/// The thin lane has the tries of a task by their endings, below the lane of its items.
#[test]
fn timelines_have_a_thin_lane_for_tries() {
    let svg = drawn(TRIED);
    assert_eq!(said(&svg, "E"), ["E1 W1 T1 I1 S3"]);
    assert_eq!(said(&svg, "thin lane"), ["thin lane: tries S3"]);
    assert_eq!(said(&svg, "trap 14"), ["trap 14 at item 2, PC 00002"]);
    assert_eq!(said(&svg, "waited for"), ["waited for r2 (1), r3 (1)"]);
    let thin: Vec<&str> = svg.lines().filter(|line| line.contains("v-6h-240z")).collect();
    let column =
        |colour: &str, x: usize| format!("<path fill=\"{colour}\" d=\"M{x} 136h240v-6h-240z\"/>");
    let expected = [column("#2f6fb5", 80), column("#f5a300", 320), column("#d0202a", 560)];
    assert_eq!(thin, expected);
}

#[test]
fn timelines_mark_the_flag() {
    // Two processes live at first; each item creates one, so item 61 makes the 64th.
    let text = "hep input
        task 1 cb=0 rb=1 rl=0 pb=0 pl=0 db=1 dl=0
        task 3 cb=0 rb=1 rl=0 pb=1 pl=0 db=1 dl=0 trap=0x14 pc=7
        process 0 task=1
        process 1 task=3
        program
        CREATE c0, c0 * 16
        schedule
        1 * 100";
    let svg = drawn(text);
    let heading = "100 items of 2 tasks, a column for each item; create fault flag up at item 61";
    assert_eq!(said(&svg, "100 items"), [heading]);
    assert_eq!(said(&svg, "trap 00 at item 61, PC ").len(), 1);
    assert_eq!(said(&svg, "trap 14"), ["trap 14 before the run, PC 00007"]);
    let waiting =
        drawn(&text.replace("dl=0\n        task 3", "dl=0\n        flag 1\n        task 3"));
    assert_eq!(said(&waiting, "waited for"), ["waited for the create fault flag (100)"]);
}
