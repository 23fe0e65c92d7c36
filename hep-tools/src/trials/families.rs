//! Families of trials as lines: each operation under each access code, illegal field,
//! window, quality of a register and of a constant, each part of a data word under each data
//! state, and the sixteen tests.

/// An operation with D, S1, S2 and S0 in registers 0 to 3, which hold 8 in 1, 16 in 2, 33
/// in 3, and what it changes then. Data words 1 and 3 hold 77 and 99. A name in braces is an
/// operand, with the register's access behind it.
const OPERATIONS: [(&str, &str); 26] = [
    ("MOV r0{D}, r1{S1}", "r0=8"),
    ("CLR r0{D}", "r0=0"),
    ("ONE r0{D}", "r0=-1"),
    ("NOT r0{D}, r1{S1}", "r0=-9"),
    ("EOR r0{D}, r1{S1}, r2{S2}", "r0=24"),
    ("EQV r0{D}, r1{S1}, r2{S2}", "r0=-25"),
    ("NAND r0{D}, r1{S1}, r2{S2}", "r0=-1"),
    ("NOR r0{D}, r1{S1}, r2{S2}", "r0=-25"),
    ("OR r0{D}, r1{S1}, r2{S2}", "r0=24"),
    ("BITCLR r0{D}, r1{S1}, r2{S2}", "r0=8"),
    ("BITSET r0{D}, r1{S1}, r2{S2}", "r0=0x800000000008"),
    ("ENCODE0 r0{D}, r1{S1}", "r0=0"),
    ("ENCODE1 r0{D}, r1{S1}", "r0=60"),
    ("DEC r0{D}, r1{S1}", "r0=7 quality=1"),
    ("INC r0{D}, r1{S1}", "r0=9"),
    ("ADD r0{D}, r1{S1}, r2{S2}", "r0=24"),
    ("SUB r0{D}, r1{S1}, r2{S2}", "r0=-8"),
    ("MUL r0{D}, r1{S1}, r2{S2}", "r0=128"),
    ("B 5, r2{S2}, r1{S1}", "pc=13"),
    ("CALL r0{D}, r1{S1}, r2{S2}", "r0=1, pc=8"),
    ("CREATE r1{S1}(RPC), r2{S2}", "joins=1 pc=8"),
    ("QT r2{S2}", "leaves"),
    ("LODI r0{D}, r1{S1}", "r0=77"),
    ("LODX r0{D}, r1{S1}, r2{S2}", "r0=99"),
    ("STOI r2{S2}, r1{S1}", "d1=16"),
    ("STOX r3{S0}, r1{S1}, r2{S2}", "d3=33"),
];

/// What the bench holds before.
const BEFORE: &str = "r1=8, r2=16, r3=33, d1=77, d3=99";

/// The operands: name, register, word.
const OPERANDS: [(&str, usize, i64); 4] = [("D", 0, 0), ("S1", 1, 8), ("S2", 2, 16), ("S0", 3, 33)];

/// What an access code does to an operand that is full, and to one that is empty: nothing
/// if it waits, else whether it is left full.
const SOURCES: [(&str, [Option<bool>; 2]); 4] = [
    ("", [Some(true), Some(false)]),
    (":W", [Some(true), None]),
    (":W:U", [Some(false), None]),
    (":E", [None, Some(false)]),
];
const DESTINATIONS: [(&str, [Option<bool>; 2]); 4] = [
    ("", [Some(true), Some(true)]),
    (":F", [Some(true), None]),
    (":E", [None, Some(true)]),
    (":E:U", [None, Some(false)]),
];

/// The operation with this behind one operand and nothing behind the others.
fn with(operation: &str, operand: &str, access: &str) -> String {
    let mut text = operation.replace(&format!("{{{operand}}}"), access);
    for (other, _, _) in OPERANDS {
        text = text.replace(&format!("{{{other}}}"), "");
    }
    text
}

/// Operations with their changes and those operands that they have.
fn operands() -> impl Iterator<Item = (&'static str, &'static str, (&'static str, usize, i64))> {
    OPERATIONS.into_iter().flat_map(|(operation, changes)| {
        let has = move |operand: &str| operation.contains(&format!("{{{operand}}}"));
        let own = OPERANDS.into_iter().filter(move |(operand, _, _)| has(operand));
        own.map(move |operand| (operation, changes, operand))
    })
}

pub fn lines() -> Vec<String> {
    let mut lines = Vec::new();
    access(&mut lines);
    illegal_operands(&mut lines);
    outside(&mut lines);
    qualities(&mut lines);
    constants(&mut lines);
    constants_never(&mut lines);
    parts(&mut lines);
    bad_addresses(&mut lines);
    tests(&mut lines);
    codes(&mut lines);
    lines
}

/// Each operation with each access code as source and destination, on both states.
fn access(lines: &mut Vec<String>) {
    for (operation, changes, (operand, register, word)) in operands() {
        let codes = if operand == "D" { DESTINATIONS } else { SOURCES };
        for (letters, left) in codes {
            for (state, left) in ["", "empty "].into_iter().zip(left) {
                let text = with(operation, operand, letters);
                let before = format!("{BEFORE}, r{register}={state}{word}");
                let after = match left {
                    None => "W |".to_string(),
                    Some(full) => format!("E | {}", left_so(changes, register, word, full)),
                };
                lines.push(format!("{text} with {operand} {state}| {before} | {text} | {after}"));
            }
        }
    }
}

/// The changes with the operand's register left full or empty.
fn left_so(changes: &str, register: usize, word: i64, full: bool) -> String {
    let state = if full { "" } else { "empty " };
    match changes.strip_prefix("r0=") {
        Some(result) if register == 0 => format!("r0={state}{result}"),
        _ => format!("{changes}, r{register}={state}{word}"),
    }
}

/// The instruction's bits with these set.
fn bits(operation: &str, text: &str, set: u64) -> String {
    let line = &mut crate::tool::text::Line::new(1, text);
    let word = crate::tool::text::instruction::parse(line, &crate::tool::text::Names::none());
    let word = word.unwrap_or_else(|error| panic!("{operation}: {error}"));
    format!("word 0x{:016X}", word | set)
}

/// The place of an operand's field in the instruction.
fn shift(operand: &str) -> u32 {
    match operand {
        "D" | "S0" => 32,
        "S1" => 16,
        _ => 0,
    }
}

/// Access codes 4 to 7, a constant's unused bit, a constant as destination.
fn illegal_operands(lines: &mut Vec<String>) {
    for (operation, _, (operand, _, _)) in operands() {
        let text = with(operation, "", "");
        for (field, kind) in [(0x2000, "12"), (0x2800, "12"), (0x3800, "12"), (0x6000, "12")] {
            let word = bits(operation, &text, field << shift(operand));
            lines.push(format!(
                "{text} with {field:X} in {operand} | {BEFORE} | {word} | T{kind} |"
            ));
        }
        if operand == "D" {
            let word = bits(operation, &text, 0x4000 << 32);
            lines.push(format!("{text} into a constant | {BEFORE} | {word} | T14 |"));
        }
    }
}

/// Each operand at the window's last register and past it, also by its index.
fn outside(lines: &mut Vec<String>) {
    for (operation, _, (operand, register, word)) in operands() {
        let text = with(operation, "", "");
        let past = bits(operation, &text, 8 << shift(operand));
        lines.push(format!("{text} with {operand} outside | {BEFORE} | {past} | T14 |"));
        let indexed = bits(operation, &text, 0x8000 << shift(operand));
        let ri = 8 - register;
        lines.push(format!(
            "{text} with {operand} + RI outside | {BEFORE}, ri={ri} | {indexed} | T14 |"
        ));
        if operand != "D" {
            let ri = 7 - register;
            let before = format!("{BEFORE}, r7=empty {word}, ri={ri}");
            let waits = bits(operation, &text, 0x8800 << shift(operand));
            lines.push(format!("{text} with {operand} + RI the last | {before} | {waits} | W |"));
        }
    }
}

/// Each operand's quality under its bit of UTM, and under all others but bit 0. A
/// destination's quality doesn't count.
fn qualities(lines: &mut Vec<String>) {
    for (operation, changes, (operand, register, word)) in operands() {
        let text = with(operation, "", "");
        for quality in 1..=6 {
            let bit = 0x80 >> quality;
            let before = format!("{BEFORE}, r{register}={word} quality={quality}");
            let name = format!("{text} with {operand} of quality {quality}");
            if operand != "D" {
                lines.push(format!("{name}, masked | {before}, utm={bit} | {text} | T1E |"));
            }
            if !hands_utm_on(operation) {
                let others = if operand == "D" { bit } else { 0x7F & !bit };
                lines.push(format!(
                    "{name}, let be | {before}, utm={others} | {text} | E | {changes}"
                ));
            }
        }
        if operand != "D" {
            lines.push(format!("{text} under UTM bit 0 | {BEFORE}, utm=0x80 | {text} | T1E |"));
        }
    }
}

/// Whether it is CALL or CREATE, which hand UTM on.
fn hands_utm_on(operation: &str) -> bool {
    operation.starts_with('C') && !operation.starts_with("CLR")
}

/// Each operation with each source in turn in the constant of the register's number and word.
fn constant_sources() -> impl Iterator<Item = (String, &'static str, String)> {
    let sources = operands().filter(|(_, _, (operand, _, _))| *operand != "D");
    sources.map(|(operation, changes, (operand, place, word))| {
        let register = format!("r{place}{{{operand}}}");
        let text = with(&operation.replace(&register, &format!("c{place}")), "", "");
        (text, changes, format!("{BEFORE}, c{place}={word}"))
    })
}

/// A constant of each quality under its bit of UTM, and under all others but bit 0. The result has a quality of its own.
fn constants(lines: &mut Vec<String>) {
    for (text, changes, before) in constant_sources() {
        lines.push(format!("{text} under UTM bit 0 | {before}, utm=0x80 | {text} | T1E |"));
        for quality in 1..=6 {
            let bit = 0x80 >> quality;
            let name = format!("{text}, the constant of quality {quality}");
            let before = format!("{before} quality={quality}");
            lines.push(format!("{name}, masked | {before}, utm={bit} | {text} | T1E |"));
            lines.push(format!("{name}, no mask | {before} | {text} | E | {changes}"));
            if !hands_utm_on(&text) {
                let others = 0x7F & !bit;
                lines.push(format!(
                    "{name}, let be | {before}, utm={others} | {text} | E | {changes}"
                ));
            }
        }
    }
}

/// A test that never holds leaves B, CALL, CREATE and QT the checks of their constants.
fn constants_never(lines: &mut Vec<String>) {
    for (text, _, before) in constant_sources() {
        let Some((name, operands)) = text.split_once(' ') else { continue };
        if !["B", "CALL", "CREATE", "QT"].contains(&name) {
            continue;
        }
        let text = format!("{name}NV {operands}");
        for quality in 0..=6 {
            let bit = 0x80 >> quality;
            let before = format!("{before} quality={quality}");
            let name = format!("{text}, the constant of quality {quality}");
            lines.push(format!("{name}, masked | {before}, utm={bit} | {text} | T1E |"));
        }
    }
}

/// The four data operations with their operands.
const DATA: [(&str, &str); 4] =
    [("LODI", "r0, r1"), ("LODX", "r0, r1, r2"), ("STOI", "r2, r1"), ("STOX", "r3, r1, r2")];

/// What SAC does to a data word that is full, and to one that is empty; what DAC does.
const LOADS: [(&str, [Option<bool>; 2]); 3] = [SOURCES[0], SOURCES[1], SOURCES[2]];
const STORES: [(&str, [Option<bool>; 2]); 2] = [DESTINATIONS[0], DESTINATIONS[2]];

/// The parts of a word: the letter of B, the low three bits of the address, and the part's
/// digits among the word's sixteen in hex.
const PARTS: [(&str, u64, &str); 15] = [
    ("", 0, "################"),
    ("", 2, "########........"),
    ("", 6, "........########"),
    ("", 1, "####............"),
    ("", 3, "....####........"),
    ("", 5, "........####...."),
    ("", 7, "............####"),
    (":B", 0, "##.............."),
    (":B", 1, "..##............"),
    (":B", 2, "....##.........."),
    (":B", 3, "......##........"),
    (":B", 4, "........##......"),
    (":B", 5, "..........##...."),
    (":B", 6, "............##.."),
    (":B", 7, "..............##"),
];

/// A data window with memory on both sides, and its first and last word: byte address, place
/// in the memory, and hex digits.
const WINDOW: &str = "db=1, dl=1, data=96";
const ENDS: [(u64, usize, &str); 2] = [(0, 32, "8123C56709AB4DEF"), (0xF8, 63, "7EDC3A98F654B210")];

/// What is stored, in hex digits.
const STORED: &str = "1032547698BADCFE";

/// The digits of a word that belong to a part.
fn loaded(part: &str, word: &str) -> String {
    let marked = part.chars().zip(word.chars()).filter(|(mark, _)| *mark == '#');
    marked.map(|(_, digit)| digit).collect()
}

/// The word with the last digits of what is stored in the part.
fn stored(part: &str, word: &str) -> String {
    let mut low = STORED.chars().skip(part.matches('.').count());
    let digits = part.chars().zip(word.chars());
    digits
        .map(|(mark, digit)| if mark == '#' { low.next().unwrap_or(digit) } else { digit })
        .collect()
}

/// The registers from which a data operation has its address and what it stores. Address bits
/// past the 32 don't count; in the X forms the low three bits of S1 are never those of the sum.
fn addressed(name: &str, address: u64) -> String {
    if name.ends_with('X') {
        let first = address.wrapping_sub(37) & 0xFFFF_FFFF;
        format!("r1={first}, r2=37, r3=0x{STORED}")
    } else {
        format!("r1={}, r2=0x{STORED}", 0xABCD << 32 | address)
    }
}

/// Each data operation on each part at both ends of a window.
fn parts(lines: &mut Vec<String>) {
    for operation in DATA {
        for part in PARTS {
            for end in ENDS {
                part_lines(lines, operation, part, end);
            }
        }
    }
}

/// A data operation on a part under each SAC or DAC, on both states of the word.
fn part_lines(
    lines: &mut Vec<String>,
    (name, operands): (&str, &str),
    (byte, low, part): (&str, u64, &str),
    (address, place, word): (u64, usize, &str),
) {
    let address = address + low;
    let load = name.starts_with('L');
    let codes: &[(&str, [Option<bool>; 2])] = if load { &LOADS } else { &STORES };
    for &(letters, left) in codes {
        let text = format!("{name}{byte}{letters} {operands}");
        for (state, left) in ["", "empty "].into_iter().zip(left) {
            let registers = addressed(name, address);
            let before = format!("{WINDOW}, r0=7 quality=3, {registers}, d{place}={state}0x{word}");
            let after = match left {
                None => "WD |".to_string(),
                Some(full) if load => {
                    let state = if full { "" } else { "empty " };
                    format!("E | r0=0x{}, d{place}={state}0x{word}", loaded(part, word))
                }
                Some(_) => format!("E | d{place}=0x{}", stored(part, word)),
            };
            lines.push(format!("{text} at {address:X}, {state}data | {before} | {text} | {after}"));
        }
    }
}

/// Byte addresses that trap: past the window and from 2^31 up whatever the part; then part 4
/// with B = 0 at both ends, whatever the state.
fn bad_addresses(lines: &mut Vec<String>) {
    for (name, operands) in DATA {
        for address in [0x100, 0x101, 0x104, 1 << 31, 0x8000_0004, 0xFFFF_FFF8, 0xFFFF_FFFC] {
            let before = addressed(name, address);
            for byte in ["", ":B"] {
                let text = format!("{name}{byte} {operands}");
                lines.push(format!("{text} at {address:X} | {before} | {text} | T14 |"));
            }
        }
        let letters = if name.starts_with('L') { ":W" } else { ":E" };
        for (address, place) in [(0x4, 0), (0xFC, 31)] {
            let text = format!("{name}{letters} {operands}");
            for state in ["", "empty "] {
                let before = format!("{}, d{place}={state}5", addressed(name, address));
                lines.push(format!(
                    "{text} at {address:X}, {state}data | {before} | {text} | T12 |"
                ));
            }
        }
    }
}

/// Words of S2: which of the tests 0 to 7 hold, and which of E and F.
const WORDS: [(i64, &str, &str); 6] = [
    (0, "00110011", "10"),
    (1, "00001111", "01"),
    (3, "00001111", "10"),
    (-1, "01010101", "10"),
    (i64::MIN, "01010101", "01"),
    (i64::MAX, "00001111", "01"),
];

/// States of S2: which of the tests 8 and 9 hold.
const STATES: [(&str, &str); 2] = [("", "01"), ("empty ", "10")];

/// RI and CI: which of the tests A to D hold.
const INDICES: [(u64, u64, &str); 4] =
    [(0, 0, "1010"), (1, 0, "0110"), (0, 1, "1001"), (0x400, 0x1000, "0101")];

/// The sixteen tests in B, CALL, CREATE and QT on each word and state of S2 under each RI and CI.
fn tests(lines: &mut Vec<String>) {
    for (word, signs, ones) in WORDS {
        for (state, which) in STATES {
            for (ri, ci, zeros) in INDICES {
                let holding = [signs, which, zeros, ones].concat();
                for (test, holds) in holding.bytes().enumerate() {
                    let s2 = format!("{state}{word}");
                    test_lines(lines, test, &s2, (ri, ci), holds == b'1');
                }
            }
        }
    }
}

/// The four operations with a test that holds or doesn't; r1 is S2, c9 is zero, c1 has PC 5.
fn test_lines(lines: &mut Vec<String>, test: usize, s2: &str, (ri, ci): (u64, u64), holds: bool) {
    let joins = format!("joins=1 ri={ri} ci={ci} pc=5");
    let link = format!("r0=psw ri={ri} ci={ci} pc=1, ");
    let cases = [
        ("B", format!("38{test:X}0000940090001"), "", "pc=9"),
        ("CALL", format!("79{test:X}1000040010001"), &link[..], "pc=5"),
        ("CREATE", format!("39{test:X}1000040010001"), "", &joins),
        ("QT", format!("19{test:X}0000000000001"), "", "leaves"),
    ];
    let before = format!("r1={s2}, ri={ri}, ci={ci}");
    for (name, word, always, change) in cases {
        let change = if holds { change } else { "" };
        let name = format!("{name} test {test:X} with {before}");
        lines.push(format!("{name} | c1=5, {before} | word 0x{word} | E | {always}{change}"));
    }
}

/// The codes of check 2 by document 01 and the pages, under any fields.
fn codes(lines: &mut Vec<String>) {
    let privileged = "0700 3601 3700 3B7F 3C00 4A00 5700 5800 7600 8700 8701 9900 9901 9902 \
                      9903 B700 C900 D700 E10E E11F E705 E706 E707 E97F EC00 F101 F10D";
    let unlisted = "0001 0800 0901 1901 197F 3A00 4112 4C00 5C00 610F 6111 6C01 6C02 6C03 6C0C \
                    6C11 6C12 6C1C 6C20 6C40 6C80 711E 7201 7321 7900 7902 797F 7C02 7C0C 7C1E 7CE0 \
                    9C00 BC01 BC03 BC04 BC08 BC11 BC13 BC14 BC18 BC20 FC03 FC0C FC1D FC80 FFFF";
    let kinds = [(privileged, "16"), ("7200 7F00 610A 6108", "1C"), (unlisted, "12")];
    for (codes, kind) in kinds {
        for code in codes.split_whitespace() {
            lines.push(format!("code {code} | | word 0x{code}000000000000 | T{kind} |"));
            lines.push(format!("code {code} and ones | | word 0x{code}FFFFFFFFFFFF | T{kind} |"));
        }
    }
    let unused = "0000000000000001 0000000000010000 0000000100000000 0900000000000001 0900000000010000 \
                  411C000000000001 411C000000010000 4113000000000001 4113000000010000 611F000000000001 \
                  6110000000000001 6718000000000001 6710000000000001 612F000000000001 6130000000000001 \
                  6C00000000000001 BC00000100000000 3970000100000000 1970000100000000 1970000000010000";
    for word in unused.split_whitespace() {
        lines.push(format!("unused field in {word} | | word 0x{word} | T12 |"));
    }
}
