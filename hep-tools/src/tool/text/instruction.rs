//! One instruction: word to text and back, by the table of operations.

use super::line::{Error, Line};
use super::names::{Names, KEYWORDS};
use super::nearest::hint;
use crate::emulator::assemble::{CONSTANT, INDEXED};
use crate::emulator::codes::{listed, Low, Operation, Role, OPERATIONS};

/// What follows the name for each test; the source has no names for 0 and from A up.
const TESTS: [&str; 16] =
    ["NV", "LT", "EQ", "LE", "GT", "NE", "GE", "", "E", "F", "RZ", "RN", "CZ", "CN", "PE", "PO"];

/// The letters of each access code: W wait until full, U set empty, E wait until empty,
/// F wait until full.
const SOURCE_ACCESS: [&str; 4] = ["", ":W", ":W:U", ":E"];
const DESTINATION_ACCESS: [&str; 4] = ["", ":F", ":E", ":E:U"];

/// The letters of B, SAC and DAC.
const LOAD_ACCESS: [(&str, u16); 6] =
    [("", 0), (":W", 4), (":W:U", 8), (":B", 0x10), (":B:W", 0x14), (":B:W:U", 0x18)];
const STORE_ACCESS: [(&str, u16); 4] = [("", 0), (":E", 2), (":B", 0x10), (":B:E", 0x12)];

const ACTIONS: [(&str, u16); 4] = [("RCI", 8), ("RRI", 4), ("RUTM", 2), ("RPC", 1)];

/// The text of an instruction; `word` and hex if check 2 doesn't pass it.
pub fn show(word: u64) -> String {
    let Some(operation) = listed(word) else {
        return format!("word 0x{word:016X}");
    };
    let code = (word >> 48) as u16;
    let name = format!("{}{}", operation.name, suffix(operation.low, code));
    let operands = operation.order.iter().map(|&i| show_field(operation, i, word));
    let operands = operands.collect::<Vec<_>>().join(", ");
    format!("{name} {operands}").trim_end().to_string()
}

/// A PC in hex, as reports have it.
pub fn pc(pc: u64) -> String {
    format!("0x{pc:05X}")
}

/// What the low bits of the code add to the name.
fn suffix(low: Low, code: u16) -> &'static str {
    let letters = |table: &[(&'static str, u16)]| {
        let found = table.iter().find(|(_, bits)| *bits == code & 0x1F);
        found.map_or("", |(letters, _)| letters)
    };
    match low {
        Low::Whole => "",
        Low::Test | Low::TestTarget | Low::TestAct => TESTS[usize::from(code >> 4 & 15)],
        Low::Load => letters(&LOAD_ACCESS),
        Low::Store => letters(&STORE_ACCESS),
    }
}

fn show_field(operation: &Operation, i: usize, word: u64) -> String {
    let field = (word >> (32 - 16 * i)) as u16;
    match operation.fields[i] {
        Role::Free if operation.low == Low::TestTarget => pc(word >> 32 & 0xF_FFFF),
        Role::Unused | Role::Free => field.to_string(),
        Role::Destination => show_operand(field, &DESTINATION_ACCESS),
        Role::Source if operation.low == Low::TestAct && i == 1 => {
            show_operand(field, &SOURCE_ACCESS) + &show_actions((word >> 48) as u16)
        }
        Role::Source => show_operand(field, &SOURCE_ACCESS),
    }
}

fn show_operand(field: u16, access: &[&str; 4]) -> String {
    let indexed = field & INDEXED != 0;
    if field & CONSTANT != 0 {
        return format!("c{}{}", field & 0x1FFF, if indexed { "+CI" } else { "" });
    }
    let letters = access[usize::from(field >> 11 & 3)];
    format!("r{}{}{letters}", field & 0x7FF, if indexed { "+RI" } else { "" })
}

fn show_actions(code: u16) -> String {
    let named = ACTIONS.iter().filter(|(_, bit)| code & bit != 0).map(|(name, _)| *name);
    match named.collect::<Vec<_>>().join(",") {
        none if none.is_empty() => none,
        list => format!("({list})"),
    }
}

/// The instruction that is next on the line.
pub fn parse(line: &mut Line, names: &Names) -> Result<u64, Error> {
    let place = line.mark();
    let name = line.word().to_ascii_uppercase();
    if name == "WORD" {
        return names.word(line);
    }
    let Some((operation, test)) = find(&name) else {
        return Err(line.error_at(place, no_instruction(&name)));
    };
    let low = match operation.low {
        Low::Load => letters(line, &LOAD_ACCESS)?,
        Low::Store => letters(line, &STORE_ACCESS)?,
        _ => test << 4,
    };
    let mut word = u64::from(operation.code | low) << 48;
    for (n, &i) in operation.order.iter().enumerate() {
        if n > 0 {
            line.expect(',')?;
        }
        word |= parse_field(line, names, operation, i)?;
    }
    Ok(word)
}

fn no_instruction(name: &str) -> String {
    if name.is_empty() {
        return "an instruction should stand here".to_string();
    }
    let hint = hint(name, OPERATIONS.iter().map(|operation| operation.name).chain(KEYWORDS));
    format!("`{name}` is no instruction{hint}")
}

/// The operation of a name, and its test.
fn find(name: &str) -> Option<(&'static Operation, u16)> {
    let matching = |operation: &'static Operation| {
        let rest = name.strip_prefix(operation.name)?;
        let test = match operation.low {
            Low::Test | Low::TestTarget | Low::TestAct => TESTS.iter().position(|s| *s == rest)?,
            _ if rest.is_empty() => 0,
            _ => return None,
        };
        Some((operation, test as u16))
    };
    OPERATIONS.iter().find_map(matching)
}

/// The code of the letters that are next, each after a colon, in any order.
fn letters(line: &mut Line, table: &[(&str, u16)]) -> Result<u16, Error> {
    let place = line.mark();
    let mut found = Vec::new();
    while line.take(':') {
        found.push(line.word().to_ascii_uppercase());
    }
    found.sort();
    let same = |letters: &str| {
        let mut wanted: Vec<&str> = letters.split(':').skip(1).collect();
        wanted.sort();
        wanted == found
    };
    match table.iter().find(|(letters, _)| same(letters)) {
        Some((_, code)) => Ok(*code),
        None => {
            let legal = table.iter().map(|(letters, _)| *letters).filter(|l| !l.is_empty());
            let legal = legal.collect::<Vec<_>>().join(" ");
            Err(line.error_at(place, format!("the access may be {legal}")))
        }
    }
}

/// A field in its place in the instruction word.
fn parse_field(line: &mut Line, names: &Names, of: &Operation, i: usize) -> Result<u64, Error> {
    let shift = 32 - 16 * i;
    let operand = |line: &mut Line, access| Ok(u64::from(operand(line, names, access)?) << shift);
    match of.fields[i] {
        Role::Free if of.low == Low::TestTarget => {
            Ok(names.number(line, "the branch address", 0xF_FFFF)? << shift)
        }
        Role::Unused | Role::Free => Ok(names.number(line, "the code", 0xFFFF)? << shift),
        Role::Destination => operand(line, &DESTINATION_ACCESS),
        Role::Source if of.low == Low::TestAct && i == 1 => {
            Ok(operand(line, &SOURCE_ACCESS)? | u64::from(actions(line)?) << 48)
        }
        Role::Source => operand(line, &SOURCE_ACCESS),
    }
}

/// A register or constant, its index, and the register's access.
fn operand(line: &mut Line, names: &Names, access: &[&str; 4]) -> Result<u16, Error> {
    let mut field = names.operand(line)?;
    let constant = field & CONSTANT != 0;
    if line.take('+') {
        let index = if constant { "CI" } else { "RI" };
        if !line.keyword(index) {
            return Err(line.error(format!("the index {index} should stand here")));
        }
        field |= INDEXED;
    }
    if constant {
        return Ok(field);
    }
    let coded = [0, 1, 2, 3].map(|code: u16| (access[usize::from(code)], code << 11));
    Ok(field | letters(line, &coded)?)
}

/// The list of actions in brackets, if there is one.
fn actions(line: &mut Line) -> Result<u16, Error> {
    let mut act = 0;
    if !line.take('(') {
        return Ok(act);
    }
    loop {
        let place = line.mark();
        let word = line.word().to_ascii_uppercase();
        match ACTIONS.iter().find(|(name, bit)| *name == word && act & bit == 0) {
            Some((_, bit)) => act |= bit,
            None => {
                return Err(line.error_at(place, "each of RCI, RRI, RUTM, RPC may stand here once"))
            }
        }
        if !line.take(',') {
            line.expect(')')?;
            return Ok(act);
        }
    }
}
