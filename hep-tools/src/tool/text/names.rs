//! Names, numbers, words and operands of the text.

use super::line::{Error, Line};
use super::nearest::hint;
use crate::emulator::assemble::{constant, psw, register};
use std::collections::HashMap;

/// The words that a line may begin with.
pub const KEYWORDS: [&str; 9] =
    ["task", "flag", "process", "name", "constants", "registers", "program", "data", "schedule"];

/// The fields of a status word, each with its greatest value.
const PSW: [(&str, u64); 4] = [("ci", 0x1FFF), ("ri", 0x7FF), ("utm", 0xFF), ("pc", 0xF_FFFF)];

/// What a name stands for; in the first reading it may be unknown yet.
#[derive(Clone, Copy)]
pub enum Meaning {
    Number(i128),
    Operand(u16),
    Unknown,
}

/// The names of a text, each with the line that gives it.
#[derive(Default)]
pub struct Names {
    known: HashMap<String, (usize, Meaning)>,
    /// Whether every name is known: in the second reading.
    pub complete: bool,
}

impl Names {
    /// No names, and none to come.
    pub fn none() -> Self {
        Names { known: HashMap::new(), complete: true }
    }

    /// Gives a name its meaning.
    pub fn give(
        &mut self,
        line: &Line,
        name: &str,
        at: usize,
        meaning: Meaning,
    ) -> Result<(), Error> {
        let letter = name.starts_with(|c: char| c.is_ascii_alphabetic() || c == '_');
        if !letter || plain_operand(name).is_some() {
            return Err(line.error_at(at, format!("`{name}` can't be a name")));
        }
        let first = self.known.entry(name.to_string()).or_insert((line.number(), meaning));
        if first.0 != line.number() {
            let reason = format!("`{name}` has its meaning from line {}", first.0);
            return Err(line.error_at(at, reason));
        }
        Ok(())
    }

    fn meaning(&self, line: &Line, name: &str, at: usize) -> Result<Meaning, Error> {
        match self.known.get(name) {
            Some((_, meaning)) => Ok(*meaning),
            None if self.complete => {
                let hint = hint(name, self.known.keys().map(String::as_str).chain(KEYWORDS));
                Err(line.error_at(at, format!("`{name}` is unknown{hint}")))
            }
            None => Ok(Meaning::Unknown),
        }
    }

    /// A whole number in decimal or hex, or the name of one.
    pub fn whole(&self, line: &mut Line) -> Result<i128, Error> {
        let place = line.mark();
        let minus = line.take('-');
        let word = line.word();
        if word.starts_with(|c: char| c.is_ascii_alphabetic() || c == '_') {
            return match self.meaning(line, word, place)? {
                Meaning::Number(value) if minus => Ok(-value),
                Meaning::Number(value) => Ok(value),
                Meaning::Unknown => Ok(0),
                Meaning::Operand(_) => Err(line.error_at(place, format!("`{word}` is an operand"))),
            };
        }
        let value = match word.strip_prefix("0x").or(word.strip_prefix("0X")) {
            Some(digits) => i128::from_str_radix(digits, 16),
            None => word.parse(),
        };
        match value {
            Ok(value) => Ok(if minus { -value } else { value }),
            Err(_) => Err(line.error_at(place, "a number should stand here")),
        }
    }

    /// A number from 0 to `most`.
    pub fn number(&self, line: &mut Line, what: &str, most: u64) -> Result<u64, Error> {
        self.between(line, what, 0, most)
    }

    /// A number from `least` to `most`.
    pub fn between(
        &self,
        line: &mut Line,
        what: &str,
        least: u64,
        most: u64,
    ) -> Result<u64, Error> {
        let place = line.mark();
        let value = self.whole(line)?;
        match u64::try_from(value) {
            Ok(value) if (least..=most).contains(&value) => Ok(value),
            _ => Err(line.error_at(place, format!("{what} must be from {least} to {most}"))),
        }
    }

    /// A word: a number, or `psw` and its fields.
    pub fn word(&self, line: &mut Line) -> Result<u64, Error> {
        if line.keyword("psw") {
            return self.psw(line);
        }
        let place = line.mark();
        let value = self.whole(line)?;
        if !(-(1 << 63)..1 << 64).contains(&value) {
            return Err(line.error_at(place, "a word must be from -2^63 to 2^64 - 1"));
        }
        Ok(value as u64)
    }

    /// The fields of a status word up to the end of the line or a `*`.
    pub fn psw(&self, line: &mut Line) -> Result<u64, Error> {
        let mut fields = [0; 4];
        self.fields(line, &PSW, &mut fields)?;
        no_field(line, &PSW, "quality")?;
        let [ci, ri, utm, pc] = fields;
        Ok(psw(ci, ri, utm, pc))
    }

    /// The quality, 0 if it is left out.
    pub fn quality(&self, line: &mut Line) -> Result<u8, Error> {
        let mut quality = [0];
        let known = [("quality", 6)];
        self.fields(line, &known, &mut quality)?;
        no_field(line, &known, "")?;
        Ok(quality[0] as u8)
    }

    /// Fields `name=number`, each at most once, in any order.
    pub fn fields(
        &self,
        line: &mut Line,
        known: &[(&str, u64)],
        to: &mut [u64],
    ) -> Result<u64, Error> {
        let mut given = 0;
        loop {
            let (place, word) = (line.mark(), line.peek());
            let Some(i) = known.iter().position(|(name, _)| *name == word) else {
                return Ok(given);
            };
            line.word();
            if given >> i & 1 != 0 {
                return Err(line.error_at(place, format!("{word} is given twice")));
            }
            given |= 1 << i;
            line.expect('=')?;
            to[i] = self.number(line, word, known[i].1)?;
        }
    }

    /// A register, a constant, or the name of one.
    pub fn operand(&self, line: &mut Line) -> Result<u16, Error> {
        let place = line.mark();
        let word = line.word();
        if let Some((constant_memory, displacement)) = plain_operand(word) {
            let most = if constant_memory { 0x1FFF } else { 0x7FF };
            return match displacement {
                Some(number) if number <= most && constant_memory => Ok(constant(number)),
                Some(number) if number <= most => Ok(register(number)),
                _ => {
                    Err(line.error_at(place, format!("the displacement must be from 0 to {most}")))
                }
            };
        }
        if word.is_empty() || word.starts_with(|c: char| c.is_ascii_digit()) {
            return Err(line.error_at(place, "an operand should stand here"));
        }
        match self.meaning(line, word, place)? {
            Meaning::Operand(field) => Ok(field),
            Meaning::Unknown => Ok(0),
            Meaning::Number(_) => Err(line.error_at(place, format!("`{word}` is a number"))),
        }
    }
}

/// That no field is next but this one.
pub fn no_field(line: &mut Line, known: &[(&str, u64)], but: &str) -> Result<(), Error> {
    let word = line.peek();
    if word == but || !line.is_field() {
        return Ok(());
    }
    let hint = hint(word, known.iter().map(|(name, _)| *name));
    Err(line.error(format!("`{word}` is no field here{hint}")))
}

/// `r` or `c` and digits: whether it is a constant, and the displacement unless it is
/// too long.
pub fn plain_operand(word: &str) -> Option<(bool, Option<u16>)> {
    let digits = word.strip_prefix(['r', 'R', 'c', 'C'])?;
    if digits.is_empty() || !digits.bytes().all(|byte| byte.is_ascii_digit()) {
        return None;
    }
    Some((word.starts_with(['c', 'C']), digits.parse().ok()))
}
