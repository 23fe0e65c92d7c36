//! A file to an image or batch input, from text, hex digits or bytes; or why it gives none, in words.

use super::hex;
use super::text::{assemble_named, Error, Source, Symbols};
use crate::emulator::batch;
use crate::emulator::image;
use crate::emulator::refusal::Refusal;
use std::fmt;

/// What bytes are read as.
#[derive(Clone, Copy, PartialEq, Eq, Debug)]
pub enum Reading {
    Input,
    Image,
}

impl Reading {
    pub fn name(self) -> &'static str {
        match self {
            Reading::Input => "batch input",
            Reading::Image => "image",
        }
    }

    /// The name behind its article.
    pub fn one(self) -> &'static str {
        match self {
            Reading::Input => "a batch input",
            Reading::Image => "an image",
        }
    }

    /// The image and its schedule, or why bytes are refused.
    pub fn read(self, bytes: &[u8]) -> Result<Source, Refusal> {
        let (schedule, machine) = match self {
            Reading::Input => batch::accepted(bytes).map(|(items, m)| (Some(items.to_vec()), m))?,
            Reading::Image => (None, image::read(bytes)?),
        };
        Ok(Source { schedule, draft: image::draft(&machine) })
    }

    /// A refusal in words, with its place.
    pub fn said(self, refusal: &Refusal) -> String {
        let (place, whole) = (refusal.place, self.name());
        format!("{refusal} (byte {place} of the {whole}, 0x{place:X}, counted from 0)")
    }
}

/// An image or input, and what its text calls things.
#[derive(Clone, Debug)]
pub struct Loaded {
    pub source: Source,
    pub symbols: Symbols,
}

/// Why a file gives no image.
#[derive(Clone, Debug)]
pub enum Trouble {
    /// What is wrong with a text.
    Text { text: String, errors: Vec<Error> },
    /// So many hex digits, which make no whole bytes.
    OddDigits(usize),
    /// Bytes are refused in each of these readings, the likelier one first.
    Bytes { bytes: Vec<u8>, readings: Vec<(Reading, Refusal)> },
}

/// What files of other kinds begin with.
const FOREIGN: [(&[u8], &str); 10] = [
    (&[0xFF, 0xFE], "UTF-16 text, which should be saved as UTF-8"),
    (&[0xFE, 0xFF], "UTF-16 text, which should be saved as UTF-8"),
    (b"\x89PNG", "a PNG picture"),
    (&[0xFF, 0xD8, 0xFF], "a JPEG picture"),
    (&[0x1F, 0x8B], "a file packed by gzip"),
    (b"BZh", "a file packed by bzip2"),
    (b"\xFD7zXZ", "a file packed by xz"),
    (&[0x28, 0xB5, 0x2F, 0xFD], "a file packed by zstd"),
    (b"PK\x03\x04", "a ZIP archive"),
    (b"\x7FELF", "a program (ELF)"),
];

impl Trouble {
    /// The number of the refusal in the likelier reading; text has none.
    pub fn number(&self) -> Option<u8> {
        match self {
            Trouble::Bytes { readings, .. } => Some(readings[0].1.number),
            _ => None,
        }
    }

    /// The words, each line with the file's name.
    pub fn told(&self, file: &str) -> String {
        match self {
            Trouble::Text { text, errors } => {
                errors.iter().map(|error| error.told(file, text)).collect()
            }
            _ => self.lines().iter().map(|line| format!("{file}: {line}\n")).collect(),
        }
    }

    fn lines(&self) -> Vec<String> {
        match self {
            Trouble::Text { errors, .. } => errors.iter().map(Error::to_string).collect(),
            Trouble::OddDigits(digits) => {
                vec![format!("{digits} hex digits make no whole bytes: one is missing or too much")]
            }
            Trouble::Bytes { bytes, readings } => match not_of_this_machine(bytes) {
                Some(said) => vec![said],
                None => readings_said(readings),
            },
        }
    }
}

impl fmt::Display for Trouble {
    fn fmt(&self, f: &mut fmt::Formatter) -> fmt::Result {
        write!(f, "{}", self.lines().join("\n"))
    }
}

fn readings_said(readings: &[(Reading, Refusal)]) -> Vec<String> {
    let said = readings.iter().enumerate().map(|(i, (reading, refusal))| {
        let start = if i == 0 { "refused" } else { "or" };
        format!("{start} as {}: {}", reading.one(), reading.said(refusal))
    });
    said.collect()
}

/// That a refused file is empty or of another kind.
pub fn not_of_this_machine(bytes: &[u8]) -> Option<String> {
    if bytes.is_empty() {
        return Some("the file is empty".to_string());
    }
    let (start, kind) = FOREIGN.iter().find(|(start, _)| bytes.starts_with(start))?;
    let start: Vec<String> = start.iter().map(|byte| format!("{byte:02X}")).collect();
    Some(format!("no image of this machine: it begins with {}, like {kind}", start.join(" ")))
}

/// An image or input from text, hex digits or bytes. Bytes are read as this, or as what they are accepted as.
///
/// The first three bytes of an accepted image or input are never all above 8: an image
/// starts with at most 7, and an input with its items or an image within three bytes.
pub fn open(bytes: &[u8], reading: Option<Reading>) -> Result<Loaded, Trouble> {
    if not_of_this_machine(bytes).is_some() || bytes.iter().take(3).any(|byte| *byte < 9) {
        return from_bytes(bytes, reading);
    }
    let text = match std::str::from_utf8(bytes) {
        Ok(text) => text,
        Err(_) if bytes.iter().any(|byte| *byte < 9) => return from_bytes(bytes, reading),
        Err(error) => return Err(other_letters(bytes, error.valid_up_to())),
    };
    let text = text.strip_prefix('\u{FEFF}').unwrap_or(text);
    match hex::read(text) {
        Some(Ok(bytes)) => from_bytes(&bytes, reading),
        Some(Err(digits)) => Err(Trouble::OddDigits(digits)),
        None => match assemble_named(text) {
            Ok((source, symbols)) => Ok(Loaded { source, symbols }),
            Err(errors) => Err(Trouble::Text { text: text.to_string(), errors }),
        },
    }
}

/// A text whose letters at this place are not in UTF-8.
fn other_letters(bytes: &[u8], place: usize) -> Trouble {
    let before = String::from_utf8_lossy(&bytes[..place]);
    let line = before.rsplit('\n').next().unwrap_or_default();
    let error = Error {
        line: before.matches('\n').count() + 1,
        column: line.chars().count() + 1,
        width: 1,
        reason: format!("byte 0x{:02X} is no letter in UTF-8", bytes[place]),
    };
    Trouble::Text { text: String::from_utf8_lossy(bytes).into_owned(), errors: vec![error] }
}

/// An input if the bytes are one, else an image, unless it is said which.
fn from_bytes(bytes: &[u8], reading: Option<Reading>) -> Result<Loaded, Trouble> {
    let tried = reading.map_or(vec![Reading::Input, Reading::Image], |reading| vec![reading]);
    let mut readings = Vec::new();
    for reading in tried {
        match reading.read(bytes) {
            Ok(source) => return Ok(Loaded { source, symbols: Symbols::default() }),
            Err(refusal) => readings.push((reading, refusal)),
        }
    }
    readings.sort_by_key(|(reading, _)| *reading != likelier(bytes));
    Err(Trouble::Bytes { bytes: bytes.to_vec(), readings })
}

/// An input if at least the schedule or the image of these bytes as a batch input is accepted.
pub fn likelier(bytes: &[u8]) -> Reading {
    let input = batch::split(bytes).is_some_and(|(schedule, image)| {
        batch::items_accepted(schedule) || image::read(image).is_ok()
    });
    if input {
        Reading::Input
    } else {
        Reading::Image
    }
}
