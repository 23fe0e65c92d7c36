//! The text of images and inputs, as FORMAT.md describes it: to an image's fields and back.

mod assemble;
mod dump;
pub(crate) mod instruction;
mod line;
mod names;
mod nearest;
mod symbols;

pub use assemble::{assemble, assemble_named, MOST_ERRORS};
pub use dump::{constant, data, dump, dump_named, psw_fields, register};
pub use instruction::show;
pub use line::Error;
pub(crate) use line::Line;
pub(crate) use names::Names;
pub use nearest::hint;
pub use symbols::Symbols;

/// Whether a word is a register or constant by its number.
pub fn is_plain_operand(word: &str) -> bool {
    names::plain_operand(word).is_some()
}

use crate::emulator::batch::MOST_BYTES;
use crate::emulator::draft::{batch_input, Draft};

/// An image's fields, with a schedule where it is the batch program's input.
#[derive(Clone, PartialEq, Eq, Debug)]
pub struct Source {
    pub schedule: Option<Vec<u8>>,
    pub draft: Draft,
}

impl Source {
    /// How long it is as a batch input where that is over what the batch program takes.
    pub fn over(&self) -> Option<String> {
        let items = self.schedule.as_ref()?.len();
        let bytes = 2 + items + self.draft.bytes().len();
        if items > usize::from(u16::MAX) {
            return Some(format!("its schedule has {items} items, over {}", u16::MAX));
        }
        (bytes > MOST_BYTES).then(|| format!("it has {bytes} bytes, over {MOST_BYTES}"))
    }

    /// The image, or the batch input; `over` tells whether there is one.
    pub fn bytes(&self) -> Vec<u8> {
        let image = self.draft.bytes();
        match &self.schedule {
            Some(schedule) => batch_input(schedule, &image),
            None => image,
        }
    }
}
