//! What `hep` says of images and runs: text, traces, reasons, shares, pictures. Its runs are those of the emulator beside it, not proved.

pub mod agree;
pub mod check;
pub mod hex;
pub mod join;
pub mod load;
pub mod profile;
pub mod reason;
pub mod share;
pub mod show;
pub mod taken;
pub mod text;
pub mod timeline;
pub mod trace;
pub mod why;

use crate::emulator::image;
use crate::emulator::machine::Machine;
pub use hex::{from_hex, hex_line, to_hex};
use text::{dump, Source};

/// A failure's message.
pub type Failure = String;

/// An image or input from text, hex digits or bytes.
pub fn load(bytes: &[u8]) -> Result<Source, Failure> {
    load::open(bytes, None).map(|loaded| loaded.source).map_err(|trouble| trouble.to_string())
}

/// The text of an image or input.
pub fn dumped(bytes: &[u8]) -> Result<String, Failure> {
    load(bytes).map(|source| dump(&source))
}

/// The machine of an accepted image's fields.
pub fn machine(source: &Source) -> Machine {
    image::read(&source.draft.bytes()).expect("a source is accepted")
}
