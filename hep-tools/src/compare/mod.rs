//! Comparison: an implementation of the batch program held to the trials and, on
//! random and changed inputs, to the emulator; a case that differs is shrunk.

mod implementation;
pub mod isolation;
pub mod shown;
mod shrink;

pub use implementation::{Emulator, Implementation, Lines, Program};
pub use shrink::shrink;

use crate::emulator::batch::Answer;
use crate::emulator::draft::batch_input;
use crate::generate;
use crate::trials::{edges, Trial};

/// Inputs for which a shrinking case may be tried.
const TRIES: usize = 3_000;

/// An input on which an implementation differs.
#[derive(Debug)]
pub struct Difference {
    pub name: String,
    pub input: Vec<u8>,
    pub expected: Answer,
    /// The answer, or why there is none.
    pub found: Result<Answer, String>,
}

/// Whether an answer is the expected one; images and own counts are compared where both have them.
pub fn agrees(expected: &Answer, found: &Result<Answer, String>) -> bool {
    let Ok(found) = found else { return false };
    let images = expected.image.as_ref().zip(found.image.as_ref());
    let own = expected.own.zip(found.own);
    found.output == expected.output
        && images.is_none_or(|(expected, found)| expected == found)
        && own.is_none_or(|(expected, found)| expected == found)
}

/// The first trial that the implementation doesn't meet.
pub fn trials(tried: &mut dyn Implementation, trials: &[Trial]) -> Option<Difference> {
    trials.iter().find_map(|trial| {
        let found = tried.answer(&trial.input);
        let name = trial.name.clone();
        let (input, expected) = (trial.input.clone(), trial.expected.clone());
        (!agrees(&expected, &found)).then_some(Difference { name, input, expected, found })
    })
}

/// The first random input of a seed on which the two differ, shrunk.
pub fn random(
    tried: &mut dyn Implementation,
    model: &mut dyn Implementation,
    seed: u64,
    count: u64,
) -> Option<Difference> {
    (0..count).find_map(|n| {
        let name = format!("input {n} of seed {seed}");
        held(tried, model, name, generate::input(seed, n))
    })
}

/// How many bits the image has of which each is changed.
pub fn flips() -> usize {
    8 * edges::full().bytes().len()
}

/// The first changed bit of an image with something in every section on which the two differ.
pub fn flipped(
    tried: &mut dyn Implementation,
    model: &mut dyn Implementation,
) -> Option<Difference> {
    (0..flips()).find_map(|bit| {
        let mut image = edges::full().bytes();
        image[bit / 8] ^= 0x80 >> (bit % 8);
        held(tried, model, format!("bit {bit} changed"), batch_input(&[], &image))
    })
}

/// The input, shrunk, if the two differ on it.
fn held(
    tried: &mut dyn Implementation,
    model: &mut dyn Implementation,
    name: String,
    input: Vec<u8>,
) -> Option<Difference> {
    let mut differs = |input: &[u8]| difference(tried, model, input).is_some();
    if !differs(&input) {
        return None;
    }
    let input = shrink(input, TRIES, &mut differs);
    let (expected, found) = difference(tried, model, &input)?;
    Some(Difference { name, input, expected, found })
}

/// Both answers, if they differ.
fn difference(
    tried: &mut dyn Implementation,
    model: &mut dyn Implementation,
    input: &[u8],
) -> Option<(Answer, Result<Answer, String>)> {
    let expected = model.answer(input).ok()?;
    let found = tried.answer(input);
    (!agrees(&expected, &found)).then_some((expected, found))
}
