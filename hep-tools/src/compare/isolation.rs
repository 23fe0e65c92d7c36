//! Isolation tried: pairs of inputs that agree on one task, with other neighbours and
//! another order; what the task has afterwards, its line of the report and its counts must be equal.

use crate::compare::Implementation;
use crate::emulator::batch::Answer;
use crate::emulator::draft::Draft;
use crate::emulator::image;
use crate::emulator::machine::Counts;
use crate::generate::{self, Pair};
use crate::tool::agree::premises;
pub use crate::tool::agree::Broken;
use crate::tool::share::{share, Share};
use crate::tool::text::Source;

pub const PREMISES: [(Broken, &str); 4] = [
    (Broken::Disagree, "disagree on the task"),
    (Broken::WindowsMeet, "windows meet"),
    (Broken::ItemsDiffer, "items differ"),
    (Broken::FlagUp, "flag up"),
];

/// How many pairs met the premises or broke one, and how many of them differed.
#[derive(Default, Debug)]
pub struct Tally {
    pub met: u64,
    pub met_changed: u64,
    pub broken: [u64; PREMISES.len()],
    pub broken_differed: u64,
    /// The first pair that met the premises and differed.
    pub failure: Option<(Vec<u8>, Vec<u8>, u8)>,
}

/// Tries pairs of a seed; fails if the implementation gives no images.
pub fn tried(tried: &mut dyn Implementation, seed: u64, count: u64) -> Result<Tally, String> {
    let mut tally = Tally::default();
    for n in 0..count {
        let pair = generate::pair(seed, n);
        let (first, a) = answered(tried, &pair.first, pair.task)?;
        let (second, b) = answered(tried, &pair.second, pair.task)?;
        let equal = a == b;
        match broken(&pair, &[first, second]) {
            Some(premise) => {
                let place = PREMISES.iter().position(|(broken, _)| *broken == premise);
                tally.broken[place.unwrap_or(0)] += 1;
                tally.broken_differed += u64::from(!equal);
            }
            None => {
                tally.met += 1;
                tally.met_changed += u64::from(a.share != share(&pair.first.draft, pair.task));
                if !equal && tally.failure.is_none() {
                    tally.failure = Some((pair.first.bytes(), pair.second.bytes(), pair.task));
                }
            }
        }
    }
    Ok(tally)
}

/// What a run leaves of a task: its share of the state, its line of the report, and its counts where they are given.
#[derive(PartialEq, Eq)]
struct Left {
    share: Option<Share>,
    line: Option<String>,
    own: Option<Counts>,
}

/// The state after an accepted input, and what it leaves of a task.
fn answered(
    tried: &mut dyn Implementation,
    source: &Source,
    task: u8,
) -> Result<(Draft, Left), String> {
    let Answer { output, image, own } = tried.answer(&source.bytes())?;
    let Some(image) = image else {
        let refused = output.starts_with(b"R");
        return Err(
            if refused { "a generated pair is refused" } else { "it gives no images" }.into()
        );
    };
    let draft = image::draft(&image::read(&image).map_err(|refusal| refusal.to_string())?);
    let report = String::from_utf8_lossy(&output);
    let line = report.lines().find(|line| line.starts_with(&format!("{task} ")));
    let own = own.map(|own| own[usize::from(task)]);
    let left = Left { share: share(&draft, task), line: line.map(str::to_string), own };
    Ok((draft, left))
}

/// The first premise that a pair breaks, from the states before and after.
pub fn broken(pair: &Pair, after: &[Draft; 2]) -> Option<Broken> {
    let held = premises(&[pair.task], [&pair.first, &pair.second], after.each_ref());
    let fails = |about| held.iter().any(|premise| premise.about == about && premise.held.is_err());
    PREMISES.map(|(broken, _)| broken).into_iter().find(|broken| fails(*broken))
}
