//! The call that fills a module held to the plain search of hep-tools.

use crate::buffers;
use hep::sys::{self, FILLING, SHORT_BUFFER};
use hep_tools::filling;
use hep_tools::generate;

/// How many jobs of a seed are tried.
const CASES: u64 = 2_000;

/// Random jobs of a seed: how many calls were tried, or what differed.
pub fn all(seed: u64) -> Result<u64, String> {
    for n in 0..CASES {
        let (needs, tries) = generate::jobs(seed, n);
        same(&needs, tries).map_err(|reason| {
            format!("jobs {n} of seed {seed}: {needs:?}, {tries} tries: {reason}")
        })?;
    }
    Ok(2 * CASES)
}

/// `hep_fill` with room, and with a number's room less.
fn same(needs: &[u64], tries: u64) -> Result<(), String> {
    let wanted = filling::fill(needs, tries);
    let numbers = wanted.map_or(vec![], |f| vec![f.choice, f.sum, f.tries, f.ceiling]);
    let refused = wanted.err().map(u32::from);
    called(needs, tries, FILLING, refused.unwrap_or(sys::ACCEPTED), &numbers)?;
    called(needs, tries, FILLING - 1, refused.unwrap_or(SHORT_BUFFER), &[])
}

/// A call that must answer this, leave these numbers in front, and nothing else.
fn called(
    needs: &[u64],
    tries: u64,
    room: usize,
    number: u32,
    numbers: &[u64],
) -> Result<(), String> {
    let mut left = buffers::words(FILLING + 1);
    let found = sys::fill(needs, tries, &mut left[..room]);
    let (front, rest) = left.split_at(numbers.len());
    let right = found == number && front == numbers && buffers::words_stay(rest);
    let reason = || {
        format!("hep_fill with {room} places answers {found} and leaves {left:?}, not {number} and {numbers:?}")
    };
    right.then_some(()).ok_or_else(reason)
}
