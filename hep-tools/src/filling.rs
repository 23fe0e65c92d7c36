//! Filling a module, document 02's request L13: which jobs go in together. A plain search.

use crate::emulator::machine::REGISTERS;

/// More than 15 jobs, or a bad need.
pub const BAD_JOBS: u8 = 17;
/// Zero tries.
pub const NO_TRIES: u8 = 18;

pub const MOST_JOBS: usize = 15;
const MOST_CHOSEN: usize = 7;
const MOST_REGISTERS: u64 = REGISTERS as u64;

/// The answer of a search.
#[derive(Clone, Copy, PartialEq, Eq, Debug)]
pub struct Filling {
    /// The first of the best choices tried: bit 0 is job 1.
    pub choice: u64,
    /// The needs of its jobs, added.
    pub sum: u64,
    /// How many choices were tried.
    pub tries: u64,
    /// What no choice is above.
    pub ceiling: u64,
}

/// The best of the first `tries` choices of jobs with these register needs, or the number of a refusal.
pub fn fill(needs: &[u64], tries: u64) -> Result<Filling, u8> {
    if needs.len() > MOST_JOBS || !needs.iter().all(good) {
        return Err(BAD_JOBS);
    }
    if tries == 0 {
        return Err(NO_TRIES);
    }
    let tries = tries.min(1 << needs.len());
    let (mut choice, mut sum) = (0, 0);
    for tried in 0..tries {
        let needed = chosen(needs, tried).sum();
        let kept = chosen(needs, tried).count() <= MOST_CHOSEN && needed <= MOST_REGISTERS;
        if kept && needed > sum {
            (choice, sum) = (tried, needed);
        }
    }
    Ok(Filling { choice, sum, tries, ceiling: ceiling(needs) })
}

fn good(need: &u64) -> bool {
    (2..=MOST_REGISTERS).contains(need) && need.is_multiple_of(2)
}

/// The needs of the jobs that a choice takes.
fn chosen(needs: &[u64], choice: u64) -> impl Iterator<Item = u64> + '_ {
    needs.iter().enumerate().filter(move |(job, _)| choice >> job & 1 == 1).map(|(_, need)| *need)
}

fn ceiling(needs: &[u64]) -> u64 {
    let mut largest = needs.to_vec();
    largest.sort_unstable_by(|a, b| b.cmp(a));
    largest.iter().take(MOST_CHOSEN).sum::<u64>().min(MOST_REGISTERS)
}
