//! Jobs that may fill a module, and numbers of tries.

use crate::filling::MOST_JOBS;
use crate::generate::random::Random;

/// Register needs and a number of tries, seldom ones that are refused.
pub fn jobs(random: &mut Random) -> (Vec<u64>, u64) {
    let count = match random.below(30) {
        0 => MOST_JOBS as u64 + 1,
        1..=10 => MOST_JOBS as u64,
        _ => random.below(MOST_JOBS as u64),
    };
    let largest = random.pick(&[6, 300, 700, 1_400, 2_048]);
    let mut needs: Vec<u64> = (0..count).map(|_| need(largest, random)).collect();
    if !needs.is_empty() && random.chance(8) {
        let place = random.below(count) as usize;
        needs[place] =
            random.pick(&[0, 1, 3, 2_047, 2_049, 2_050, 1 << 32, u64::MAX, u64::MAX - 1]);
    }
    (needs, tries(count, random))
}

/// An even need of 2 to 2,048; some needs come often, so that choices have equal sums.
fn need(largest: u64, random: &mut Random) -> u64 {
    match random.below(6) {
        0 => random.pick(&[2, 4, 292, 294, 512, 1_024, 2_046, 2_048]),
        _ => 2 * random.between(1, largest / 2),
    }
}

fn tries(count: u64, random: &mut Random) -> u64 {
    let all = 1 << count;
    match random.below(12) {
        0 => 0,
        1 => random.between(1, 5),
        2..=4 => random.between(1, all),
        5 => random.pick(&[all - 1, all + 1]),
        6 => random.pick(&[1 << 40, u64::MAX]),
        _ => all,
    }
}
