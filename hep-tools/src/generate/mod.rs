//! Seeded batch inputs: valid, gently damaged and wild; and seeded jobs.

mod damage;
mod jobs;
mod layout;
mod neighbours;
mod program;
pub mod random;
mod values;

pub use neighbours::Pair;

use crate::emulator::draft::{batch_input, Draft};
use crate::generate::random::Random;
use layout::Size;

/// The nth input of a seed.
pub fn input(seed: u64, n: u64) -> Vec<u8> {
    let random = &mut random(seed, n);
    match random.below(20) {
        0..=13 => valid_input(Size::Any, random),
        14..=16 => damage::bytes(valid_input(Size::Any, random), random),
        17..=18 => spoiled_input(Size::Any, random),
        _ => damage::wild(random),
    }
}

/// The nth small input of a seed: some 1,000 bytes and at most 40 items.
pub fn small_input(seed: u64, n: u64) -> Vec<u8> {
    let random = &mut random(seed, n);
    match random.below(16) {
        0..=13 => valid_input(Size::Small, random),
        14 => damage::bytes(valid_input(Size::Small, random), random),
        _ => spoiled_input(Size::Small, random),
    }
}

/// The nth valid image of a seed.
pub fn image(seed: u64, n: u64) -> Vec<u8> {
    layout::draft(Size::Any, &mut random(seed, n)).bytes()
}

/// The nth pair of a seed, for isolation.
pub fn pair(seed: u64, n: u64) -> Pair {
    neighbours::pair(&mut random(seed, n))
}

/// The nth jobs of a seed, as register needs, and a number of tries.
pub fn jobs(seed: u64, n: u64) -> (Vec<u64>, u64) {
    jobs::jobs(&mut random(seed, n))
}

fn random(seed: u64, n: u64) -> Random {
    let first = Random::new(seed).draw();
    Random::new(first ^ n.wrapping_mul(0xD6E8_FEB8_6659_FD93))
}

fn valid_input(size: Size, random: &mut Random) -> Vec<u8> {
    let draft = layout::draft(size, random);
    batch_input(&schedule(&draft, size, random), &draft.bytes())
}

/// An input whose image has one field that a reader must refuse.
fn spoiled_input(size: Size, random: &mut Random) -> Vec<u8> {
    let mut draft = layout::draft(size, random);
    damage::field(&mut draft, size, random);
    batch_input(&schedule(&draft, size, random), &draft.bytes())
}

fn schedule(draft: &Draft, size: Size, random: &mut Random) -> Vec<u8> {
    let most = match size {
        Size::Any => random.pick(&[2, 30, 100, 300, 300, 600, 600, 3_000]),
        Size::Small => 40,
    };
    let length = random.between(most / 3, most);
    let listed: Vec<u8> = draft.tasks.iter().map(|task| task.number).collect();
    let bad = random.chance(2);
    let in_turn = random.chance(50) && !listed.is_empty();
    let item = |i: u64| match random.below(100) {
        0..=1 => random.between(1, 7) as u8,
        2 if bad => random.pick(&[0, 8, 15, 255]),
        _ if in_turn => listed[i as usize % listed.len()],
        _ if !listed.is_empty() => random.pick(&listed),
        _ => random.between(1, 7) as u8,
    };
    (0..length).map(item).collect()
}
