//! ns a step.
//!
//! `hep_run` also reads, checks and writes the image, so its time with no item is taken off. What is left tests the items and takes their
//! steps; the emulator is timed over the same.

use crate::clock::best;
use hep_tools::benchmark::{self, ALL};
use hep_tools::emulator::batch::items_accepted;
use hep_tools::emulator::image;
use hep_trials::buffers::{asked, Buffers};
use std::hint::black_box;

const ROUNDS: usize = 300;
const LARGE_ROUNDS: usize = 40;
/// Images from so many data words on have fewer rounds.
const LARGE: usize = 1 << 15;
/// Times the emulator, for each workload.
const BAR: f64 = 1.1;
const DATA_WORDS: [usize; 6] = [1, 1 << 5, 1 << 10, 1 << 15, 1 << 18, 1 << 20];

/// ns a step of the library and of the emulator.
pub struct Times {
    proved: f64,
    other: f64,
}

impl Times {
    fn ratio(&self) -> f64 {
        self.proved / self.other
    }
}

/// The workloads.
pub fn classes() {
    println!("| Class | hep-tools, ns a step | Proved, ns a step | Ratio | Bar |");
    println!("|---|---|---|---|---|");
    for workload in &ALL {
        let times = times(&(workload.build)(), ROUNDS);
        let Times { proved, other } = times;
        let (name, ratio) = (workload.name, times.ratio());
        println!("| {name} | {other:.1} | {proved:.1} | {ratio:.2} | {BAR} |");
    }
    println!();
}

/// Arithmetic and loads and stores as the data memory grows; a window over data words has at least 32.
pub fn growth() {
    println!(
        "| Data words | Arithmetic: hep-tools | Proved | Loads and stores: hep-tools | Proved |"
    );
    println!("|---|---|---|---|---|");
    for words in DATA_WORDS {
        let rounds = if words < LARGE { ROUNDS } else { LARGE_ROUNDS };
        let beside = times(&benchmark::arithmetic_beside(words), rounds);
        print!("| {words} | {:.1} | {:.1} ", beside.other, beside.proved);
        if words < 32 {
            println!("| | |");
        } else {
            let over = times(&benchmark::loadstore_over(words), rounds);
            println!("| {:.1} | {:.1} |", over.other, over.proved);
        }
    }
    println!();
}

/// Best times of a workload; library and emulator must leave the same image.
fn times((bytes, schedule): &(Vec<u8>, Vec<u8>), rounds: usize) -> Times {
    let lengths = asked(bytes).expect("the workload's image is accepted");
    let mut left = Buffers::new(&lengths);
    let (mut other, mut whole, mut without) = (f64::INFINITY, f64::INFINITY, f64::INFINITY);
    for round in 0..rounds {
        let mut machine = image::read(bytes).expect("the workload's image is accepted");
        best(&mut other, || {
            assert!(items_accepted(schedule));
            black_box(machine.run(schedule));
        });
        best(&mut without, || assert_eq!(left.run(bytes, &[], &lengths), 0));
        best(&mut whole, || assert_eq!(left.run(bytes, schedule, &lengths), 0));
        assert!(round > 0 || left.image() == image::write(&machine), "the images differ");
    }
    let steps = schedule.len() as f64;
    Times { proved: (whole - without) / steps, other: other / steps }
}
