//! Filling a module: 15 jobs, every choice, beside the plain search of hep-tools.

use crate::clock::best;
use crate::instructions::counted;
use hep_tools::filling::MOST_JOBS;
use std::hint::black_box;

/// How this program is asked for one search, in place of a workload's name.
pub const NAME: &str = "filling";

const ROUNDS: usize = 200;
/// Every choice of so many jobs.
const CHOICES: u64 = 1 << MOST_JOBS;
/// Times the plain search.
const BAR: f64 = 1.5;
const NEEDS: [u64; MOST_JOBS] =
    [1000, 1002, 998, 700, 702, 704, 300, 302, 306, 310, 150, 152, 154, 90, 30];

fn plain(tries: u64) -> [u64; 4] {
    let found = hep_tools::filling::fill(black_box(&NEEDS), tries).expect("the jobs are sound");
    [found.choice, found.sum, found.tries, found.ceiling]
}

fn proved(tries: u64) -> [u64; 4] {
    let found = hep::fill(black_box(&NEEDS), tries).expect("the jobs are sound");
    [found.choice, found.sum, found.tries, found.ceiling]
}

fn table(unit: &str, other: f64, proved: f64) {
    println!(
        "| Filling, {CHOICES} choices | hep-tools, {unit} a choice | Proved, {unit} a choice | Ratio | Bar |"
    );
    println!("|---|---|---|---|---|");
    println!("| {MOST_JOBS} jobs | {other:.1} | {proved:.1} | {:.2} | {BAR} |", proved / other);
}

/// ns a choice.
pub fn speed() {
    let [mut other, mut library] = [f64::INFINITY; 2];
    for _ in 0..ROUNDS {
        best(&mut other, || {
            black_box(plain(CHOICES));
        });
        best(&mut library, || {
            black_box(proved(CHOICES));
        });
    }
    assert_eq!(plain(CHOICES), proved(CHOICES), "the fillings differ");
    println!();
    table("ns", other / CHOICES as f64, library / CHOICES as f64);
}

/// Instructions a choice.
pub fn instructions() -> Result<(), String> {
    let a_choice = |who: &str| -> Result<f64, String> {
        let extra = counted(who, NAME, CHOICES as usize)? - counted(who, NAME, 1)?;
        Ok(extra / (CHOICES - 1) as f64)
    };
    let (other, proved) = (a_choice("other")?, a_choice("proved")?);
    println!();
    table("instructions", other, proved);
    Ok(())
}

/// One search of so many choices.
pub fn once(who: &str, tries: &str) -> Result<(), String> {
    let tries = tries.parse().map_err(|_| "no number of tries")?;
    black_box(if who == "proved" { proved(tries) } else { plain(tries) });
    Ok(())
}
