//! The plain search for jobs that fill a module, on fillings worked out by hand.

use hep_tools::filling::{fill, Filling, BAD_JOBS, NO_TRIES};
use hep_tools::generate;

fn filled(needs: &[u64], tries: u64) -> (u64, u64, u64, u64) {
    let Filling { choice, sum, tries, ceiling } = fill(needs, tries).unwrap();
    (choice, sum, tries, ceiling)
}

#[test]
fn the_first_of_the_best_tried() {
    assert_eq!(filled(&[], 5), (0, 0, 1, 0));
    assert_eq!(filled(&[2000, 40, 1000], 100), (3, 2040, 8, 2048));
    assert_eq!(filled(&[1000, 50, 2000], 8), (4, 2000, 8, 2048));
    assert_eq!(filled(&[1000, 1048, 1048], 8), (3, 2048, 8, 2048));
    assert_eq!(filled(&[2, 6, 2000], 1), (0, 0, 1, 2008));
    assert_eq!(filled(&[2, 6, 2000], 3), (2, 6, 3, 2008));
    assert_eq!(filled(&[2, 6, 2000], 4), (3, 8, 4, 2008));
}

#[test]
fn the_rules() {
    assert_eq!(filled(&[1024, 1024], 4), (3, 2048, 4, 2048));
    assert_eq!(filled(&[1026, 1024], 4), (1, 1026, 4, 2048));
    assert_eq!(filled(&[2, 4, 6, 8, 10, 12, 14, 16], 256), (254, 70, 256, 70));
    assert_eq!(filled(&[16, 2, 14, 4, 12, 6, 10, 8], 256), (253, 70, 256, 70));
    assert_eq!(filled(&[2; 15], u64::MAX), (127, 14, 32_768, 14));
}

#[test]
fn refusals() {
    assert_eq!(fill(&[2; 16], 0), Err(BAD_JOBS));
    for bad in [0, 1, 3, 2_047, 2_049, 2_050, u64::MAX] {
        assert_eq!(fill(&[2, bad], 0), Err(BAD_JOBS));
        assert_eq!(fill(&[bad, 2], 1), Err(BAD_JOBS));
    }
    assert_eq!(fill(&[2, 2_048], 0), Err(NO_TRIES));
    assert_eq!(fill(&[], 0), Err(NO_TRIES));
}

/// The generator reaches both refusals, every count of jobs, and searches that end early.
#[test]
fn generated_jobs() {
    let cases: Vec<_> = (0..2_000).map(|n| generate::jobs(1, n)).collect();
    let answers: Vec<_> = cases.iter().map(|(needs, tries)| fill(needs, *tries)).collect();
    for refusal in [BAD_JOBS, NO_TRIES] {
        assert!(answers.contains(&Err(refusal)));
    }
    for count in 0..=16 {
        assert!(cases.iter().any(|(needs, _)| needs.len() == count));
    }
    let fillings: Vec<_> = answers.iter().flatten().collect();
    assert!(fillings.iter().any(|filling| filling.sum < filling.ceiling));
    assert!(fillings.iter().any(|filling| filling.choice.count_ones() == 7));
    assert!(fillings.iter().all(|filling| filling.sum <= filling.ceiling));
}
