//! Counts of each task: lines as those of live counts, whose last part is the whole report, a slash between its lines.

use super::report::Item;
use super::{live, Trial};
use crate::emulator::draft::Draft;

/// The trial of a line.
pub fn trials(line: &str) -> Result<Vec<Trial>, String> {
    live::trial(line, written_out)
}

fn written_out(_: &Draft, report: &str, _: &[Item]) -> Option<String> {
    Some(report.split('/').map(|line| line.trim().to_string() + "\n").collect())
}
