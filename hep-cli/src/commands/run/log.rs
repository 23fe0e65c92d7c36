//! The line of each file among several, the log of them with times, and progress on a terminal.

use crate::output;
use crate::runs;
use crate::status::{Failure, Status};
use std::fs::{File, OpenOptions};
use std::io::{self, IsTerminal, Write};
use std::time::{Instant, SystemTime, UNIX_EPOCH};

type Done = Result<hep::Outcome, Failure>;

/// Name, `accepted` or the refusal, the counts, and each task with its own.
pub fn line(file: &str, done: &Done) -> String {
    let result = match done {
        Ok(outcome) => {
            let counts = outcome.report.lines().last().unwrap_or_default();
            let state = outcome.state();
            let own = |task| format!("\t{task} {}", outcome.own(task));
            let tasks: String = runs::tasks(outcome, &state).map(own).collect();
            format!("{}\t{counts}{tasks}", Status::Done.word())
        }
        Err(Failure { number: Some(number), .. }) => format!("R{number}"),
        Err(failure) => failure.status.word().to_string(),
    };
    format!("{file}\t{result}\n")
}

/// What is told while files are run.
pub struct Log {
    file: Option<(String, File)>,
    /// Whether progress is shown: of several files, on a terminal.
    shown: bool,
    start: Instant,
    files: usize,
    done: usize,
    failed: usize,
}

impl Log {
    pub fn new(name: Option<&str>, files: &[String]) -> Result<Self, Failure> {
        let file = match name {
            None => None,
            Some(name) => {
                output::not_read(name, files)?;
                let opened = OpenOptions::new().append(true).create(true).open(name);
                Some((name.to_string(), opened.map_err(|error| Failure::broken(name, error))?))
            }
        };
        let shown = files.len() > 1 && io::stderr().is_terminal();
        let start = Instant::now();
        Ok(Log { file, shown, start, files: files.len(), done: 0, failed: 0 })
    }

    /// A file is done, with this line.
    pub fn done(&mut self, line: &str, failed: bool) -> Result<(), Failure> {
        self.done += 1;
        self.failed += usize::from(failed);
        if let Some((name, file)) = &mut self.file {
            let line = format!("{}\t{line}", time());
            file.write_all(line.as_bytes()).map_err(|error| Failure::broken(name, error))?;
        }
        if self.shown {
            let left = self.files - self.done;
            let seconds = self.start.elapsed().as_secs_f64() * left as f64 / self.done as f64;
            let Log { done, files, failed, .. } = self;
            output::tell(&format!("{done} of {files}, {failed} refused, {seconds:.0} s left"));
        }
        Ok(())
    }

    /// Clears the line of progress.
    pub fn clear(&self) {
        if self.shown {
            output::tell("\r\x1b[K");
        }
    }
}

/// The time now, as 2026-11-17T19:06:34Z.
fn time() -> String {
    let seconds = SystemTime::now().duration_since(UNIX_EPOCH).map_or(0, |since| since.as_secs());
    let (year, month, day) = date(seconds / 86_400);
    let (hour, minute, second) = (seconds / 3_600 % 24, seconds / 60 % 60, seconds % 60);
    format!("{year:04}-{month:02}-{day:02}T{hour:02}:{minute:02}:{second:02}Z")
}

/// The date of a day counted from 1970-01-01. Years are taken from March on, so that a leap day ends one.
fn date(day: u64) -> (u64, u64, u64) {
    let day = day + 719_468;
    let (era, day) = (day / 146_097, day % 146_097);
    let year = (day - day / 1_460 + day / 36_524 - day / 146_096) / 365;
    let day = day - (365 * year + year / 4 - year / 100);
    let month = (5 * day + 2) / 153;
    let day = day - (153 * month + 2) / 5 + 1;
    let month = if month < 10 { month + 3 } else { month - 9 };
    (year + 400 * era + u64::from(month <= 2), month, day)
}

#[cfg(test)]
mod tests {
    use super::date;

    #[test]
    fn dates() {
        let cases = [
            (0, (1970, 1, 1)),
            (11_016, (2000, 2, 29)),
            (11_017, (2000, 3, 1)),
            (20_774, (2026, 11, 17)),
        ];
        for (day, expected) in cases {
            assert_eq!(date(day), expected);
        }
    }
}
