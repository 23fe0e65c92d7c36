//! Trials: inputs with the answers that document 01 gives them, worked out by hand.

mod bench;
mod counts;
mod crowds;
pub mod edges;
mod families;
mod live;
mod queues;
mod report;

use crate::emulator::batch::Answer;
use crate::tool::from_hex;

/// An input and what the batch program must answer.
#[derive(Clone, Debug)]
pub struct Trial {
    pub name: String,
    pub input: Vec<u8>,
    pub expected: Answer,
}

/// The trials of a line, or why there are none.
type Reading = fn(&str) -> Result<Vec<Trial>, String>;

/// The trials that are written line by line.
const WRITTEN: [(&str, &str, Reading); 7] = [
    ("operations", include_str!("../../trials/operations.trials"), bench::trials),
    ("operands", include_str!("../../trials/operands.trials"), bench::trials),
    ("checks", include_str!("../../trials/checks.trials"), bench::trials),
    ("processes", include_str!("../../trials/processes.trials"), bench::trials),
    ("queues", include_str!("../../trials/queues.trials"), queues::trials),
    ("live", include_str!("../../trials/live.trials"), live::trials),
    ("counts", include_str!("../../trials/counts.trials"), counts::trials),
];

/// Every trial. A line that can't be read is an error with its file's name.
pub fn all() -> Result<Vec<Trial>, String> {
    let mut trials = Vec::new();
    for (file, text, read) in WRITTEN {
        for (i, line) in text.lines().enumerate() {
            if !line.trim().is_empty() && !line.starts_with('#') {
                let read = read(line);
                trials.extend(read.map_err(|reason| format!("{file} line {}: {reason}", i + 1))?);
            }
        }
    }
    let families: [(Vec<String>, Reading); 2] =
        [(families::lines(), bench::trials), (crowds::lines(), live::trials)];
    for (lines, read) in families {
        for line in lines {
            trials.extend(read(&line).map_err(|reason| format!("{line}: {reason}"))?);
        }
    }
    trials.extend(edges::all());
    trials.push(printed());
    Ok(trials)
}

/// Document 01's printed case.
fn printed() -> Trial {
    let hex = "0001 01 | 01 01 0000 0001 0000 0001 0000 00000001 00000000 FF 0000000000000000 | \
               01 00 00 01 0000000000000000 | 0000 | 0000 | 00000000 | 00000000";
    let output = b"1 1 14 00000 E0 W0 T1 I0 S0\nE0 W0 T1 I0 S0 CF0\n".to_vec();
    let expected = Answer::of(output);
    Trial { name: "printed".to_string(), input: from_hex(hex).unwrap_or_default(), expected }
}
