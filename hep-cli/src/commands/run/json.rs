//! A run as a JSON object on one line.

use crate::runs;
use crate::status::Failure;

/// The object of a file.
pub fn object(file: &str, done: &Result<hep::Outcome, Failure>) -> String {
    let rest = match done {
        Ok(outcome) => accepted(outcome),
        Err(failure) => {
            let result = failure.status.word();
            let number = failure.number.map_or("null".to_string(), |number| number.to_string());
            let reason = string(failure.words.trim_end());
            format!("\"result\":\"{result}\",\"refusal\":{number},\"reason\":{reason}")
        }
    };
    format!("{{\"file\":{},{rest}}}\n", string(file))
}

fn accepted(outcome: &hep::Outcome) -> String {
    let state = outcome.state();
    let own = |number| task(&state, number, outcome.own(number));
    let tasks: Vec<String> = runs::tasks(outcome, &state).map(own).collect();
    let (counts, fault) = (counts(outcome.counts), state.create_fault);
    format!(
        "\"result\":\"accepted\",{counts},\"create_fault\":{fault},\"tasks\":[{}]",
        tasks.join(",")
    )
}

fn counts(counts: hep::Counts) -> String {
    let hep::Counts { executed, waved, trapped, idle, tries } = counts;
    format!("\"executed\":{executed},\"waved\":{waved},\"trapped\":{trapped},\"idle\":{idle},\"tries\":{tries}")
}

/// A task's line of the report; also of one that is not listed and has items, which has no line there.
fn task(state: &hep::State, number: u8, own: hep::Counts) -> String {
    let row = state.task(number);
    let (listed, live) = (row.is_some(), state.processes_of(number).count());
    let trap = row.and_then(|row| row.trap).map_or("null".to_string(), |trap| {
        format!("{{\"kind\":\"{:02X}\",\"pc\":{}}}", trap.kind, trap.psw & 0xF_FFFF)
    });
    let own = counts(own);
    format!("{{\"task\":{number},\"listed\":{listed},\"live\":{live},\"trap\":{trap},{own}}}")
}

fn string(text: &str) -> String {
    let escaped = text.chars().map(|c| match c {
        '"' | '\\' => format!("\\{c}"),
        c if c < ' ' => format!("\\u{:04x}", c as u32),
        c => c.to_string(),
    });
    format!("\"{}\"", escaped.collect::<String>())
}
