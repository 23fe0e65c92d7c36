//! Runs by the proved library; the other emulator is held to them.

use crate::files::name;
use crate::status::Failure;
use hep_tools::emulator::draft::Draft;
use hep_tools::emulator::machine::{Counts, Machine, RunCounts};
use hep_tools::emulator::{batch, image};
use hep_tools::tool;
use hep_tools::tool::text::Source;

/// A source's schedule run by the proved library.
pub fn run(file: &str, source: &Source) -> Result<hep::Outcome, Failure> {
    let schedule = source.schedule.as_deref().unwrap_or(&[]);
    let outcome = hep::run_in_slices(&source.draft.bytes(), schedule);
    outcome.map_err(|refusal| Failure::differs(name(file), format!("accepted, and then {refusal}")))
}

/// The fields of the image after a run.
pub fn after(file: &str, source: &Source) -> Result<Draft, Failure> {
    draft(file, &run(file, source)?.image)
}

/// The counts of a run of the proved library, those of each task too.
pub fn counts(outcome: &hep::Outcome) -> RunCounts {
    let told = |counts: hep::Counts| {
        let hep::Counts { executed, waved, trapped, idle, tries } = counts;
        Counts { executed, waved, trapped, idle, tries }
    };
    RunCounts {
        counts: told(outcome.counts),
        own: std::array::from_fn(|task| told(outcome.own(task as u8))),
    }
}

/// The tasks of a run: those that the image lists, and the others that have items.
pub fn tasks<'a>(
    outcome: &'a hep::Outcome,
    state: &'a hep::State,
) -> impl Iterator<Item = u8> + 'a {
    let has_items = |task| outcome.own(task) != hep::Counts::default();
    hep::TASKS.filter(move |&task| state.task(task).is_some() || has_items(task))
}

/// What the other emulator's run of a source leaves and counts.
fn other(source: &Source) -> (Machine, RunCounts) {
    let mut machine = tool::machine(source);
    let counts = machine.run(source.schedule.as_deref().unwrap_or(&[]));
    (machine, counts)
}

/// The fields of an image that the proved library wrote.
pub fn draft(file: &str, bytes: &[u8]) -> Result<Draft, Failure> {
    let read = image::read(bytes).map_err(|refusal| {
        Failure::differs(
            name(file),
            format!("hep-tools refuses the image after the run: {refusal}"),
        )
    });
    Ok(image::draft(&read?))
}

/// That the machine of hep-tools is now what the proved library's run leaves, and that both count the same.
pub fn same(file: &str, source: &Source, machine: &Machine) -> Result<(), Failure> {
    let outcome = run(file, source)?;
    let what = match (outcome.image == image::write(machine), counts(&outcome) == other(source).1) {
        (true, true) => return Ok(()),
        (true, false) => "its counts are others",
        (false, _) => "its image after the run is another",
    };
    let reason = format!("the steps above are not those of the proved library: {what}");
    Err(Failure::differs(name(file), reason))
}

/// That the other emulator gives the same image, the same counts and the same report.
pub fn checked(file: &str, source: &Source, outcome: &hep::Outcome) -> Result<(), Failure> {
    let (machine, counted) = other(source);
    let report = batch::report(&machine, &counted);
    let same = counts(outcome) == counted && report == outcome.report;
    if same && image::write(&machine) == outcome.image {
        return Ok(());
    }
    let reason = format!("the other emulator differs; it reports:\n{report}");
    Err(Failure::differs(name(file), reason))
}
