//! `hep agree`: whether the isolation promise covers a task in two runs.

use super::{Command, OUTPUT};
use crate::arguments::Arguments;
use crate::files::{self, IMAGE, INPUT, SCHEDULE};
use crate::output;
use crate::runs;
use crate::status::{Failure, Status};
use hep_tools::tool::agree::agree;

pub const COMMAND: Command = Command {
    name: "agree",
    operands: "TASK FILE FILE",
    summary: "whether the isolation promise covers a task in two runs, premise by premise",
    about: "Holds the premises of the isolation promise (docs/PROMISES.md, demand 3) to a task in two runs; `!` marks each\n\
            that does not hold, with the first place where it fails. The last line has the task's own counts in both. Exit\n\
            status 1 if the promise does not cover the task, or neither file lists it. The runs are the proved\n\
            library's; the comparison is hep-tools', not proved.",
    options: &[SCHEDULE, OUTPUT, INPUT, IMAGE],
    run,
};

const COVERED: &str =
    "covered by the isolation promise: registers, data words, both queues, trap record and own counts are equal after both runs\n";

fn run(arguments: &Arguments) -> Result<Status, Failure> {
    let tasks = [files::task(arguments)?];
    let [_, a, b] = &arguments.files[..] else {
        return Err(Failure::usage("agree takes a task and two files"));
    };
    let inputs =
        [files::load_to_run(a, arguments)?.source, files::load_to_run(b, arguments)?.source];
    let outcomes = [runs::run(a, &inputs[0])?, runs::run(b, &inputs[1])?];
    let after = [runs::draft(a, &outcomes[0].image)?, runs::draft(b, &outcomes[1].image)?];
    let counts = outcomes.each_ref().map(runs::counts);
    let own = counts.each_ref().map(|counts| &counts.own);
    let agreement = agree(&tasks, inputs.each_ref(), after.each_ref(), own);
    let listed = inputs.iter().any(|i| i.draft.tasks.iter().any(|row| row.number == tasks[0]));
    let verdict = match (agreement.covered, listed) {
        (true, true) => COVERED,
        (true, false) => "neither file lists the task: nothing of it is there to be covered\n",
        (false, _) => "not covered by the isolation promise\n",
    };
    let equal = if agreement.equal { "equal" } else { "not equal" };
    let head = format!("task {} in {} and {}\n", tasks[0], files::name(a), files::name(b));
    let [first, second] = counts.map(|counts| counts.own(tasks[0]));
    let own = format!("own counts {first}, {second}\n");
    output::answer(
        arguments,
        format!("{head}{}{verdict}after both runs they are {equal}\n{own}", agreement.lines),
    )?;
    match (agreement.covered, agreement.equal) {
        (true, true) if listed => Ok(Status::Done),
        (true, true) => Ok(Status::Refused),
        (false, _) => Ok(Status::Refused),
        (true, false) => Err(Failure::differs(
            files::name(a),
            "covered, and yet not equal: the promise is broken",
        )),
    }
}
