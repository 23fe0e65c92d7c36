//! Holds the proved library to the trials, to the emulator of hep-tools on random inputs, and to isolation.

use hep_tools::compare::{self, isolation, shown, Difference, Emulator};
use hep_tools::trials;
use hep_trials::proved::Proved;
use hep_trials::{calls, filling, random};
use std::path::PathBuf;
use std::{env, process};

const HELP: &str = "\
usage: hep-trials [OPTION..]

Holds the proved library (libhep_c.a) to the trials of document 01, its calls to their refusals, then the
library to the emulator of hep-tools on an image with each of its bits changed and on random inputs: output,
counts of the run and of each task, memories and image. Pairs of inputs try isolation. Fillings of random jobs
are held to a plain search.

  --seed N     the first of the random inputs, 1 if not given; each seed has 1,000 inputs
  --count N    random inputs, 50000 if not given; a line on standard error tells how many are done
  --pairs N    pairs for isolation, 500 if not given
  --save DIR   where to write an input that differs, as hex (the working directory if not given)

Exit codes: 0 nothing differed; 1 something did: it is shrunk, printed and saved; 2 wrong usage.
";

struct Arguments {
    seed: u64,
    count: Option<u64>,
    pairs: u64,
    save: PathBuf,
}

fn main() {
    let arguments = match parse(env::args().skip(1)) {
        Ok(Some(arguments)) => arguments,
        Ok(None) => return print!("{HELP}"),
        Err(reason) => fail(2, &format!("{reason}\n\n{HELP}")),
    };
    let trials = trials::all().unwrap_or_else(|reason| fail(2, &reason));
    told(compare::trials(&mut Proved, &trials), &arguments);
    told(compare::flipped(&mut Proved, &mut Emulator), &arguments);
    let calls = calls::all().unwrap_or_else(|reason| fail(1, &reason));
    let fillings = filling::all(arguments.seed).unwrap_or_else(|reason| fail(1, &reason));
    let inputs = run_random(&arguments);
    let met = run_isolation(&arguments);
    println!(
        "trials: {} trials, {} changed bits, {calls} calls, {fillings} fillings, {inputs} random cases, {} pairs ({met} met the premises), 0 differed",
        trials.len(),
        compare::flips(),
        arguments.pairs
    );
}

fn fail(code: i32, reason: &str) -> ! {
    eprintln!("hep-trials: {reason}");
    process::exit(code)
}

fn parse(mut rest: impl Iterator<Item = String>) -> Result<Option<Arguments>, String> {
    let mut parsed = Arguments { seed: 1, count: None, pairs: 500, save: PathBuf::from(".") };
    while let Some(argument) = rest.next() {
        let mut value = || rest.next().ok_or(format!("{argument} needs a value"));
        let number = |value: String| value.parse().map_err(|_| format!("{value} isn't a number"));
        match argument.as_str() {
            "-h" | "--help" => return Ok(None),
            "--seed" => parsed.seed = number(value()?)?,
            "--count" => parsed.count = Some(number(value()?)?),
            "--pairs" => parsed.pairs = number(value()?)?,
            "--save" => parsed.save = PathBuf::from(value()?),
            other => return Err(format!("unknown argument {other}")),
        }
    }
    Ok(Some(parsed))
}

/// Prints and saves what differs, and ends.
fn told(difference: Option<Difference>, arguments: &Arguments) {
    if let Some(difference) = difference {
        let saved = shown::difference(&difference, &arguments.save);
        saved.unwrap_or_else(|reason| fail(2, &reason));
        process::exit(1);
    }
}

/// How many inputs were tried.
fn run_random(arguments: &Arguments) -> u64 {
    let count = arguments.count.unwrap_or(50_000);
    let progress = |done: u64| {
        if arguments.count.is_some() {
            eprint!("\r{done} of {count}{}", if done == count { "\n" } else { "" });
        }
    };
    told(random::random(arguments.seed, count, &progress), arguments);
    count
}

/// How many pairs met the premises.
fn run_isolation(arguments: &Arguments) -> u64 {
    let tally = isolation::tried(&mut Proved, arguments.seed, arguments.pairs);
    let tally = tally.unwrap_or_else(|reason| fail(1, &reason));
    if tally.failure.is_some() {
        let saved = shown::pairs(&tally, &arguments.save);
        saved.unwrap_or_else(|reason| fail(2, &reason));
        process::exit(1);
    }
    tally.met
}
