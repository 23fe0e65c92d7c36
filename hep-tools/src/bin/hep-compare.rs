//! Holds an implementation of the batch program to the trials and to the emulator.

use hep_tools::compare::{self, isolation, shown};
use hep_tools::compare::{Difference, Emulator, Implementation, Lines, Program};
use hep_tools::trials;
use std::path::PathBuf;
use std::{env, process};

const HELP: &str = "\
usage: hep-compare [OPTION..] [PROGRAM [ARGUMENT..]]

Holds a batch program to the trials of document 01, then to the emulator of this package on an image
with each of its bits changed and on random inputs. PROGRAM reads an input and writes its output; without one the emulator is tried. Where
images are given, isolation is tried too.

  --seed N     of the random inputs, 1 if not given
  --count N    random inputs, 2000 if not given
  --pairs N    pairs for isolation, 500 if not given
  --lines      PROGRAM answers lines as `hep-emulator --lines` does, so it gives images
  --save DIR   where to write an input that differs, as hex (the working directory if not given)

Exit codes: 0 nothing differed; 1 something did: it is shrunk, printed and saved; 2 wrong usage.
";

struct Arguments {
    seed: u64,
    count: u64,
    pairs: u64,
    lines: bool,
    save: PathBuf,
    command: Vec<String>,
}

fn main() {
    let arguments = match parse(env::args().skip(1).collect()) {
        Ok(Some(arguments)) => arguments,
        Ok(None) => return print!("{HELP}"),
        Err(reason) => fail(2, &format!("{reason}\n\n{HELP}")),
    };
    let mut tried = implementation(&arguments).unwrap_or_else(|reason| fail(2, &reason));
    run_trials(&mut *tried, &arguments);
    run_flips(&mut *tried, &arguments);
    run_random(&mut *tried, &arguments);
    if arguments.lines || arguments.command.is_empty() {
        run_isolation(&mut *tried, &arguments);
    }
}

fn fail(code: i32, reason: &str) -> ! {
    eprintln!("hep-compare: {reason}");
    process::exit(code)
}

fn parse(arguments: Vec<String>) -> Result<Option<Arguments>, String> {
    let save = PathBuf::from(".");
    let mut parsed =
        Arguments { seed: 1, count: 2_000, pairs: 500, lines: false, save, command: Vec::new() };
    let mut rest = arguments.into_iter();
    while let Some(argument) = rest.next() {
        let mut value = || rest.next().ok_or(format!("{argument} needs a value"));
        let number = |value: String| value.parse().map_err(|_| format!("{value} isn't a number"));
        match argument.as_str() {
            "-h" | "--help" => return Ok(None),
            "--seed" => parsed.seed = number(value()?)?,
            "--count" => parsed.count = number(value()?)?,
            "--pairs" => parsed.pairs = number(value()?)?,
            "--save" => parsed.save = PathBuf::from(value()?),
            "--lines" => parsed.lines = true,
            option if option.starts_with('-') => return Err(format!("unknown option {option}")),
            _ => {
                parsed.command.push(argument);
                parsed.command.extend(rest);
                break;
            }
        }
    }
    Ok(Some(parsed))
}

fn implementation(arguments: &Arguments) -> Result<Box<dyn Implementation>, String> {
    let command = arguments.command.clone();
    Ok(match (command.is_empty(), arguments.lines) {
        (true, _) => Box::new(Emulator),
        (false, true) => Box::new(Lines::new(&command)?),
        (false, false) => Box::new(Program { command }),
    })
}

fn run_trials(tried: &mut dyn Implementation, arguments: &Arguments) {
    let all = trials::all().unwrap_or_else(|reason| fail(2, &reason));
    match compare::trials(tried, &all) {
        Some(difference) => told(&difference, arguments),
        None => println!("trials: {} met", all.len()),
    }
}

fn run_flips(tried: &mut dyn Implementation, arguments: &Arguments) {
    match compare::flipped(tried, &mut Emulator) {
        Some(difference) => told(&difference, arguments),
        None => println!("flips: {} changed bits of an image, 0 differed", compare::flips()),
    }
}

fn run_random(tried: &mut dyn Implementation, arguments: &Arguments) {
    let Arguments { seed, count, .. } = *arguments;
    match compare::random(tried, &mut Emulator, seed, count) {
        Some(difference) => told(&difference, arguments),
        None => println!("random: {count} inputs of seed {seed}, 0 differed"),
    }
}

/// Prints and saves what differs, and ends.
fn told(difference: &Difference, arguments: &Arguments) -> ! {
    shown::difference(difference, &arguments.save).unwrap_or_else(|reason| fail(2, &reason));
    process::exit(1)
}

fn run_isolation(tried: &mut dyn Implementation, arguments: &Arguments) {
    let tally = isolation::tried(tried, arguments.seed, arguments.pairs);
    let tally = tally.unwrap_or_else(|reason| fail(1, &reason));
    shown::pairs(&tally, &arguments.save).unwrap_or_else(|reason| fail(2, &reason));
    if tally.failure.is_some() {
        process::exit(1);
    }
}
