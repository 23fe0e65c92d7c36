//! Writes generated inputs as files or as lines of hex, and the smallest refused images.

use hep_tools::generate::{input, small_input};
use hep_tools::tool::hex_line;
use hep_tools::trials::edges;
use std::io::{self, Write};
use std::path::Path;
use std::{env, fs, process};

const HELP: &str = "\
usage: hep-generate [--small] SEED COUNT [DIR]
       hep-generate --refused DIR

Makes batch inputs: valid, damaged and wild ones, the same for the same seed. They are files
SEED-NUMBER.bin in DIR, or without DIR lines of hex on standard output.

  --small     inputs of some 1,000 bytes with at most 40 items
  --refused   instead the smallest image for each of the refusals 1 to 6 and 12 to 14, as files
              R1.bin to R14.bin
";

fn main() -> io::Result<()> {
    let mut arguments: Vec<String> = env::args().skip(1).collect();
    let make = match arguments.first().map(String::as_str) {
        Some("-h" | "--help") => return io::stdout().write_all(HELP.as_bytes()),
        Some("--refused") if arguments.len() == 2 => return refused(Path::new(&arguments[1])),
        Some("--small") => small_input,
        _ => input,
    };
    if arguments.first().is_some_and(|argument| argument == "--small") {
        arguments.remove(0);
    }
    let Some((seed, count, directory)) = parse(&arguments) else {
        eprint!("{HELP}");
        process::exit(2);
    };
    match directory {
        Some(directory) => files(directory, seed, count, make),
        None => lines(seed, count, make),
    }
}

fn parse(arguments: &[String]) -> Option<(u64, u64, Option<&Path>)> {
    let (seed, count, directory) = match arguments {
        [seed, count] => (seed, count, None),
        [seed, count, directory] => (seed, count, Some(Path::new(directory))),
        _ => return None,
    };
    Some((seed.parse().ok()?, count.parse().ok()?, directory))
}

fn files(directory: &Path, seed: u64, count: u64, make: fn(u64, u64) -> Vec<u8>) -> io::Result<()> {
    fs::create_dir_all(directory)?;
    for n in 0..count {
        fs::write(directory.join(format!("{seed}-{n:06}.bin")), make(seed, n))?;
    }
    Ok(())
}

fn refused(directory: &Path) -> io::Result<()> {
    fs::create_dir_all(directory)?;
    let write = |(n, image)| fs::write(directory.join(format!("R{n}.bin")), image);
    edges::smallest().into_iter().try_for_each(write)
}

fn lines(seed: u64, count: u64, make: fn(u64, u64) -> Vec<u8>) -> io::Result<()> {
    let mut out = io::stdout().lock();
    for n in 0..count {
        writeln!(out, "{}", hex_line(&make(seed, n)))?;
    }
    Ok(())
}
