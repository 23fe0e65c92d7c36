//! The batch program: standard input to standard output.

use hep_tools::emulator::batch;
use hep_tools::tool::{from_hex, hex_line};
use std::io::{self, BufRead, Read, Write};
use std::{env, process};

const HELP: &str = "\
usage: hep-emulator [--lines]

Reads a batch input from standard input and writes the batch program's output.

  --lines   each line is an input in hex; answers with its output and the image after the run,
            both in hex, `-` for no image
";

fn main() -> io::Result<()> {
    let arguments: Vec<String> = env::args().skip(1).collect();
    match arguments.iter().map(String::as_str).collect::<Vec<_>>()[..] {
        [] => whole(),
        ["--lines"] => lines(),
        ["-h" | "--help"] => io::stdout().write_all(HELP.as_bytes()),
        _ => {
            eprint!("{HELP}");
            process::exit(2);
        }
    }
}

fn whole() -> io::Result<()> {
    let mut input = Vec::new();
    io::stdin().read_to_end(&mut input)?;
    io::stdout().write_all(&batch::output(&input))
}

/// Answers each line at once.
fn lines() -> io::Result<()> {
    let mut out = io::stdout().lock();
    for line in io::stdin().lock().lines() {
        match from_hex(&line?) {
            Some(bytes) => writeln!(out, "{}", run(&bytes))?,
            None => {
                eprintln!("hep-emulator: a line isn't hex");
                process::exit(1);
            }
        }
        out.flush()?;
    }
    Ok(())
}

fn run(input: &[u8]) -> String {
    let answer = batch::answer(input);
    let image = answer.image.map_or("-".to_string(), |image| hex_line(&image));
    format!("{} {image}", hex_line(&answer.output))
}
