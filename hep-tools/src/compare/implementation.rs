//! Implementations of the batch program.

use crate::emulator::batch::{self, Answer};
use crate::tool::{from_hex, hex_line};
use std::io::{BufRead, BufReader, Read, Write};
use std::process::{Child, ChildStdin, ChildStdout, Command, Stdio};
use std::sync::mpsc;
use std::thread;
use std::time::Duration;

/// How long a program may take for an input.
const LIMIT: Duration = Duration::from_secs(10);

/// Something that answers batch inputs; one that gives no images or own counts has none in its answers.
pub trait Implementation {
    /// The answer, or why there is none.
    fn answer(&mut self, input: &[u8]) -> Result<Answer, String>;
}

/// The emulator of this package.
pub struct Emulator;

impl Implementation for Emulator {
    fn answer(&mut self, input: &[u8]) -> Result<Answer, String> {
        Ok(batch::answer(input))
    }
}

/// A batch program, started anew for each input.
pub struct Program {
    pub command: Vec<String>,
}

impl Implementation for Program {
    fn answer(&mut self, input: &[u8]) -> Result<Answer, String> {
        let (mut child, mut stdin, mut stdout) = start(&self.command)?;
        let (sender, receiver) = mpsc::channel();
        thread::spawn(move || {
            let mut output = Vec::new();
            let read = stdout.read_to_end(&mut output);
            // Nobody listens any more if it took too long.
            let _ = sender.send(read.map(|_| output));
        });
        // It may answer before it has read everything.
        let _ = stdin.write_all(input);
        drop(stdin);
        let output = receiver.recv_timeout(LIMIT);
        if output.is_err() {
            let _ = child.kill();
        }
        let status = child.wait().map_err(|error| error.to_string())?;
        let output = output.map_err(|_| format!("no answer in {} s", LIMIT.as_secs()))?;
        if !status.success() {
            return Err(format!("it ended with {status}"));
        }
        let output = output.map_err(|error| error.to_string())?;
        Ok(Answer::of(output))
    }
}

fn start(command: &[String]) -> Result<(Child, ChildStdin, ChildStdout), String> {
    let (program, arguments) = command.split_first().ok_or("no program")?;
    let child = Command::new(program)
        .args(arguments)
        .stdin(Stdio::piped())
        .stdout(Stdio::piped())
        .spawn()
        .map_err(|error| format!("{program}: {error}"));
    let mut child = child?;
    let (stdin, stdout) = (child.stdin.take(), child.stdout.take());
    Ok((child, stdin.ok_or("no standard input")?, stdout.ok_or("no standard output")?))
}

/// A program that answers lines as `hep-emulator --lines` does, kept running.
pub struct Lines {
    child: Child,
    stdin: ChildStdin,
    stdout: BufReader<ChildStdout>,
}

impl Lines {
    pub fn new(command: &[String]) -> Result<Self, String> {
        let (child, stdin, stdout) = start(command)?;
        Ok(Lines { child, stdin, stdout: BufReader::new(stdout) })
    }
}

impl Drop for Lines {
    fn drop(&mut self) {
        // It may have ended by itself.
        let _ = self.child.kill();
        let _ = self.child.wait();
    }
}

impl Implementation for Lines {
    fn answer(&mut self, input: &[u8]) -> Result<Answer, String> {
        let asked = writeln!(self.stdin, "{}", hex_line(input));
        asked.map_err(|error| error.to_string())?;
        let mut line = String::new();
        self.stdout.read_line(&mut line).map_err(|error| error.to_string())?;
        let (output, image) = line.trim_end().split_once(' ').ok_or("no answer")?;
        let output = from_hex(output).ok_or("the output isn't hex")?;
        let image = match image {
            "-" => None,
            image => Some(from_hex(image).ok_or("the image isn't hex")?),
        };
        Ok(Answer { image, ..Answer::of(output) })
    }
}
