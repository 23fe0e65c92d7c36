//! What is written: standard output or a file, and standard error. No write panics; a reader that has gone ends the program quietly.

use crate::arguments::Arguments;
use crate::closed;
use crate::files;
use crate::status::Failure;
use std::fs::File;
use std::io::{self, BufWriter, ErrorKind, Write};
use std::os::fd::AsFd;

/// Where a command's answer goes.
pub struct Sink {
    name: String,
    to: BufWriter<File>,
}

impl Sink {
    /// The file of `-o`, or standard output.
    pub fn of(arguments: &Arguments) -> Result<Sink, Failure> {
        match arguments.value("output") {
            None | Some("-") => Sink::standard(),
            Some(file) => Sink::file(file),
        }
    }

    pub fn standard() -> Result<Sink, Failure> {
        let name = "standard output".to_string();
        if closed::output() {
            return Err(Failure::broken(&name, "it is closed"));
        }
        // The library's handle takes a descriptor that can't be written for a written one.
        let descriptor = io::stdout().as_fd().try_clone_to_owned();
        let file = File::from(descriptor.map_err(|error| Failure::broken(&name, error))?);
        Ok(Sink { name, to: BufWriter::new(file) })
    }

    pub fn file(name: &str) -> Result<Sink, Failure> {
        not_read(name, &[])?;
        let file = File::create(name).map_err(|error| Failure::broken(name, error))?;
        Ok(Sink { name: name.to_string(), to: BufWriter::new(file) })
    }

    pub fn put(&mut self, answer: impl AsRef<[u8]>) -> Result<(), Failure> {
        let written = self.to.write_all(answer.as_ref());
        self.told(written)
    }

    pub fn flush(&mut self) -> Result<(), Failure> {
        let written = self.to.flush();
        self.told(written)
    }

    fn told(&self, written: io::Result<()>) -> Result<(), Failure> {
        written.map_err(|error| match error.kind() {
            ErrorKind::BrokenPipe => Failure::reader_gone(),
            _ => Failure::broken(&self.name, error),
        })
    }
}

/// That a file that is to be written was not read, and is none of those that will be.
pub fn not_read(name: &str, to_read: &[String]) -> Result<(), Failure> {
    match files::is_read(name, to_read) {
        true => Err(Failure::broken(name, "it is a file that is read, and is not written over")),
        false => Ok(()),
    }
}

/// A command's whole answer to where it goes.
pub fn answer(arguments: &Arguments, answer: impl AsRef<[u8]>) -> Result<(), Failure> {
    let mut sink = Sink::of(arguments)?;
    sink.put(answer)?;
    sink.flush()
}

/// Words to standard error; where that can't be written nobody can be told.
pub fn tell(words: &str) {
    let _ = io::stderr().write_all(words.as_bytes());
}
