//! The program run with standard input, and a folder for its files.

use std::fs;
use std::io::Write;
use std::path::PathBuf;
use std::process::{Command, Stdio};

pub const PROGRAM: &str = env!("CARGO_BIN_EXE_hep");

/// Exit status, standard output and standard error.
#[derive(Debug, PartialEq, Eq)]
pub struct Ended {
    pub code: i32,
    pub out: String,
    pub err: String,
}

pub fn hep(arguments: &[&str], input: impl AsRef<[u8]>) -> Ended {
    ended(Command::new(PROGRAM).args(arguments), input)
}

/// A command line of the shell, where `$HEP` is the program.
#[allow(dead_code)]
pub fn shell(line: &str) -> Ended {
    ended(Command::new("bash").args(["-c", line]).env("HEP", PROGRAM), b"")
}

fn ended(command: &mut Command, input: impl AsRef<[u8]>) -> Ended {
    command.stdin(Stdio::piped()).stdout(Stdio::piped()).stderr(Stdio::piped());
    let mut child = command.spawn().expect("it starts");
    // It may end before it reads everything.
    let _ = child.stdin.take().unwrap().write_all(input.as_ref());
    let output = child.wait_with_output().expect("it ends");
    let text = |bytes: Vec<u8>| String::from_utf8_lossy(&bytes).into_owned();
    Ended {
        code: output.status.code().expect("it isn't killed"),
        out: text(output.stdout),
        err: text(output.stderr),
    }
}

/// A folder of a test, empty at its start.
pub struct Folder(PathBuf);

#[allow(dead_code)]
impl Folder {
    pub fn new(name: &str) -> Self {
        let folder = PathBuf::from(env!("CARGO_TARGET_TMPDIR")).join(name);
        let _ = fs::remove_dir_all(&folder);
        fs::create_dir_all(&folder).unwrap();
        Folder(folder)
    }

    pub fn path(&self, name: &str) -> String {
        self.0.join(name).to_str().unwrap().to_string()
    }

    /// Writes a file; its path.
    pub fn file(&self, name: &str, bytes: impl AsRef<[u8]>) -> String {
        fs::write(self.path(name), bytes).unwrap();
        self.path(name)
    }

    pub fn read(&self, name: &str) -> Vec<u8> {
        fs::read(self.path(name)).unwrap()
    }
}

/// A file of examples/.
#[allow(dead_code)]
pub fn example(name: &str) -> String {
    format!("{}/../examples/{name}", env!("CARGO_MANIFEST_DIR"))
}
