//! Hands the program the logic that the linked archive was proved in: the compiler writes it into each file that it builds after a proof.

use std::{env, fs};

const MARK: &[u8] = b"rattle logic=";

/// As many digits as `rt version` prints.
const DIGITS: usize = 16;

fn main() {
    let archive = env::var("DEP_HEP_C_ARCHIVE").expect("hep-rust's build script names the archive");
    println!("cargo:rerun-if-changed={archive}");
    let bytes = fs::read(&archive).unwrap_or_default();
    println!("cargo:rustc-env=HEP_LOGIC={}", logic(&bytes).unwrap_or_default());
}

/// The hex digits behind the mark.
fn logic(bytes: &[u8]) -> Option<String> {
    let place = bytes.windows(MARK.len()).position(|part| part == MARK)?;
    let digits = bytes[place + MARK.len()..].iter().take(DIGITS);
    Some(digits.map(|&byte| byte as char).collect())
}
