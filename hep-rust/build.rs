//! Links libhep_c.a, the proved archive: from the folder HEP_LIB_DIR if that is set, else from the repository's target/staticlib
//! (`bash tools/archive.sh` makes it), else from where install.sh put it, as pkg-config says. A package that uses this one gets the archive's path
//! as DEP_HEP_C_ARCHIVE in its build script.

use std::env;
use std::path::{Path, PathBuf};
use std::process::{self, Command};

const ARCHIVE: &str = "libhep_c.a";

fn installed() -> Option<PathBuf> {
    let said = Command::new("pkg-config").args(["--variable=libdir", "hep"]).output().ok()?;
    Some(String::from_utf8(said.stdout).ok()?.trim().into())
}

fn main() {
    println!("cargo:rerun-if-env-changed=HEP_LIB_DIR");
    println!("cargo:rerun-if-env-changed=PKG_CONFIG_PATH");
    let repository = Path::new(env!("CARGO_MANIFEST_DIR")).join("../target/staticlib");
    let folders = match env::var_os("HEP_LIB_DIR") {
        Some(folder) => vec![folder.into()],
        None => [Some(repository), installed()].into_iter().flatten().collect(),
    };
    let Some(folder) = folders.iter().find(|folder| folder.join(ARCHIVE).is_file()) else {
        eprintln!("{ARCHIVE} is neither in HEP_LIB_DIR nor built nor installed: `bash tools/archive.sh` of the repository proves and builds it");
        process::exit(1);
    };
    let archive = folder.join(ARCHIVE);
    println!("cargo:rerun-if-changed={}", archive.display());
    println!("cargo:rustc-link-search=native={}", folder.display());
    println!("cargo:rustc-link-lib=static=hep_c");
    println!("cargo:archive={}", archive.display());
}
