//! What differs, printed and saved as hex.

use crate::compare::isolation::{Tally, PREMISES};
use crate::compare::Difference;
use crate::emulator::machine::OwnCounts;
use crate::tool::{self, text};
use std::fs;
use std::path::Path;

/// Prints and saves an input that differs.
pub fn difference(difference: &Difference, folder: &Path) -> Result<(), String> {
    let Difference { name, input, expected, found } = difference;
    println!("differs: {name}");
    println!("expected:\n{}", String::from_utf8_lossy(&expected.output));
    match found {
        Ok(found) => println!("found:\n{}", String::from_utf8_lossy(&found.output)),
        Err(reason) => println!("found: {reason}"),
    }
    if let (Some(expected), Ok(found)) = (&expected.image, found) {
        if let Some(found) = &found.image {
            images(expected, found);
        }
    }
    if let (Some(expected), Ok(Some(found))) = (&expected.own, found.as_ref().map(|f| f.own)) {
        own_counts(expected, &found);
    }
    if let Ok(source) = tool::load(input) {
        println!("the input:\n{}", text::dump(&source));
    }
    save(folder, "differs.hex", input)
}

/// Prints the lines of two images' texts that differ.
fn images(expected: &[u8], found: &[u8]) {
    let text = |image| tool::dumped(image).unwrap_or_else(|reason| reason);
    let (expected, found) = (text(expected), text(found));
    for (expected, found) in expected.lines().zip(found.lines()).filter(|(a, b)| a != b) {
        println!("image, expected: {expected}\nimage, found:    {found}");
    }
}

/// Prints the counts of the tasks that differ.
fn own_counts(expected: &OwnCounts, found: &OwnCounts) {
    let both = expected.iter().zip(found).enumerate();
    for (task, (expected, found)) in both.filter(|(_, (a, b))| a != b) {
        println!("task {task}, expected: {expected}\ntask {task}, found:    {found}");
    }
}

/// Prints how the pairs went, and saves one that differs.
pub fn pairs(tally: &Tally, folder: &Path) -> Result<(), String> {
    let differed = u8::from(tally.failure.is_some());
    println!(
        "isolation: {} pairs met the premises ({} changed the task), {differed} differed",
        tally.met, tally.met_changed
    );
    let counted = PREMISES.iter().zip(tally.broken).filter(|(_, count)| *count > 0);
    let counted = counted.map(|((_, name), count)| format!("{name} {count}")).collect::<Vec<_>>();
    println!(
        "isolation, a premise broken: {}; {} differed",
        counted.join(", "),
        tally.broken_differed
    );
    if let Some((first, second, task)) = &tally.failure {
        println!("task {task} differs");
        save(folder, "first.hex", first)?;
        save(folder, "second.hex", second)?;
    }
    Ok(())
}

fn save(folder: &Path, name: &str, input: &[u8]) -> Result<(), String> {
    let path = folder.join(name);
    println!("hex, also in {}:\n{}", path.display(), tool::to_hex(input));
    let saved = fs::create_dir_all(folder).and_then(|()| fs::write(&path, tool::to_hex(input)));
    saved.map_err(|error| format!("{}: {error}", path.display()))
}
