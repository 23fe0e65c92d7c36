//! A batch input from standard input; the image after its run to standard output.

use std::io::{self, Read, Write};

fn main() -> Result<(), Box<dyn std::error::Error>> {
    let mut input = Vec::new();
    io::stdin().read_to_end(&mut input)?;
    let (count, rest) = input.split_first_chunk().ok_or("no schedule")?;
    let (schedule, image) = rest
        .split_at_checked(u16::from_be_bytes(*count).into())
        .ok_or("the schedule is not whole")?;
    io::stdout().write_all(&hep::run(image, schedule)?.image)?;
    Ok(())
}
