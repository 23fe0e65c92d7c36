//! The proved library as an implementation of the batch program.

use crate::buffers::{self, Buffers, Lengths, NONE};
use hep::sys::{self, COUNTS, REPORT_ROOM};
use hep_tools::compare::Implementation;
use hep_tools::emulator::batch::{self, split, Answer, MOST_BYTES};
use hep_tools::emulator::image;
use hep_tools::emulator::machine::Counts;

/// The library, all of its calls at once: `hep_batch` answers, and the others must say the same.
pub struct Proved;

impl Implementation for Proved {
    fn answer(&mut self, input: &[u8]) -> Result<Answer, String> {
        let output = batched(input)?;
        let (schedule, image) = match split(input) {
            Some(parts) if input.len() <= MOST_BYTES => parts,
            _ => return Ok(Answer::of(output)),
        };
        let answer = match run(image, schedule)? {
            Ok(left) => Answer {
                output: left.report().to_vec(),
                image: Some(left.image().to_vec()),
                own: Some(left.counted().own),
            },
            Err(number) => Answer::of(format!("R{number}\n").into_bytes()),
        };
        require(output == answer.output, "hep_batch and hep_run disagree")?;
        Ok(answer)
    }
}

fn require(holds: bool, reason: &str) -> Result<(), String> {
    holds.then_some(()).ok_or(reason.to_string())
}

fn batched(input: &[u8]) -> Result<Vec<u8>, String> {
    let mut output = buffers::bytes(REPORT_ROOM);
    let length = sys::batch(input, &mut output);
    require((1..=REPORT_ROOM).contains(&length), "hep_batch answers no length")?;
    require(buffers::bytes_stay(&output[length..]), "hep_batch wrote beyond its answer")?;
    output.truncate(length);
    Ok(output)
}

/// What a run leaves, or the number of its refusal; fails where the calls disagree.
fn run(image: &[u8], schedule: &[u8]) -> Result<Result<Buffers, u32>, String> {
    let checked = sys::check(image);
    let lengths = match buffers::asked(image) {
        Ok(lengths) => lengths,
        Err(number) => {
            require(number == checked, "hep_check and hep_sizes disagree")?;
            return refused(image, schedule, number);
        }
    };
    require(checked == sys::ACCEPTED, "hep_check and hep_sizes disagree")?;
    let mut left = Buffers::new(&lengths);
    match left.run(image, schedule, &lengths) {
        sys::ACCEPTED => consistent(&left, &lengths).map(|()| Ok(left)),
        number => {
            require(left.stays_from(&NONE), "a refused hep_run wrote")?;
            Ok(Err(number))
        }
    }
}

/// A run of an image that is refused, with no room at all.
fn refused(image: &[u8], schedule: &[u8], number: u32) -> Result<Result<Buffers, u32>, String> {
    let mut left = Buffers::new(&NONE);
    require(left.run(image, schedule, &NONE) == number, "hep_run and hep_check disagree")?;
    require(left.stays_from(&NONE), "a refused hep_run wrote")?;
    Ok(Err(number))
}

/// Whether memories, counts, report and image say the same, and the rest stays.
fn consistent(left: &Buffers, lengths: &Lengths) -> Result<(), String> {
    let [ct, cw, rt, rw, p, dt, dw, output, _, room] = *lengths;
    let [image, report] = left.lengths();
    require(image <= output && report <= room, "hep_run answers no length")?;
    require(
        left.stays_from(&[ct, cw, rt, rw, p, dt, dw, image, COUNTS, report]),
        "hep_run wrote beyond",
    )?;
    let machine =
        image::read(left.image()).map_err(|refusal| format!("the image after it: {refusal}"))?;
    let counted = left.counted();
    let added_up = counted.own.into_iter().sum::<Counts>() == counted.counts;
    require(added_up, "the tasks' counts don't add up to the run's")?;
    let same = batch::report(&machine, &counted).as_bytes() == left.report();
    require(same, "report, counts and image disagree")?;
    let draft = image::draft(&machine);
    let pairs = |tags: &[u8], words: &[u64], cells: &[(u8, u64)]| {
        cells.iter().map(|cell| cell.0).eq(tags.iter().copied())
            && cells.iter().map(|cell| cell.1).eq(words.iter().copied())
    };
    let same = pairs(&left.constant_tags[..ct], &left.constant_words[..cw], &draft.constants)
        && pairs(&left.register_tags[..rt], &left.register_words[..rw], &draft.registers)
        && draft.program == left.program[..p]
        && pairs(&left.data_tags[..dt], &left.data_words[..dw], &draft.data);
    require(same, "memories and image disagree")
}
