//! `hep fill`: which jobs go into a module together.

use super::{Command, OUTPUT};
use crate::arguments::{valued, Arguments};
use crate::files;
use crate::output::{self, Sink};
use crate::status::{Failure, Status};
use hep::Filling;
use hep_tools::filling;
use hep_tools::tool::join::{join, Job};
use hep_tools::tool::load::Loaded;
use hep_tools::tool::share;
use hep_tools::tool::text::dump;
use std::path::Path;

pub const COMMAND: Command = Command {
    name: "fill",
    operands: "[JOBS]",
    summary: "which jobs go into a module together",
    about: "JOBS has a line for each of up to 15 jobs: its name and its register need, even and from 2 to 2,048; `;` starts\n\
            a comment. A name may have several words; then the last is no number, so that two needs on a line are not\n\
            taken for one. Finds at most seven whose needs sum to at most 2,048 and to as much as possible, by the\n\
            proved library, and writes the choice (a binary number, the first job being the last digit) with the names,\n\
            its sum, the choices tried, and a ceiling that no choice's sum is above. --join drops the names and labels\n\
            of the jobs' texts, since two jobs may use one name for different things.",
    options: &[
        valued("tries", "N", "try the first N choices, not all"),
        valued("join", "FILE", "write the chosen jobs there as one text; names are then files, each of one task"),
        OUTPUT,
    ],
    run,
};

/// A line of JOBS.
struct Wanted {
    name: String,
    need: u64,
}

fn run(arguments: &Arguments) -> Result<Status, Failure> {
    let tries = arguments.number("tries").map_err(Failure::usage)?.unwrap_or(u64::MAX);
    let file = files::one(arguments, 0)?;
    let jobs = listed(file)?;
    let filling = filled(file, &jobs, tries)?;
    let chosen: Vec<&Wanted> = filling.jobs().map(|place| &jobs[place]).collect();
    if let Some(to) = arguments.value("join") {
        let text = joined(file, &chosen)?;
        let mut sink = Sink::file(to)?;
        sink.put(text)?;
        sink.flush()?;
    }
    output::answer(arguments, told(&filling, jobs.len(), &chosen))?;
    Ok(Status::Done)
}

/// The jobs that a file lists.
fn listed(file: &str) -> Result<Vec<Wanted>, Failure> {
    let bytes = files::read(file)?;
    let text = std::str::from_utf8(&bytes)
        .map_err(|_| Failure::refused(files::name(file), "it is no text in UTF-8"))?;
    let text = text.strip_prefix('\u{FEFF}').unwrap_or(text);
    let lines = text.lines().map(|line| line.split(';').next().unwrap_or_default().trim());
    let lines = lines.enumerate().filter(|(_, line)| !line.is_empty());
    lines.map(|(place, line)| wanted(file, place + 1, line)).collect()
}

fn wanted(file: &str, number: usize, line: &str) -> Result<Wanted, Failure> {
    let place = format!("{}:{number}", files::name(file));
    let refused = |reason: String| Err(Failure::refused(&place, format!("error: {reason}")));
    let words: Vec<&str> = line.split_whitespace().collect();
    let name = line.rsplit_once(char::is_whitespace).map(|(name, _)| name.trim_end().to_string());
    let need = words.last().and_then(|need| need.parse().ok());
    match (name, need, &words[..]) {
        (_, Some(_), [_, .., before, _]) if before.parse::<u64>().is_ok() => {
            refused(format!("`{line}` ends in two numbers, so it is not plain which is the need"))
        }
        (Some(name), Some(need), _) => Ok(Wanted { name, need }),
        _ => refused(format!("a line is a name and a number of registers, not `{line}`")),
    }
}

/// The proved library's filling, held to the plain search of hep-tools.
fn filled(file: &str, jobs: &[Wanted], tries: u64) -> Result<Filling, Failure> {
    let needs: Vec<u64> = jobs.iter().map(|job| job.need).collect();
    let proved = hep::fill(&needs, tries);
    let plain = filling::fill(&needs, tries);
    let numbers = |f: Filling| [f.choice, f.sum, f.tries, f.ceiling];
    let same = match (proved, plain) {
        (Ok(proved), Ok(f)) => numbers(proved) == [f.choice, f.sum, f.tries, f.ceiling],
        (Err(refusal), Err(number)) => refusal.number() == u32::from(number),
        _ => false,
    };
    if !same {
        let reason = format!("hep-tools answers {plain:?}, the proved library {proved:?}");
        return Err(Failure::differs(files::name(file), reason));
    }
    proved.map_err(|refusal| {
        let bad = jobs.iter().find(|job| hep::fill(&[job.need], 1).is_err());
        let bad = bad.map_or(String::new(), |job| format!(": `{}` needs {}", job.name, job.need));
        let number = Some(refusal.number() as u8);
        Failure { number, ..Failure::refused(files::name(file), format!("{refusal}{bad}")) }
    })
}

fn told(filling: &Filling, jobs: usize, chosen: &[&Wanted]) -> String {
    let names: String = chosen.iter().map(|job| format!(" {}", job.name)).collect();
    let Filling { choice, sum, tries, ceiling } = filling;
    format!("choice {choice:0jobs$b}{names}\nsum {sum}\ntries {tries}\nceiling {ceiling}\n")
}

/// The chosen jobs as one text, accepted by the proved library; their files lie beside the list.
fn joined(file: &str, chosen: &[&Wanted]) -> Result<String, Failure> {
    let folder = Path::new(file).parent().filter(|_| file != "-").unwrap_or(Path::new(""));
    let loaded = chosen.iter().map(|job| job_of(folder, job)).collect::<Result<Vec<_>, _>>()?;
    let jobs = chosen.iter().zip(&loaded);
    let jobs: Vec<Job> =
        jobs.map(|(job, loaded)| Job { name: &job.name, source: &loaded.source }).collect();
    let refused = |reason: String| Failure::refused(files::name(file), reason);
    let source = join(&jobs).map_err(refused)?;
    hep::check(&source.draft.bytes()).map_err(|refusal| refused(refusal.to_string()))?;
    Ok(dump(&source))
}

/// A job's file, whose registers are not more than its need.
fn job_of(folder: &Path, job: &Wanted) -> Result<Loaded, Failure> {
    let path = folder.join(&job.name);
    let name = path.to_string_lossy();
    let loaded = files::load(&name, &Arguments::default())?;
    let held = loaded.source.draft.tasks.iter().map(|task| share::registers(task).len());
    match held.max() {
        Some(held) if held as u64 > job.need => {
            let reason = format!("its window has {held} registers, over its need of {}", job.need);
            Err(Failure::refused(&name, reason))
        }
        _ => Ok(loaded),
    }
}
