//! Instructions a step: this program run by valgrind with all items and with none; the rest of the work is the same in both.

use hep_tools::benchmark::ALL;
use hep_tools::emulator::batch::items_accepted;
use hep_tools::emulator::image;
use hep_trials::buffers::{asked, Buffers};
use std::env;
use std::hint::black_box;
use std::process::Command;

/// How this program is asked for one run: `proved` or `other`, the workload's name, how many items.
pub const ONCE: &str = "--once";

/// Instructions a step of the proved library, for each workload; `-` for none.
const BARS: [&str; ALL.len()] = ["210", "205", "165", "-", "160", "215"];

/// The table of the workloads.
pub fn classes() -> Result<(), String> {
    println!(
        "| Class | hep-tools, instructions a step | Proved, instructions a step | Ratio | Bar |"
    );
    println!("|---|---|---|---|---|");
    for (workload, bar) in ALL.iter().zip(BARS) {
        let items = (workload.build)().1.len();
        let a_step = |who: &str| -> Result<f64, String> {
            let extra = counted(who, workload.name, items)? - counted(who, workload.name, 0)?;
            Ok(extra / items as f64)
        };
        let (other, proved) = (a_step("other")?, a_step("proved")?);
        let (name, ratio) = (workload.name, proved / other);
        println!("| {name} | {other:.1} | {proved:.1} | {ratio:.2} | {bar} |");
    }
    Ok(())
}

/// The instructions of one run of this program.
pub fn counted(who: &str, class: &str, items: usize) -> Result<f64, String> {
    let program = env::current_exe().map_err(|error| error.to_string())?;
    let done = Command::new("valgrind")
        .args(["--tool=callgrind", "--callgrind-out-file=/dev/null"])
        .arg(program)
        .args([ONCE, who, class, &items.to_string()])
        .output()
        .map_err(|error| format!("valgrind: {error}"))?;
    let text = String::from_utf8_lossy(&done.stderr);
    let collected = text.lines().find_map(|line| line.split_once("Collected : "));
    let number = collected.and_then(|(_, number)| number.trim().parse().ok());
    number.ok_or(format!("valgrind counted nothing: {text}"))
}

/// One run of a workload's first items.
pub fn once(who: &str, class: &str, items: &str) -> Result<(), String> {
    let workload = ALL.iter().find(|workload| workload.name == class).ok_or("no such workload")?;
    let (bytes, schedule) = (workload.build)();
    let items: usize = items.parse().map_err(|_| "no number of items")?;
    let schedule = &schedule[..items.min(schedule.len())];
    let refused = |number: &dyn std::fmt::Display| format!("refused by {number}");
    if who == "proved" {
        let lengths = asked(&bytes).map_err(|number| refused(&number))?;
        black_box(Buffers::new(&lengths).run(&bytes, schedule, &lengths));
    } else {
        let mut machine = image::read(&bytes).map_err(|refusal| refused(&refusal.number))?;
        assert!(items_accepted(schedule));
        black_box(machine.run(schedule));
    }
    Ok(())
}
