//! Times the proved library beside the emulator of hep-tools and beside a plain copy, in one run; prints tables.

mod clock;
mod filling;
mod images;
mod instructions;
mod steps;

use std::{env, process};

const HELP: &str = "\
usage: hep-bench [--instructions]

Prints, as tables: ns a step of the proved library and of the emulator of hep-tools on five workloads; the
same as the data memory grows; reading and writing of the largest image beside a memcpy of its bytes; ns a
choice of filling a module beside a plain search. Times are of the thread's processor time, the best of many rounds in which all take their turns.

  --instructions   instructions a step and a choice instead, counted by valgrind
";

fn main() {
    let arguments: Vec<String> = env::args().skip(1).collect();
    match arguments.iter().map(String::as_str).collect::<Vec<_>>()[..] {
        [] => {
            steps::classes();
            steps::growth();
            images::speeds();
            filling::speed();
        }
        ["--instructions"] => {
            finish(instructions::classes().and_then(|()| filling::instructions()))
        }
        [instructions::ONCE, who, filling::NAME, tries] => finish(filling::once(who, tries)),
        [instructions::ONCE, who, class, items] => finish(instructions::once(who, class, items)),
        ["-h" | "--help"] => print!("{HELP}"),
        _ => fail(HELP),
    }
}

fn finish(done: Result<(), String>) {
    done.unwrap_or_else(|reason| fail(&reason));
}

fn fail(reason: &str) -> ! {
    eprintln!("hep-bench: {reason}");
    process::exit(2)
}
