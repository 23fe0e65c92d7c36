//! What the batch program's input has no room for: the largest memories, the last PC.

use hep_tools::emulator::assemble::{psw, word, MOV, NOP};
use hep_tools::emulator::draft::{Draft, Process, Task};
use hep_tools::emulator::image;
use hep_tools::emulator::machine::Ending;

/// Every memory at its limit, and a task that has all of them.
fn largest() -> Draft {
    let task = Task {
        cb: 0xFFF,
        rb: 0,
        rl: 0x3FF,
        pb: 0,
        pl: 0xFFFF,
        db: 0,
        dl: 0x7FFF,
        ..Task::empty(1)
    };
    Draft {
        tasks: vec![task],
        processes: vec![Process::new(63, 1, psw(0, 0, 0, 0xF_FFFF))],
        flag: 0,
        constants: vec![(6, 1); 4_096],
        registers: vec![(14, 1); 2_048],
        program: vec![word(NOP, 0, 0, 0); 1 << 20],
        data: vec![(0, 1); 1 << 20],
    }
}

#[test]
fn the_largest_image() {
    let mut draft = largest();
    let bytes = draft.bytes();
    assert_eq!(image::write(&image::read(&bytes).expect("accepted")), bytes);
    draft.tasks[0].dl = 0x8000;
    assert_eq!(image::read(&draft.bytes()).err().map(|refusal| refusal.number), Some(5));
}

#[test]
fn pc_is_kept_modulo_2_20() {
    let mut machine = image::read(&largest().bytes()).expect("accepted");
    assert_eq!(machine.item(1).ending, Ending::Executed);
    assert_eq!(machine.processes(1), [(63, 0)]);
}

#[test]
fn the_last_register() {
    let mut draft = largest();
    draft.program[0xF_FFFF] = word(MOV, 0, 2_047, 0);
    draft.registers[2_047] = (3, 9);
    let mut machine = image::read(&draft.bytes()).expect("accepted");
    assert_eq!(machine.item(1).ending, Ending::Executed);
    assert_eq!(machine.register(0), (0, 9));
}

#[test]
fn steps_of_no_task_are_idle() {
    let mut machine = image::read(&largest().bytes()).expect("accepted");
    for task in [0, 2, 7, 8, 255] {
        assert_eq!(machine.item(task).ending, Ending::Idle);
    }
}

#[test]
fn the_lowest_number_is_taken_again() {
    use hep_tools::emulator::assemble::{constant, create, quit, ALWAYS};
    let program = [quit(ALWAYS, constant(0)), create(ALWAYS, 0, constant(0), constant(0))];
    let mut draft = Draft {
        tasks: vec![Task { pb: 0, pl: 0, ..Task::empty(1) }],
        processes: [(0, 0), (5, 1)].map(|(pt, psw)| Process::new(pt, 1, psw)).to_vec(),
        program: program.to_vec(),
        ..Draft::default()
    };
    draft.program.resize(16, 0);
    let mut machine = image::read(&draft.bytes()).expect("accepted");
    assert_eq!([machine.item(1).ending, machine.item(1).ending], [Ending::Executed; 2]);
    assert_eq!(machine.processes(1), [(5, 2), (0, 2)]);
}
