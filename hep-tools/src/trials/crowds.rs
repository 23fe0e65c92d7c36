//! Families of lines of live counts: in crowds of several tasks, near 64 processes, each task creates and each quits.

/// Tasks with their live counts.
struct Crowd(Vec<(u8, usize)>);

impl Crowd {
    fn tasks(&self) -> Vec<u8> {
        self.0.iter().map(|(task, _)| *task).collect()
    }

    fn others(&self, task: u8) -> Vec<u8> {
        self.tasks().into_iter().filter(|other| *other != task).collect()
    }

    /// With so many processes more of a task.
    fn and(&self, task: u8, more: usize) -> Crowd {
        let count = |&(of, count)| (of, if of == task { count + more } else { count });
        Crowd(self.0.iter().map(count).collect())
    }

    /// With one process less of each of these tasks.
    fn without(&self, tasks: &[u8]) -> Crowd {
        let count = |&(of, count)| (of, if tasks.contains(&of) { count - 1 } else { count });
        Crowd(self.0.iter().map(count).collect())
    }

    /// Queues in which the heads of these tasks quit and all else creates.
    fn queues(&self, quitters: &[u8]) -> String {
        let queue = |&(task, count)| match quitters.contains(&task) {
            true => format!("{task}=1q+{}c", count - 1),
            false => format!("{task}={count}c"),
        };
        self.0.iter().map(queue).collect::<Vec<_>>().join(", ")
    }

    /// The live counts that the report must show.
    fn live(&self) -> String {
        let count = |(task, count): &(u8, usize)| format!("{task}={count}");
        self.0.iter().map(count).collect::<Vec<_>>().join(", ")
    }

    /// An item for each of these tasks, whose creates wait; a task without processes is idle.
    fn waits(&self, tasks: &[u8]) -> String {
        let item = |&(task, count): &(u8, usize)| match count {
            0 => format!(" {task}:I"),
            _ => format!(" {task}:W"),
        };
        self.0.iter().filter(|(task, _)| tasks.contains(task)).map(item).collect()
    }
}

/// Crowds of 61 processes in two to seven tasks.
const CROWDS: [&[(u8, usize)]; 10] = [
    &[(1, 30), (2, 31)],
    &[(1, 1), (7, 60)],
    &[(3, 60), (5, 1)],
    &[(1, 20), (4, 18), (7, 23)],
    &[(2, 2), (3, 58), (6, 1)],
    &[(1, 15), (3, 14), (5, 16), (7, 16)],
    &[(2, 1), (3, 2), (4, 50), (5, 3), (6, 5)],
    &[(1, 9), (2, 10), (4, 11), (5, 8), (6, 12), (7, 11)],
    &[(1, 1), (2, 2), (3, 3), (4, 4), (5, 5), (6, 6), (7, 40)],
    &[(1, 40), (2, 6), (3, 5), (4, 4), (5, 3), (6, 2), (7, 1)],
];

pub fn lines() -> Vec<String> {
    let mut lines = Vec::new();
    for crowd in CROWDS.map(|counts| Crowd(counts.to_vec())) {
        let tasks = crowd.tasks();
        quits_with_the_flag_up(&mut lines, &crowd);
        for i in 0..tasks.len() {
            let [first, second, third] = [i, i + 1, i + 2].map(|i| tasks[i % tasks.len()]);
            single_creates(&mut lines, &crowd, first, second);
            creates(&mut lines, &crowd, [first; 3]);
            creates(&mut lines, &crowd, [first, second, third]);
            quits_after_the_fault(&mut lines, &crowd, first);
            for &quitter in &tasks {
                quit_and_creates(&mut lines, &crowd, quitter, first);
            }
        }
    }
    lines
}

/// Creates of the 62nd, the 63rd and the 64th process, each in a run of its own.
fn single_creates(lines: &mut Vec<String>, crowd: &Crowd, creator: u8, other: u8) {
    for (more, ending) in [(0, "E"), (1, "E"), (2, "T00")] {
        let before = crowd.and(other, more);
        let (queues, live) = (before.queues(&[]), before.and(creator, 1).live());
        let name = format!("task {creator} creates at {}: {}", 61 + more, before.live());
        lines.push(format!("{name} | {queues}, first={creator} | {creator}:{ending} | {live}"));
    }
}

/// Creates of the 62nd, the 63rd and the 64th process in one run; then the creates of other tasks wait.
fn creates(lines: &mut Vec<String>, crowd: &Crowd, [first, second, third]: [u8; 3]) {
    let after = crowd.and(first, 1).and(second, 1).and(third, 1);
    let waits = after.waits(&crowd.others(third));
    let endings = format!("{first}:E {second}:E {third}:T00 {third}:I{waits}");
    let name = format!("tasks {first}, {second}, {third} create at 61: {}", crowd.live());
    let (queues, live) = (crowd.queues(&[]), after.live());
    lines.push(format!("{name} | {queues}, first={second} | {endings} | {live}"));
}

/// At 63 one quits; then a create makes the 63rd, which is no fault, and another the 64th.
fn quit_and_creates(lines: &mut Vec<String>, crowd: &Crowd, quitter: u8, creator: u8) {
    let before = crowd.and(quitter, 2);
    let after = before.without(&[quitter]).and(creator, 2);
    let waits = after.waits(&crowd.others(creator));
    let endings = format!("{quitter}:E {creator}:E {creator}:T00 {creator}:I{waits}");
    let name = format!("task {quitter} quits at 63, task {creator} creates: {}", before.live());
    let (queues, live) = (before.queues(&[quitter]), after.live());
    lines.push(format!("{name} | {queues}, first={creator} | {endings} | {live}"));
}

/// After the fault one of each other task quits; the flag stays up, and creates wait.
fn quits_after_the_fault(lines: &mut Vec<String>, crowd: &Crowd, creator: u8) {
    let (before, others) = (crowd.and(creator, 2), crowd.others(creator));
    let after = before.and(creator, 1).without(&others);
    let endings = format!("{creator}:T00{}{} {creator}:I", quits(&others), after.waits(&others));
    let name = format!("quits after the fault of task {creator}: {}", before.live());
    let (queues, live) = (before.queues(&others), after.live());
    lines.push(format!("{name} | {queues}, first={creator} | {endings} | {live}"));
}

/// Of 64 processes one of each task quits; the flag stays up, and creates wait.
fn quits_with_the_flag_up(lines: &mut Vec<String>, crowd: &Crowd) {
    let tasks = crowd.tasks();
    let before = crowd.and(tasks[0], 3);
    let after = before.without(&tasks);
    let endings = quits(&tasks) + &after.waits(&tasks);
    let name = format!("quits with the flag up: {}", before.live());
    lines.push(format!(
        "{name} | {}, flag=1 | {endings} | {}",
        before.queues(&tasks),
        after.live()
    ));
}

/// An item for each of these tasks, whose heads quit.
fn quits(tasks: &[u8]) -> String {
    tasks.iter().map(|task| format!(" {task}:E")).collect()
}
