//! Random inputs: seed after seed, on every processor of the machine.

use crate::proved::Proved;
use hep_tools::compare::{self, Difference, Emulator};
use std::sync::atomic::{AtomicU64, Ordering};
use std::sync::Mutex;
use std::thread;

/// Inputs of each seed.
const EACH: u64 = 1_000;

/// The work of all threads: which seeds are taken, how many inputs are done, what differed.
struct Work<'a> {
    first: u64,
    count: u64,
    taken: AtomicU64,
    done: AtomicU64,
    found: Mutex<Option<Difference>>,
    progress: &'a (dyn Fn(u64) + Sync),
}

impl Work<'_> {
    fn found(&self) -> std::sync::MutexGuard<'_, Option<Difference>> {
        self.found.lock().unwrap_or_else(|poisoned| poisoned.into_inner())
    }

    /// Tries seeds until none is left or something differed.
    fn go_on(&self) {
        while self.found().is_none() {
            let n = self.taken.fetch_add(1, Ordering::Relaxed);
            let inputs = EACH.min(self.count.saturating_sub(n * EACH));
            if inputs == 0 {
                return;
            }
            match compare::random(&mut Proved, &mut Emulator, self.first + n, inputs) {
                Some(difference) => *self.found() = Some(difference),
                None => (self.progress)(self.done.fetch_add(inputs, Ordering::Relaxed) + inputs),
            }
        }
    }
}

/// An input on which library and emulator differ, shrunk, among `count` inputs of the seeds from
/// `seed` on; `progress` is told how many are done.
pub fn random(seed: u64, count: u64, progress: &(dyn Fn(u64) + Sync)) -> Option<Difference> {
    let (taken, done, found) = (AtomicU64::new(0), AtomicU64::new(0), Mutex::new(None));
    let work = Work { first: seed, count, taken, done, found, progress };
    let threads = thread::available_parallelism().map_or(1, usize::from);
    thread::scope(|scope| (0..threads).for_each(|_| drop(scope.spawn(|| work.go_on()))));
    let difference = work.found().take();
    difference
}
