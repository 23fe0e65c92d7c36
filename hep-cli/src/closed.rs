//! Whether standard input or output was closed when the program began. The Rust runtime puts /dev/null in such a place before `main`, where
//! all that is written would be lost without a word; so a function looks at them earlier, by the table of functions that run first.

use std::sync::atomic::{AtomicBool, Ordering};

static INPUT: AtomicBool = AtomicBool::new(false);
static OUTPUT: AtomicBool = AtomicBool::new(false);

pub fn input() -> bool {
    INPUT.load(Ordering::Relaxed)
}

pub fn output() -> bool {
    OUTPUT.load(Ordering::Relaxed)
}

#[cfg(target_os = "linux")]
mod at_start {
    use super::*;

    /// `F_GETFD` of fcntl(2), which fails only for a descriptor that is closed.
    const GET_FLAGS: i32 = 1;

    extern "C" {
        fn fcntl(descriptor: i32, command: i32, ...) -> i32;
    }

    extern "C" fn look() {
        // SAFETY: the call reads a number of this process and nothing else.
        let closed = |descriptor| unsafe { fcntl(descriptor, GET_FLAGS) } == -1;
        INPUT.store(closed(0), Ordering::Relaxed);
        OUTPUT.store(closed(1), Ordering::Relaxed);
    }

    #[used]
    #[link_section = ".init_array"]
    static LOOK: extern "C" fn() = look;
}
