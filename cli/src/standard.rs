//! Whether standard input and standard output were closed when the program began. Rust opens what is closed as /dev/null before `main`,
//! and then a lost output looks like a written one. So this is looked up before Rust begins, and it is the only unsafe code here.

use std::sync::atomic::{AtomicBool, Ordering};

static INPUT_CLOSED: AtomicBool = AtomicBool::new(false);
static OUTPUT_CLOSED: AtomicBool = AtomicBool::new(false);

pub fn input_is_closed() -> bool {
    INPUT_CLOSED.load(Ordering::Relaxed)
}

pub fn output_is_closed() -> bool {
    OUTPUT_CLOSED.load(Ordering::Relaxed)
}

extern "C" {
    fn fcntl(descriptor: i32, command: i32, ...) -> i32;
}

/// The command that returns the flags of a descriptor. It fails only if the descriptor is closed.
const FLAGS: i32 = 1;

extern "C" fn look() {
    for (descriptor, closed) in [(0, &INPUT_CLOSED), (1, &OUTPUT_CLOSED)] {
        // SAFETY: for this command the system reads nothing from memory and writes nothing to it.
        closed.store(unsafe { fcntl(descriptor, FLAGS) } == -1, Ordering::Relaxed);
    }
}

/// The system calls the functions of this section before `main`.
#[used]
#[link_section = ".init_array"]
static LOOK: extern "C" fn() = look;
