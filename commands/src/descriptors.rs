//! Whether the standard input and output were open when the program was started. Rust's start opens /dev/null in place of
//! a closed one, and then all that is written would be lost without an error; so they are looked at before it.

use std::io;
use std::sync::atomic::{AtomicBool, Ordering};

static CLOSED: [AtomicBool; 2] = [AtomicBool::new(false), AtomicBool::new(false)];

const GET_FLAGS: i32 = 1;

extern "C" {
    fn fcntl(descriptor: i32, command: i32, ...) -> i32;
}

extern "C" fn look() {
    for (descriptor, closed) in (0..).zip(&CLOSED) {
        // SAFETY: the call asks for a descriptor's flags and changes nothing.
        closed.store(unsafe { fcntl(descriptor, GET_FLAGS) } == -1, Ordering::Relaxed);
    }
}

#[used]
#[link_section = ".init_array"]
static BEFORE_MAIN: extern "C" fn() = look;

/// An error where the standard input (0) or output (1) was closed.
pub fn is_open(descriptor: usize) -> io::Result<()> {
    const BAD_DESCRIPTOR: i32 = 9;
    match CLOSED[descriptor].load(Ordering::Relaxed) {
        true => Err(io::Error::from_raw_os_error(BAD_DESCRIPTOR)),
        false => Ok(()),
    }
}
