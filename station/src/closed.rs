//! Whether the standard output was closed when the program began. What Rust runs before `main` puts /dev/null in its place, and every answer would go there
//! without an error; so it is looked at before that.

use std::io::{self, Write};
use std::sync::atomic::{AtomicBool, Ordering};

static CLOSED: AtomicBool = AtomicBool::new(false);

unsafe extern "C" {
    fn fcntl(file: i32, command: i32, ...) -> i32;
}

extern "C" fn look() {
    const STANDARD_OUTPUT: i32 = 1;
    const GET_FLAGS: i32 = 1;
    // SAFETY: fcntl with F_GETFD takes two numbers and changes nothing; a file that is not open is its error -1.
    CLOSED.store(unsafe { fcntl(STANDARD_OUTPUT, GET_FLAGS) } == -1, Ordering::Relaxed);
}

// SAFETY: the C library calls each function of this section once before `main`, and `look` needs nothing that is made ready later.
#[used]
#[unsafe(link_section = ".init_array")]
static LOOK: extern "C" fn() = look;

/// Whether it was closed.
pub fn is_closed() -> bool {
    CLOSED.load(Ordering::Relaxed)
}

/// A standard output that is closed.
pub struct Closed;

impl Write for Closed {
    fn write(&mut self, _: &[u8]) -> io::Result<usize> {
        Err(io::Error::other("the standard output is closed"))
    }

    fn flush(&mut self) -> io::Result<()> {
        Ok(())
    }
}
