//! The standard streams as files. A stream that was closed at the start, or is open the other way, gives an error; the standard library's own
//! handles would read nothing from it, or lose what is written.

use std::fs::File;
use std::io;
use std::os::fd::{AsFd, BorrowedFd};
use std::sync::atomic::{AtomicBool, Ordering::Relaxed};

const F_GETFD: i32 = 1;
const EBADF: i32 = 9;

extern "C" {
    fn fcntl(stream: i32, command: i32, ...) -> i32;
}

/// Whether standard input and standard output were closed at the start.
static CLOSED: [AtomicBool; 2] = [AtomicBool::new(false), AtomicBool::new(false)];

/// Runs before the runtime's own start, which opens closed streams on the null device.
#[used]
#[link_section = ".init_array"]
static AT_START: extern "C" fn() = look;

extern "C" fn look() {
    for (stream, closed) in (0..).zip(&CLOSED) {
        closed.store(unsafe { fcntl(stream, F_GETFD) } < 0, Relaxed);
    }
}

pub fn input() -> io::Result<File> {
    file(&CLOSED[0], io::stdin().as_fd())
}

pub fn output() -> io::Result<File> {
    file(&CLOSED[1], io::stdout().as_fd())
}

fn file(closed: &AtomicBool, stream: BorrowedFd) -> io::Result<File> {
    if closed.load(Relaxed) {
        return Err(io::Error::from_raw_os_error(EBADF));
    }
    Ok(File::from(stream.try_clone_to_owned()?))
}
