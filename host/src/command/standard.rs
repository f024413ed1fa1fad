//! Standard input and standard output, as the command was given them.
use std::ffi::c_int;
use std::fs::File;
use std::io::{self, ErrorKind};
use std::os::fd::AsFd;
use std::sync::atomic::{AtomicBool, Ordering};

static INPUT_CLOSED: AtomicBool = AtomicBool::new(false);
static OUTPUT_CLOSED: AtomicBool = AtomicBool::new(false);

extern "C" {
    /// Of the C library, which Rust's own links.
    fn fcntl(file: c_int, command: c_int, ...) -> c_int;
}

/// Asks for the flags of a file that is open, and fails for one that is not.
const F_GETFD: c_int = 1;

/// Looks whether they are open. This has to come before `main`: by then Rust has opened `/dev/null` in place of those that are not, and what is written
/// there is lost without an error.
extern "C" fn look() {
    for (file, closed) in [(0, &INPUT_CLOSED), (1, &OUTPUT_CLOSED)] {
        // SAFETY: the call takes two numbers and changes nothing.
        closed.store(unsafe { fcntl(file, F_GETFD) } == -1, Ordering::Relaxed);
    }
}

/// The system calls what stands in this section before `main`.
#[used]
#[cfg_attr(not(target_vendor = "apple"), link_section = ".init_array")]
#[cfg_attr(target_vendor = "apple", link_section = "__DATA,__mod_init_func")]
static LOOK: extern "C" fn() = look;

/// Standard input.
pub fn input() -> io::Result<File> {
    file(io::stdin().as_fd().try_clone_to_owned().map(File::from), &INPUT_CLOSED)
}

/// Standard output.
pub fn output() -> io::Result<File> {
    file(io::stdout().as_fd().try_clone_to_owned().map(File::from), &OUTPUT_CLOSED)
}

fn file(file: io::Result<File>, closed: &AtomicBool) -> io::Result<File> {
    match closed.load(Ordering::Relaxed) {
        true => Err(io::Error::new(ErrorKind::NotConnected, "it is closed")),
        false => file,
    }
}
