//! Signals that end the command while it writes a file: the unfinished file is removed first.
use std::ffi::{c_char, c_int, CString};
use std::io;
use std::os::unix::ffi::OsStrExt;
use std::path::Path;
use std::ptr;
use std::sync::atomic::{AtomicPtr, Ordering};

/// The path of the file that is being written, while there is one.
static UNFINISHED: AtomicPtr<c_char> = AtomicPtr::new(ptr::null_mut());

extern "C" {
    // of the C library, which Rust's own links; all of them may be called while a signal is handled
    fn signal(number: c_int, handler: usize) -> usize;
    fn raise(number: c_int) -> c_int;
    fn unlink(path: *const c_char) -> c_int;
}

/// The hang-up of a terminal, its interrupt key, and what `kill` sends: the same numbers on every Unix.
const SIGNALS: [c_int; 3] = [1, 2, 15];

/// What a signal does by itself, and nothing.
const DEFAULT: usize = 0;
const IGNORED: usize = 1;

/// Removes the unfinished file, and then lets the signal end the command, as it would have.
extern "C" fn end(number: c_int) {
    let path = UNFINISHED.load(Ordering::SeqCst);
    // SAFETY: the path is null or a text that is never given back, and nothing here uses the heap or a lock.
    unsafe {
        if !path.is_null() {
            unlink(path);
        }
        signal(number, DEFAULT);
        raise(number);
    }
}

/// From here on a signal that ends the command removes this file too.
pub fn remove_at_end(path: &Path) -> io::Result<()> {
    let path = CString::new(path.as_os_str().as_bytes())?;
    // kept to the end, since a signal may come at any time
    UNFINISHED.store(path.into_raw(), Ordering::SeqCst);
    for number in SIGNALS {
        // SAFETY: the handler takes the signal's number, as the system gives it.
        unsafe {
            // one that is to be ignored, as under `nohup`, stays so
            if signal(number, end as extern "C" fn(c_int) as usize) == IGNORED {
                signal(number, IGNORED);
            }
        }
    }
    Ok(())
}

/// The file is finished, or gone.
pub fn leave() {
    UNFINISHED.store(ptr::null_mut(), Ordering::SeqCst);
}
