//! Standard output and standard error.
use super::{standard, Failure};
use std::io::{self, ErrorKind, Write};

/// Fails where standard output is closed, so that nothing is begun whose result nobody would get.
pub fn is_there() -> Result<(), Failure> {
    standard::output().map(drop).map_err(|error| unwritable(&error))
}

/// Writes to standard output at once. As a file it tells every failure; Rust's own `stdout` keeps one of them to itself.
pub fn write(bytes: &[u8]) -> Result<(), Failure> {
    standard::output().and_then(|mut file| file.write_all(bytes)).map_err(|error| unwritable(&error))
}

fn unwritable(error: &io::Error) -> Failure {
    match error.kind() {
        ErrorKind::BrokenPipe => Failure::Unread,
        _ => Failure::Failed(format!("cannot write to standard output: {error}")),
    }
}

/// Writes lines to standard error. Where nobody takes them there is nobody to tell so.
pub fn tell(lines: &str) {
    let _ = writeln!(io::stderr(), "{lines}");
}
