//! Writes the recordings of `samples/`.
use std::{fs, io};
use trials::in_repository;
use trials::samples::recordings::RECORDINGS;

fn main() -> io::Result<()> {
    let folder = in_repository("samples");
    for (name, make) in RECORDINGS {
        fs::write(folder.join(name), make())?;
    }
    Ok(())
}
