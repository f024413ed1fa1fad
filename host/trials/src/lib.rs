//! What the library's tests and its benchmark are made of. Nothing here is a part of the library, and the library uses none of it.
use fryskelom::Refusal;
use std::hash::{DefaultHasher, Hash, Hasher};
use std::path::{Path, PathBuf};
use std::{env, fs};

/// Readers and writers made by hand for speed, which the benchmark times the library against.
pub mod fast;

/// All numbers that the C interface answers.
pub mod numbers;

/// Made-up inputs.
pub mod samples;

/// The independent implementation that tests compare with.
pub mod second;

/// The last number of a refusal: tests count from 0, which is none, to this one.
pub const LAST_REFUSAL: usize = Refusal::ALL[Refusal::ALL.len() - 1].0 as usize;

/// What stands at a path of the repository.
pub fn in_repository(path: &str) -> PathBuf {
    Path::new(env!("CARGO_MANIFEST_DIR")).join("../..").join(path)
}

/// An empty folder for a test, among the temporary files: rt reads the whole repository, and fails on a link, a Rattle file or another crates.txt that a test leaves
/// there. Every checkout has its own.
pub fn folder(name: &str) -> PathBuf {
    let mut checkout = DefaultHasher::new();
    env!("CARGO_MANIFEST_DIR").hash(&mut checkout);
    let path = env::temp_dir().join(format!("fryskelom-{:016x}", checkout.finish())).join(name);
    // it is there if the tests ran before
    let _ = fs::remove_dir_all(&path);
    fs::create_dir_all(&path).expect("a folder for the test");
    path
}
