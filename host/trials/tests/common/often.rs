//! Whether inputs have reached what they are there for.

/// Fails where something was reached by few inputs or by none.
pub fn often(what: &str, which: usize, count: usize) {
    assert!(count >= 1_000, "{what} {which}: {count} times only");
}
