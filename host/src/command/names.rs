//! Names as messages show them, and what may have been meant by a name that there is not.
use std::env;
use std::ffi::OsStr;

/// The command as it was called.
pub fn called() -> String {
    match env::args_os().next() {
        Some(name) if !name.is_empty() => shown(&name),
        _ => "fryskelom".to_string(),
    }
}

/// A file's name or an argument, in one line: what cannot be printed is escaped, so that no name ends a line or moves a terminal's cursor.
pub fn shown(name: impl AsRef<OsStr>) -> String {
    shown_bytes(name.as_ref().as_encoded_bytes())
}

/// The same of a line of a file.
pub fn shown_bytes(bytes: &[u8]) -> String {
    bytes
        .utf8_chunks()
        .flat_map(|chunk| chunk.valid().chars().map(shown_char).chain(chunk.invalid().iter().map(|byte| byte.escape_ascii().to_string())))
        .collect()
}

fn shown_char(char: char) -> String {
    match char {
        // what a text in quotes would have escaped
        '\'' | '"' | '\\' => char.to_string(),
        _ => char.escape_debug().to_string(),
    }
}

/// `; did you mean NAME?` where one of these names is close.
pub fn proposal<'a>(name: &str, names: impl Iterator<Item = &'a str>) -> String {
    closest(name, names).map_or(String::new(), |name| format!("; did you mean {name}?"))
}

/// The name that takes the fewest slips to be mistyped as this one, where they are few for its length.
fn closest<'a>(name: &str, names: impl Iterator<Item = &'a str>) -> Option<&'a str> {
    let most = (name.len() / 3).max(1);
    let slips = |known: &str| match name.len() > 3 && known.starts_with(name) {
        true => 1,
        false => slips(name.as_bytes(), known.as_bytes()),
    };
    names.map(|known| (slips(known), known)).filter(|(slips, _)| *slips <= most).min().map(|(_, known)| known)
}

/// How many letters have to be added, left out, replaced or swapped with their neighbour to get from one word to another.
fn slips(from: &[u8], to: &[u8]) -> usize {
    // rows[i][j]: from the first i letters of the one to the first j of the other
    let mut rows = vec![vec![0; to.len() + 1]; from.len() + 1];
    for i in 0..=from.len() {
        for j in 0..=to.len() {
            rows[i][j] = match (i, j) {
                (0, _) | (_, 0) => i + j,
                _ => {
                    let replaced = rows[i - 1][j - 1] + usize::from(from[i - 1] != to[j - 1]);
                    let swapped = match i > 1 && j > 1 && from[i - 1] == to[j - 2] && from[i - 2] == to[j - 1] {
                        true => rows[i - 2][j - 2] + 1,
                        false => usize::MAX,
                    };
                    (rows[i - 1][j] + 1).min(rows[i][j - 1] + 1).min(replaced).min(swapped)
                }
            };
        }
    }
    rows[from.len()][to.len()]
}
