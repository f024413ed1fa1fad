//! The script `./edits`: a copy of it beside a crate with one edit, which fits or does not.
use std::fs;
use std::os::unix::fs::PermissionsExt;
use std::path::Path;
use std::process::Command;
use trials::in_repository;

/// The crate's file. It does not have Rattle's suffix: rt looks for Rattle files in the whole repository, this tree included.
const SOURCE: &str = "let a = 1;\nlet b = a + 1;\nreturn a \\n & b;\n";

const LINES: &str = "it has to have the lines file:, old: and new:, one of each in this order";

/// Edits, and why each does not fit; nothing where it does.
const EDITS: &[(&str, &str)] = &[
    ("# another sum\nfile: src/lib\nold: a + 1\nnew: a + 2\n", ""),
    // without the last newline, with nothing in the text's place, and with signs that mean something to programs
    ("file: src/lib\nold: let b = a + 1;\nnew:", ""),
    ("file: src/lib\nold: a \\n & b\nnew: a \\1 & \\& b", ""),
    // lines that are missing, twice or in another order
    ("", LINES),
    ("# nothing else\n", LINES),
    ("old: a + 1\nnew: a + 2\n", LINES),
    ("file: src/lib\nnew: a + 2\n", LINES),
    ("file: src/lib\nold: a + 1\n", LINES),
    ("file: src/lib\nold: a + 1\nold: a + 1\nnew: a + 2\n", LINES),
    ("file: src/lib\nold: a + 1\nnew: a + 2\nold: let b\nnew: let c\n", LINES),
    ("file: src/lib\nnew: a + 2\nold: a + 1\n", LINES),
    (" file: src/lib\nold: a + 1\nnew: a + 2\n", LINES),
    // the file
    ("file: src/other\nold: a + 1\nnew: a + 2\n", "crates/rows/src/other is not there"),
    ("file: lib\nold: a + 1\nnew: a + 2\n", "lib is no path under src/, specs/ or proofs/"),
    ("file: src/../src/lib\nold: a + 1\nnew: a + 2\n", "src/../src/lib is no path under src/, specs/ or proofs/"),
    // the text
    ("file: src/lib\nold: a + 2\nnew: a + 1\n", "crates/rows/src/lib does not have its old: text"),
    ("file: src/lib\nold: a  + 1\nnew: a + 2\n", "crates/rows/src/lib does not have its old: text"),
    ("file: src/lib\nold: let\nnew: set\n", "crates/rows/src/lib has its old: text more than once"),
    ("file: src/lib\nold: a + 1\nnew: a + 1\n", "old: and new: are the same"),
];

#[test]
fn edits_that_fit_and_others() {
    let tree = Path::new(env!("CARGO_TARGET_TMPDIR")).join("edits");
    let _ = fs::remove_dir_all(&tree);
    ["src", "must-fail"].iter().for_each(|folder| fs::create_dir_all(tree.join("crates/rows").join(folder)).expect("a folder"));
    fs::write(tree.join("crates/rows/src/lib"), SOURCE).expect("a file");
    fs::copy(in_repository("edits"), tree.join("edits")).expect("the script");
    fs::set_permissions(tree.join("edits"), fs::Permissions::from_mode(0o755)).expect("the script's mode");
    for (edit, why) in EDITS {
        fs::write(tree.join("crates/rows/must-fail/sum.edit"), edit).expect("a file");
        let output = Command::new(tree.join("edits")).output().expect("the script runs");
        let [stdout, stderr] = [output.stdout, output.stderr].map(|text| String::from_utf8(text).expect("text"));
        let (status, printed, told) = match *why {
            "" => (0, "must-fail edits that fit their crates: 1 of 1\n".to_string(), String::new()),
            why => (1, String::new(), format!("crates/rows/must-fail/sum.edit: {why}\nmust-fail edits that do not fit their crates: 1 of 1\n")),
        };
        assert_eq!((output.status.code(), stdout, stderr), (Some(status), printed, told), "{edit}");
    }
}
