//! The script `./fryskelom`: a copy of it in a tree of the same shape, with other programs in place of rt, cargo and cc.
use super::inputs::{dat, DAT_ROWS};
use super::run::{folder, Run, BINARY};
use std::env;
use std::fs::{self, File, FileTimes, Permissions};
use std::os::unix::fs::{symlink, PermissionsExt};
use std::path::{Path, PathBuf};
use std::process::Command;
use std::time::{Duration, SystemTime};
use trials::in_repository;

const LIBRARY: &str = "crates/fryskelom/out/libfryskelom.a";
const COMMAND: &str = "host/target/release/fryskelom";
const SOURCES: [&str; 7] =
    ["crates/rows/src/lib.rt", "crates/rows/specs/Row.antt", "crates/fryskelom/src/lib.rt", "crates.txt", "host/src/lib.rs", "host/build.rs", "host/Cargo.toml"];

/// Programs that say everything on standard output, and write nothing anew that is there.
const RT: &str = "#!/bin/sh
echo rt $(basename \"$PWD\") \"$@\"
mkdir -p out
[ -e out/libfryskelom.a ] || : > out/libfryskelom.a
";
const CARGO: &str = "#!/bin/sh
echo cargo $(basename \"$PWD\") \"$@\"
mkdir -p target/release
[ -e target/release/fryskelom ] || cp \"$FRYSKELOM\" target/release/fryskelom
";
const CC: &str = "#!/bin/sh\n";

/// All else that the script and these programs use. They are linked to, so that no rt, cargo or cc of the machine is found.
const TOOLS: [&str; 8] = ["bash", "basename", "cp", "dirname", "find", "mkdir", "readlink", "touch"];

/// Where a program is on this machine.
fn installed(tool: &str) -> PathBuf {
    let folders = env::var_os("PATH").expect("a path");
    env::split_paths(&folders).map(|folder| folder.join(tool)).find(|path| path.exists()).unwrap_or_else(|| panic!("{tool} is not there"))
}

/// The tree, nothing in it built, and a folder `elsewhere` with a recording.
struct Tree(PathBuf);

impl Tree {
    fn new(name: &str) -> Tree {
        let tree = Tree(folder(name));
        let script = fs::read_to_string(in_repository("fryskelom")).expect("the script");
        tree.program("the tree/fryskelom", &script);
        SOURCES.iter().for_each(|source| tree.file(&format!("the tree/{source}"), ""));
        [("rt", RT), ("cargo", CARGO), ("cc", CC)].iter().for_each(|(name, text)| tree.program(&format!("programs/{name}"), text));
        TOOLS.iter().for_each(|tool| symlink(installed(tool), tree.0.join("programs").join(tool)).expect("a link"));
        fs::create_dir(tree.0.join("elsewhere")).expect("a folder");
        fs::write(tree.0.join("elsewhere/a.dat"), dat()).expect("a file");
        tree
    }

    fn file(&self, path: &str, text: &str) {
        let path = self.0.join(path);
        fs::create_dir_all(path.parent().expect("a folder")).expect("a folder");
        fs::write(path, text).expect("a file");
    }

    fn program(&self, path: &str, text: &str) {
        self.file(path, text);
        fs::set_permissions(self.0.join(path), Permissions::from_mode(0o755)).expect("the program's mode");
    }

    /// Makes a file or folder of the tree older or newer than all that is written now.
    fn set_time(&self, path: &str, seconds: i64) {
        let shift = Duration::from_secs(seconds.unsigned_abs());
        let time = if seconds < 0 { SystemTime::now() - shift } else { SystemTime::now() + shift };
        let file = File::open(self.0.join("the tree").join(path)).expect("a file of the tree");
        file.set_times(FileTimes::new().set_modified(time)).expect("its time");
    }

    /// Runs the script by a path from `elsewhere`.
    fn run(&self, script: &str, arguments: &[&str]) -> Run {
        let mut command = Command::new(self.0.join("elsewhere").join(script));
        command.current_dir(self.0.join("elsewhere")).args(arguments).env("PATH", self.0.join("programs")).env("FRYSKELOM", BINARY);
        command.output().expect("the script runs").into()
    }

    fn rows(&self) -> Run {
        self.run("../the tree/fryskelom", &["rows", "a.dat"])
    }
}

const PROVING: &str = "proving and building the library, which takes some minutes the first time\nrt fryskelom lib\n";
const BUILDING: &str = "building the command\ncargo host build --release --offline --bin fryskelom --target-dir target\n";

#[test]
fn what_is_missing_is_built() {
    let tree = Tree::new("script");
    let run = tree.rows();
    assert_eq!((run.status, run.text()), (Some(0), DAT_ROWS), "{}", run.stderr);
    assert_eq!(run.stderr, format!("{PROVING}{BUILDING}"));
    assert_eq!(tree.rows().good().text(), DAT_ROWS);
    for (gone, told) in [(LIBRARY, format!("{PROVING}{BUILDING}")), (COMMAND, BUILDING.to_string())] {
        fs::remove_file(tree.0.join("the tree").join(gone)).expect("it was built");
        assert_eq!(tree.rows().stderr, told);
        assert_eq!(tree.rows().good().text(), DAT_ROWS);
    }
}

#[test]
fn what_is_older_than_its_sources_is_built_again() {
    let tree = Tree::new("script-again");
    tree.rows();
    for source in SOURCES {
        // everything a minute old but this source
        [LIBRARY, COMMAND].iter().for_each(|built| tree.set_time(built, -30));
        SOURCES.iter().for_each(|other| tree.set_time(other, -60));
        ["crates/rows/src", "crates/rows/specs", "crates/fryskelom/src", "host/src"].iter().for_each(|folder| tree.set_time(folder, -60));
        assert_eq!(tree.rows().good().text(), DAT_ROWS);
        tree.set_time(source, -10);
        let told = if source.starts_with("crates") { format!("{PROVING}{BUILDING}") } else { BUILDING.to_string() };
        assert_eq!(tree.rows().stderr, told, "{source}");
        // once, though it has come out the same
        assert_eq!(tree.rows().good().text(), DAT_ROWS);
    }
}

#[test]
fn a_newer_test_builds_nothing() {
    newer_builds_nothing("script-tests", &["host/tests/command.rs", "host/trials/src/lib.rs", "host/trials/Cargo.toml", "crates/rows/must-fail/limit.edit"]);
}

#[test]
fn what_rt_makes_builds_nothing() {
    newer_builds_nothing("script-out", &["crates/rows/out/incremental/kept", "crates/rows/out/rlib/stamp", "crates/fryskelom/out/kept"]);
}

fn newer_builds_nothing(name: &str, newer: &[&str]) {
    let tree = Tree::new(name);
    tree.rows();
    for file in newer {
        tree.file(&format!("the tree/{file}"), "");
        let above = Path::new(file).ancestors().filter(|path| path.starts_with("crates") && path.components().count() > 1);
        above.chain([Path::new(file)]).for_each(|path| tree.set_time(path.to_str().expect("a path of text"), 60));
        assert_eq!(tree.rows().good().text(), DAT_ROWS, "{file}");
    }
}

#[test]
fn from_anywhere() {
    let tree = Tree::new("script-link");
    symlink("../the tree/fryskelom", tree.0.join("elsewhere/link")).expect("a link");
    tree.rows();
    assert_eq!(tree.run("link", &["rows", "a.dat"]).good().text(), DAT_ROWS);
    // the status is the command's
    let run = tree.run("link", &["rows"]);
    // and so is the name that it calls itself by, which is the script's
    let name = tree.0.join("elsewhere/link").display().to_string();
    assert_eq!((run.status, run.stderr), (Some(2), format!("FILE is missing: {name} rows FILE\ntry {name} --help\n")));
}

#[test]
fn a_program_that_is_missing() {
    for missing in ["rt", "cargo", "cc"] {
        let tree = Tree::new("script-missing");
        fs::remove_file(tree.0.join("programs").join(missing)).expect("it was there");
        tree.rows().failed(&format!("./fryskelom needs {missing} to build the command, and it is not there: see README.md\n"));
    }
}

#[test]
fn a_build_that_fails() {
    let tree = Tree::new("script-fails");
    tree.program("programs/rt", "#!/bin/sh\necho not proved\nexit 7\n");
    let run = tree.rows();
    assert_eq!((run.status, run.text()), (Some(7), ""));
    assert!(run.stderr.ends_with("not proved\n"), "{}", run.stderr);
}
