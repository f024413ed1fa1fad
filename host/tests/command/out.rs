//! Where `convert` writes to: what it never replaces, what it keeps of a file that it replaces, streams, and signals.
use super::convert::in_order;
use super::inputs::evt2_words;
use super::run::{command, files, folder, run, run_after, run_on, Run, BINARY};
use std::fs::{self, File, Permissions};
use std::os::unix::fs::{chown, symlink, MetadataExt, PermissionsExt};
use std::os::unix::process::ExitStatusExt;
use std::path::{Path, PathBuf};
use std::process::{Child, Command, Stdio};
use std::thread;
use std::time::Duration;
use trials::samples::{dat, Numbers};

/// The arguments of a conversion of `recording`.
fn to<'a>(out: &'a str, more: &[&'a str]) -> Vec<&'a str> {
    [&["convert", "recording", out, "--format", "evt2", "--to", "evt2"], more].concat()
}

fn convert(folder: &Path, out: &str, more: &[&str]) -> Run {
    run_on(folder, &in_order(), &to(out, more))
}

fn written(folder: &Path, name: &str) -> Vec<u8> {
    fs::read(folder.join(name)).expect("it is there")
}

fn set_mode(path: PathBuf, mode: u32) {
    fs::set_permissions(path, Permissions::from_mode(mode)).expect("its mode");
}

/// By its own name, by another one, through links, and as standard input or standard output; also by force, and where it is write-protected.
#[test]
fn the_recording_is_never_changed() {
    let folder = folder("same-file");
    fs::write(folder.join("recording"), in_order()).expect("a file");
    fs::hard_link(folder.join("recording"), folder.join("another name")).expect("a link");
    symlink("recording", folder.join("link")).expect("a link");
    let names = files(&folder);
    for mode in [0o640, 0o444] {
        set_mode(folder.join("recording"), mode);
        let before = fs::metadata(folder.join("recording")).expect("it is there");
        for force in [&[][..], &["--force"]] {
            for out in ["recording", "./recording", "another name", "link"] {
                let message = format!("{out} is the recording itself, which is never changed; name another file\n");
                run(&folder, &to(out, force)).declined(&message);
                let line = [&["convert", "-", out, "--format", "evt2", "--to", "evt2"], force].concat();
                run_after(&folder, "exec < recording", &line).declined(&message);
            }
        }
        // where somebody has opened it to be written to, by a descriptor
        if mode == 0o640 {
            let opened = "exec < recording 3>> 'another name' >> 'another name'";
            let itself = "/dev/fd/3 is the recording itself, which is never changed; name another file\n";
            run_after(&folder, "exec 3>> 'another name'", &to("/dev/fd/3", &["--force"])).declined(itself);
            let lines = [
                (to("-", &["--force"]), "recording"),
                (vec!["rows", "link", "--format=evt2"], "link"),
                (vec!["info", "-", "--format=evt2"], "standard input"),
            ];
            for (line, name) in lines {
                let changed = "itself, and a recording is never changed; send it somewhere else\n";
                run_after(&folder, opened, &line).declined(&format!("standard output goes into {name} {changed}"));
            }
        }
        let after = fs::metadata(folder.join("recording")).expect("it is there");
        assert_eq!((written(&folder, "recording"), after.ino(), after.mode()), (in_order(), before.ino(), before.mode()));
        assert_eq!(files(&folder), names);
    }
}

#[test]
fn a_file_that_is_there() {
    let folder = folder("there");
    let there = |name: &str| format!("{name} already exists and is left as it is; name another file, or add --force to replace it\n");
    fs::write(folder.join("out"), "as it was").expect("a file");
    symlink("out", folder.join("link")).expect("a link");
    for out in ["out", "link"] {
        convert(&folder, out, &[]).declined(&there(out));
        assert_eq!(written(&folder, "out"), b"as it was");
    }
    // it is told before anything is read
    run(&folder, &["convert", "not there", "out", "--format", "evt2", "--to", "evt2"])
        .failed("cannot read not there: No such file or directory (os error 2)\n");
    run_on(&folder, &in_order()[..5], &to("out", &[])).declined(&there("out"));
    // by force it is replaced, and a link to it stays one
    convert(&folder, "link", &["--force"]).good();
    assert_eq!(written(&folder, "out"), in_order());
    assert!(fs::symlink_metadata(folder.join("link")).expect("it is there").is_symlink());
    assert_eq!(files(&folder), ["link", "out", "recording"]);
}

/// A file that comes while the recording is read.
#[test]
fn a_file_that_comes_meanwhile() {
    let folder = folder("meanwhile");
    let line = "(cat recording; while ! [ -e out ]; do sleep 0.01; done) | \"$0\" \"$@\"; exit";
    fs::write(folder.join("recording"), in_order()).expect("a file");
    thread::scope(|scope| {
        let run = scope.spawn(|| run_after(&folder, line, &["convert", "-", "out", "--format=evt2", "--to=evt2"]));
        thread::sleep(Duration::from_millis(200));
        fs::write(folder.join("out"), "as it was").expect("a file");
        run.join().expect("it ran").declined("out already exists and is left as it is; name another file, or add --force to replace it\n");
    });
    assert_eq!((written(&folder, "out"), files(&folder)), (b"as it was".to_vec(), vec!["out".to_string(), "recording".to_string()]));
}

#[test]
fn mode_and_owner() {
    let folder = folder("mode");
    fs::write(folder.join("out"), "as it was").expect("a file");
    let state = || {
        let metadata = fs::metadata(folder.join("out")).expect("it is there");
        (metadata.mode() & 0o7777, metadata.uid(), metadata.gid())
    };
    for mode in [0o600, 0o664, 0o757] {
        set_mode(folder.join("out"), mode);
        let before = state();
        assert_eq!(before.0, mode);
        convert(&folder, "out", &["--force"]).good();
        assert_eq!((state(), written(&folder, "out")), (before, in_order()));
    }
    // of another user, which a user who may do everything can make
    if chown(folder.join("out"), Some(12_345), Some(23_456)).is_ok() {
        convert(&folder, "out", &["--force"]).good();
        assert_eq!(state(), (0o757, 12_345, 23_456));
    }
    // write-protected, whoever asks
    fs::write(folder.join("out"), "as it was").expect("a file");
    set_mode(folder.join("out"), 0o444);
    convert(&folder, "out", &["--force"]).failed("cannot write out: it is write-protected; name another file\n");
    assert_eq!((state().0, written(&folder, "out")), (0o444, b"as it was".to_vec()));
    assert_eq!(files(&folder), ["out", "recording"]);
}

#[test]
fn what_is_no_file() {
    let folder = folder("no-file");
    fs::create_dir(folder.join("folder")).expect("a folder");
    symlink("nowhere", folder.join("link")).expect("a link");
    let names = ["folder", "link", "recording"];
    let cases = [
        ("nowhere/out", "No such file or directory (os error 2)"),
        ("recording/out", "Not a directory (os error 20)"),
        ("folder", "it is a folder; name a file in it"),
        ("folder/..", "it is a folder; name a file in it"),
        ("link", "it is a link that leads nowhere"),
        ("", "the path names no file"),
    ];
    for force in [&[][..], &["--force"]] {
        for (out, why) in cases {
            convert(&folder, out, force).failed(&format!("cannot write {out}: {why}\n"));
            assert_eq!(files(&folder), names);
        }
    }
}

const REPORT: &str = "written; rows: 3, evt2 words: 9, bytes: 36\nto read it back: --format evt2\n";

/// Standard output by each of its names, wherever it goes; other descriptors, pipes and devices. None of them is replaced.
#[test]
fn streams() {
    let folder = folder("streams");
    fs::write(folder.join("recording"), in_order()).expect("a file");
    let devices = || ["/dev/stdout", "/dev/null"].map(|path| fs::symlink_metadata(path).map(|metadata| (metadata.ino(), metadata.mode())).ok());
    let before = devices();
    for out in ["-", "/dev/stdout", "/dev/fd/1", "/proc/self/fd/1"] {
        for force in [&[][..], &["--force"]] {
            let piped = run(&folder, &to(out, force));
            assert_eq!((piped.status, piped.stdout.as_slice(), piped.stderr.as_str()), (Some(0), &in_order()[..], REPORT), "{out}");
            // to a file, after what is there
            fs::write(folder.join("all"), "before ").expect("a file");
            run_after(&folder, "exec >> all", &to(out, force)).noted(REPORT);
            assert_eq!(written(&folder, "all"), [b"before ".to_vec(), in_order()].concat(), "{out}");
        }
        // and what is written later comes after it
        let run = run_after(&folder, "exec > all; \"$0\" \"$@\"; exec printf after", &to(out, &[]));
        assert_eq!((run.stderr.as_str(), written(&folder, "all")), (REPORT, [in_order(), b"after".to_vec()].concat()), "{out}");
    }
    // another descriptor
    run_after(&folder, "printf 'before ' > all; exec 3>> all", &to("/dev/fd/3", &[])).noted(REPORT);
    assert_eq!(written(&folder, "all"), [b"before ".to_vec(), in_order()].concat());
    convert(&folder, "/dev/null", &[]).noted(REPORT);
    assert_eq!(devices(), before);
    // a pipe with a name
    assert!(Command::new("mkfifo").arg(folder.join("pipe")).status().expect("mkfifo runs").success());
    thread::scope(|scope| {
        let read = scope.spawn(|| written(&folder, "pipe"));
        convert(&folder, "pipe", &[]).noted(REPORT);
        assert_eq!(read.join().expect("it was read"), in_order());
    });
    assert_eq!(files(&folder), ["all", "pipe", "recording"]);
    if let Ok(full) = File::options().write(true).open("/dev/full") {
        drop(full);
        convert(&folder, "/dev/full", &[]).failed("cannot write /dev/full: No space left on device (os error 28)\n");
    }
}

/// On a terminal words are shown by force alone.
#[test]
fn a_terminal() {
    let folder = folder("convert-terminal");
    fs::write(folder.join("recording"), in_order()).expect("a file");
    let shown = |force: &str| {
        let line = format!("{BINARY} convert recording - --format evt2 --to evt2 {force}");
        let output =
            Command::new("script").args(["-qec", &line, "/dev/null"]).current_dir(&folder).stdin(Stdio::null()).output().expect("script runs");
        (output.status.code(), output.stdout)
    };
    assert_eq!(shown(""), (Some(2), b"words are binary and would garble the terminal; name a file, or add --force\r\n".to_vec()));
    let (status, stdout) = shown("--force");
    assert!(status == Some(0) && stdout.starts_with(&in_order()[..8]), "{stdout:?}");
}

/// Words that nobody takes are not written, unlike lines of `rows`, of which some are enough.
#[test]
fn a_closed_pipe() {
    let folder = folder("convert-closed-pipe");
    let bytes = dat::recording((640, 480), 200_000, &mut Numbers::new(0x3a91_77c2_5be0_146d));
    fs::write(folder.join("recording"), bytes).expect("a file");
    let mut command = command(&folder, &["convert", "recording", "-", "--format=dat", "--to=evt2"]);
    let mut child = command.stdout(Stdio::piped()).stderr(Stdio::piped()).spawn().expect("the command runs");
    drop(child.stdout.take());
    Run::from(child.wait_with_output().expect("the command ends")).failed("cannot write to standard output: Broken pipe (os error 32)\n");
}

fn has_part(folder: &Path) -> bool {
    files(folder).iter().any(|name| name.ends_with(".part"))
}

/// A conversion that has begun to write its file, and is stopped there. It comes after some line of shell.
fn stopped(folder: &Path, line: &str) -> Child {
    let line = format!("{line}exec \"$0\" \"$@\"");
    let arguments = ["-c", &line, BINARY, "convert", "recording", "out", "--format=dat", "--to=evt2", "--force"];
    for _ in 0..100 {
        let mut child =
            Command::new("sh").current_dir(folder).args(arguments).stdin(Stdio::null()).stdout(Stdio::null()).spawn().expect("the command runs");
        while child.try_wait().expect("its state").is_none() && !has_part(folder) {}
        signal("STOP", &child);
        if has_part(folder) {
            return child;
        }
        // it was quicker
        signal("CONT", &child);
        child.wait().expect("it ends");
    }
    panic!("no conversion was stopped while it wrote");
}

fn signal(name: &str, child: &Child) {
    let id = child.id().to_string();
    Command::new("kill").args([format!("-{name}"), id]).stderr(Stdio::null()).status().expect("kill runs");
}

/// What is there of a file is removed where a signal ends the command, which then ends by that signal. A signal that is to be ignored is.
#[test]
fn signals() {
    let folder = folder("signals");
    let bytes = dat::recording((640, 480), 4_000_000, &mut Numbers::new(0x71c4_0f3e_92a8_d5b6));
    fs::write(folder.join("recording"), bytes).expect("a file");
    for (name, number) in [("INT", 2), ("TERM", 15), ("HUP", 1)] {
        let mut child = stopped(&folder, "");
        signal(name, &child);
        signal("CONT", &child);
        assert_eq!(child.wait().expect("it ends").signal(), Some(number), "{name}");
        assert!(!has_part(&folder), "{name}: {:?}", files(&folder));
    }
    let mut child = stopped(&folder, "trap '' HUP; ");
    signal("HUP", &child);
    signal("CONT", &child);
    assert!(child.wait().expect("it ends").success());
    assert_eq!(files(&folder), ["out", "recording"]);
}

/// The name of a file is one line of a message, whatever it holds.
#[test]
fn names_of_files() {
    let folder = folder("odd-names");
    let names = [
        ("two\nlines", r"two\nlines"),
        ("red \x1b[31m", r"red \u{1b}[31m"),
        ("tab\tand\u{202e}back", r"tab\tand\u{202e}back"),
        ("a \"b\" 'c' d\\e µ", "a \"b\" 'c' d\\e µ"),
    ];
    for (name, shown) in names {
        run(&folder, &["rows", name, "--format=dat"]).failed(&format!("cannot read {shown}: No such file or directory (os error 2)\n"));
        fs::write(folder.join("recording"), evt2_words()).expect("a file");
        fs::write(folder.join(name), in_order()).expect("a file");
        convert(&folder, name, &[])
            .declined(&format!("{shown} already exists and is left as it is; name another file, or add --force to replace it\n"));
        let info = run(&folder, &["info", name, "--format=evt2"]).good();
        assert_eq!(info.text().lines().next(), Some(format!("file: {shown}").as_str()));
        let report = convert(&folder, name, &["--force"]).good();
        assert!(report.text().starts_with(&format!("{shown}: written; rows: 3")), "{report:?}");
        assert!(run(&folder, &[name]).stderr.starts_with(&format!("there is no command {shown}: ")));
        assert!(run(&folder, &["rows", "a.dat", name]).stderr.starts_with(&format!("{shown} is one argument too many: ")));
    }
}
