//! Long recordings, little memory, and a standard output that takes no more.
use super::inputs::{dat, DAT_ROWS};
use super::run::{command, files, folder, run, run_after, run_fed, run_on, Run, BINARY};
use std::fs::{self, File};
use std::io::{BufRead, BufReader, Read, Write};
use std::path::Path;
use std::process::{Command, Stdio};
use std::time::Duration;
use trials::samples::{self, evt3, Numbers};

/// A file of zeros: as EVT2 words pixels before the clock, which give no rows.
fn zeros(folder: &Path, length: u64) {
    File::create(folder.join("recording")).and_then(|file| file.set_len(length)).expect("a file for the test");
}

/// A file that is too long is refused by its length, and a stream by what was read of it.
#[test]
fn the_longest_input() {
    let folder = folder("longest");
    zeros(&folder, 1_073_741_824 + 5_000);
    let unread = "not read, since the file is too long";
    let message = |name: &str| {
        format!(
            "refused 1: the input is longer than 1073741824 bytes\n\
             at byte 0 of {name} (counted from 0); 0 rows were finished before it\n\
             what to do: record in shorter parts, or cut the file by time with the camera maker's software (metavision_file_cutter for RAW \
             files)\n"
        )
    };
    // no memory for so many bytes: they are not read
    let within = |arguments: &[&str]| run_within(&folder, 100_000, arguments);
    for (format, header) in [("evt2", "none"), ("raw-evt3", unread), ("aedat", unread)] {
        let run = within(&["info", "recording", "--format", format]);
        let start = format!("size: 1073746824 bytes\nheader: {header}\npicture");
        assert!(run.text().contains(&start) && run.text().contains("events: 0 before the reading stopped"), "{run:?}");
        assert_eq!((run.status, run.stderr), (Some(1), message("recording")), "{format}");
    }
    within(&["rows", "recording", "--format", "evt2"]).failed(&message("recording"));
    within(&["rows", "recording", "--format", "raw-evt2"]).failed(&message("recording"));
    // nor is any word of them joined
    within(&["rows", "recording", "--format", "evt3", "--join", "8"]).failed(&message("recording"));
    within(&["rows", "recording", "--format", "raw-evt3", "--join", "7"]).failed(&message("recording"));
    within(&["convert", "recording", "out", "--format", "evt2", "--to", "evt2"]).failed(&message("recording"));
    run_after(&folder, "ulimit -v 100000; exec < recording", &["rows", "-", "--format", "evt2"]).failed(&message("standard input"));
    // of which another program has read so much that the rest is not too long
    let run = run_after(&folder, "exec < recording; dd bs=5000 count=1 of=/dev/null 2> /dev/null", &["rows", "-", "--format", "evt2"]);
    assert_eq!(run.good().text(), "");
    // a stream does not say how long it is
    let run = run_after(&folder, "cat recording | \"$0\" \"$@\"; exit", &["info", "-", "--format", "evt2"]);
    assert!(run.text().contains("size: over 1073741824 bytes\n"), "{run:?}");
    assert_eq!(run.stderr, message("standard input"));
}

/// Nothing is told in the first second. Of a recording that comes more slowly its stages are told, and nothing else is changed by it.
#[test]
fn progress() {
    let folder = folder("progress");
    let mut command = command(&folder, &["rows", "-", "--format", "dat"]);
    let mut child = command.stdin(Stdio::piped()).stdout(Stdio::piped()).stderr(Stdio::piped()).spawn().expect("the command runs");
    let (mut stdin, mut stderr) = (child.stdin.take().expect("a pipe"), BufReader::new(child.stderr.take().expect("a pipe")));
    stdin.write_all(&dat()[..40]).expect("it is read");
    let mut line = String::new();
    stderr.read_line(&mut line).expect("a line");
    let seconds = line.strip_prefix("... reading: 0 bytes, after ").and_then(|line| line.strip_suffix(" s\n")?.parse::<u64>().ok());
    assert!(seconds.is_some_and(|seconds| seconds >= 1), "{line}");
    stdin.write_all(&dat()[40..]).expect("it is read");
    drop(stdin);
    assert_eq!(Run::from(child.wait_with_output().expect("the command ends")).good().text(), DAT_ROWS);
    let told = stderr.lines().collect::<Result<Vec<_>, _>>().expect("text");
    assert!(told.iter().all(|line| line.starts_with("... ")), "{told:?}");
}

/// Where a pager shows the rows, nothing is told over it, however long that takes.
#[test]
fn no_progress_over_a_pager() {
    let folder = folder("progress-pager");
    recording(&folder);
    let mut command = command(&folder, &["rows", "recording", "--format", "dat"]);
    let child = command.stdout(Stdio::piped()).stderr(Stdio::piped()).spawn().expect("the command runs");
    // rows wait in the pipe
    std::thread::sleep(Duration::from_millis(2_500));
    let run = Run::from(child.wait_with_output().expect("the command ends"));
    assert!(!run.progress.contains("printing") && run.text().lines().count() >= 1_000_000, "{}", run.progress);
}

/// On a terminal it is one line, which is gone in the end.
#[test]
fn progress_on_a_terminal() {
    let folder = folder("progress-terminal");
    fs::write(folder.join("recording"), dat()).expect("a file for the test");
    let info = run(&folder, &["info", "recording", "--format", "dat"]).good().text().replace("file: recording", "file: standard input");
    for (command, printed) in [("rows", DAT_ROWS), ("info", &info)] {
        let line = format!("(head -c 40 recording; sleep 3; tail -c +41 recording) | {BINARY} {command} - --format dat");
        // all of it on one terminal
        let output =
            Command::new("script").args(["-qec", &line, "/dev/null"]).current_dir(&folder).stdin(Stdio::null()).output().expect("script runs");
        let shown = String::from_utf8(output.stdout).expect("text").replace("\r\n", "\n");
        assert!(output.status.success() && shown.starts_with("\r\x1b[K... reading: 0 bytes, after "), "{shown:?}");
        assert!(shown.ends_with(&format!(" s\r\x1b[K{printed}")), "{shown:?}");
    }
}

/// EVT3 words that give so many rows, nearly twelve a word, so that the buffer has to grow to the most.
fn dense(rows: usize) -> Vec<u8> {
    let mut words = vec![0x8000, 0x6000, 0x0000];
    for _ in 0..rows / 2_040 {
        words.push(0x3000);
        words.extend([0x4fff; 170]);
    }
    words.extend(vec![0x2000; rows % 2_040]);
    evt3::bytes_of(&words)
}

#[test]
fn the_longest_list() {
    let folder = folder("longest-list");
    let arguments = ["convert", "recording", "out", "--format", "evt3", "--to", "evt3"];
    // the last row a microsecond after the others
    let recording = [dense(16_777_216), evt3::bytes_of(&[0x6001, 0x2000])].concat();
    run_on(&folder, &recording, &arguments).failed(
        "refused 13: a list whose length is no multiple of ten, or over 16777216 rows\n\
         recording has 16777217 rows, and at most 16777216 can be written; nothing was written\n\
         what to do: write it in parts, each to a file of its own: --until T for the first and --from T for the next; here T may be 1\n",
    );
    assert_eq!(files(&folder), ["recording"]);
    // as it says
    for (part, out, rows) in [(["--until", "1"], "first", 16_777_216), (["--from", "1"], "second", 1)] {
        let run = run(&folder, &[&["convert", "recording", out, "--format", "evt3", "--to", "evt3"], &part[..]].concat()).good();
        assert!(run.text().starts_with(&format!("{out}: written; rows: {rows} of 16777217, evt3 words: ")), "{run:?}");
    }
}

/// A DAT file of a million events, of 8 MB, whose rows take 40 MB.
fn recording(folder: &Path) {
    let bytes = samples::dat::recording((640, 480), 1_000_000, &mut Numbers::new(0x2c96_41d7_f08e_b335));
    fs::write(folder.join("recording"), bytes).expect("a file for the test");
}

/// Runs the command with no more than so many KiB of memory.
fn run_within(folder: &Path, kibibytes: u32, arguments: &[&str]) -> Run {
    run_after(folder, &format!("ulimit -v {kibibytes}"), arguments)
}

/// KiB that are enough for the file and for some of its rows.
const SOME: u32 = 48_000;

/// The number after some words of a message.
fn number_after(words: &str, run: &Run) -> usize {
    let (_, after) = run.stderr.split_once(words).unwrap_or_else(|| panic!("{}", run.stderr));
    after.split(' ').next().and_then(|number| number.parse().ok()).expect("a number")
}

#[test]
fn memory_for_some_rows() {
    let folder = folder("some-rows");
    recording(&folder);
    let all = run(&folder, &["rows", "recording", "--format", "dat"]).good();
    let run = run_within(&folder, SOME, &["rows", "recording", "--format", "dat"]);
    assert_eq!(run.status, Some(1), "{}", run.stderr);
    let rows = number_after("on this machine; ", &run);
    assert!(rows > 0 && run.text().lines().count() == rows && all.text().starts_with(run.text()), "{}", run.stderr);
    let bytes = number_after("the system refused ", &run);
    assert!(bytes > 40 * rows, "{}", run.stderr);
    let message = format!(
        "not enough memory: the system refused {bytes} bytes for rows\n\
         recording is too large to be read in one piece on this machine; {rows} rows were finished\n\
         what to do: use a machine with more memory, or record in shorter parts\n"
    );
    assert_eq!(run.stderr, message);
    // what did fit is summed up, and nothing is written
    let info = run_within(&folder, SOME, &["info", "recording", "--format", "dat"]);
    assert!(info.status == Some(1) && info.text().contains(" before the reading stopped\n"), "{info:?}");
    let convert = run_within(&folder, SOME, &["convert", "recording", "out", "--format", "dat", "--to", "evt3"]);
    assert!(convert.status == Some(1) && convert.text().is_empty(), "{convert:?}");
    assert_eq!(files(&folder), ["recording"]);
}

#[test]
fn memory_that_ends_anywhere() {
    let folder = folder("little-memory");
    recording(&folder);
    let all = run(&folder, &["rows", "recording", "--format", "dat"]).good().text().lines().count();
    for kibibytes in (16_000..80_000).step_by(1_700) {
        let run = run_within(&folder, kibibytes, &["rows", "recording", "--format", "dat"]);
        let rows = match run.status {
            Some(0) => all,
            _ if run.stderr.contains("no rows were read") => 0,
            _ => number_after("on this machine; ", &run),
        };
        assert!(matches!(run.status, Some(0 | 1)), "{kibibytes} KiB: {}", run.stderr);
        assert_eq!(run.text().lines().count(), rows, "{kibibytes} KiB: {}", run.stderr);
    }
}

/// Bins are kept beside the rows: where there is memory for the rows alone, nothing is counted.
#[test]
fn no_memory_for_bins() {
    let folder = folder("no-memory-for-bins");
    // each at a time of its own, so that bins take 48 MB beside 120 MB of rows
    let events = (0..3_000_000).flat_map(|time| samples::dat::event(time, 0, 0, 0));
    let bytes: Vec<u8> = b"% width 640\n% height 480\n".iter().copied().chain(samples::dat::TYPE_AND_SIZE).chain(events).collect();
    fs::write(folder.join("recording"), bytes).expect("a file for the test");
    for (command, done) in [("rows", "printed"), ("info", "counted")] {
        let within = |kibibytes| run_within(&folder, kibibytes, &[command, "recording", "--format=dat", "--bins=1"]);
        within(180_000).failed(&format!(
            "not enough memory: the system refused 33554432 bytes for triggers or bins\n\
             recording is too large to be read in one piece on this machine; nothing was {done}\n\
             what to do: use a machine with more memory, or record in shorter parts\n"
        ));
        assert!(within(300_000).good().text().lines().count() > 10);
    }
}

#[test]
fn no_memory_for_the_file() {
    let folder = folder("no-memory");
    zeros(&folder, 1 << 26);
    let run = run_within(&folder, 16_000, &["rows", "recording", "--format", "evt2"]);
    run.failed(
        "not enough memory: the system refused 71303168 bytes for the file\n\
         recording is too large to be read in one piece on this machine; no rows were read\n\
         what to do: use a machine with more memory, or record in shorter parts\n",
    );
}

#[test]
fn a_closed_pipe() {
    let folder = folder("closed-pipe");
    recording(&folder);
    for arguments in [&["rows", "recording", "--format", "dat"][..], &["rows", "--events", "recording", "--format", "dat"]] {
        let mut child = command(&folder, arguments).stdout(Stdio::piped()).stderr(Stdio::piped()).spawn().expect("the command runs");
        let mut start = [0; 100];
        child.stdout.take().expect("a pipe").read_exact(&mut start).expect("some rows");
        let run = Run::from(child.wait_with_output().expect("the command ends"));
        assert_eq!((run.status, run.stderr.as_str()), (Some(0), ""));
    }
}

#[test]
fn a_full_disk() {
    let folder = folder("full-disk");
    recording(&folder);
    // where there is such a device
    let Ok(full) = File::options().write(true).open("/dev/full") else { return };
    let output = command(&folder, &["rows", "recording", "--format", "dat"]).stdout(full).output().expect("the command runs");
    Run::from(output).failed("cannot write to standard output: No space left on device (os error 28)\n");
}

/// Standard output and standard input that are closed, or not open for what they are there for.
#[test]
fn nowhere_to_write_or_read() {
    let folder = folder("closed");
    fs::write(folder.join("recording"), dat()).expect("a file for the test");
    let closed = "cannot write to standard output: it is closed\n";
    let commands: [&[&str]; 5] = [
        &["--help"],
        &["refusals"],
        &["info", "recording", "--format=dat"],
        &["rows", "recording", "--format=dat"],
        &["convert", "recording", "out", "--format=dat", "--to=evt2"],
    ];
    for arguments in commands {
        run_after(&folder, "exec >&-", arguments).failed(closed);
    }
    assert_eq!(files(&folder), ["recording"]);
    let unwritable = "cannot write to standard output: Bad file descriptor (os error 9)\n";
    run_after(&folder, "exec 1< /dev/null", &["rows", "recording", "--format=dat"]).failed(unwritable);
    run_after(&folder, "exec <&-", &["rows", "-", "--format=dat"]).failed("cannot read standard input: it is closed\n");
    // where it is not asked for, it may be closed
    assert_eq!(run_after(&folder, "exec <&-", &["rows", "recording", "--format=dat"]).good().text(), DAT_ROWS);
    // what is read and thrown away is written
    run_fed(&folder, &dat(), &["rows", "-", "--format=dat"]).good();
    run_after(&folder, "exec > /dev/null", &["rows", "recording", "--format=dat"]).good();
    // usage is told all the same
    run_after(&folder, "exec >&-", &["rows"]).declined(&format!("FILE is missing: {BINARY} rows FILE\ntry {BINARY} --help\n"));
}
