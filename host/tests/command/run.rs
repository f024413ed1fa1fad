//! Runs the command in a folder of a test's own.
use std::ffi::OsStr;
use std::fs;
use std::io::Write;
use std::os::unix::process::CommandExt;
use std::path::{Path, PathBuf};
use std::process::{Command, Output, Stdio};

pub const BINARY: &str = env!("CARGO_BIN_EXE_fryskelom");

/// What the command is called by, in its own messages too.
pub const NAME: &str = "./fryskelom";

/// What a run left behind.
#[derive(Debug)]
pub struct Run {
    pub status: Option<i32>,
    pub stdout: Vec<u8>,
    pub stderr: String,
    /// The lines of standard error that tell of progress: how many there are depends on the machine.
    pub progress: String,
}

impl From<Output> for Run {
    fn from(output: Output) -> Run {
        let stderr = String::from_utf8(output.stderr).expect("messages are text");
        let (progress, stderr) = stderr.split_inclusive('\n').partition(|line| line.starts_with("... "));
        Run { status: output.status.code(), stdout: output.stdout, stderr, progress }
    }
}

impl Run {
    /// Standard output as text.
    pub fn text(&self) -> &str {
        std::str::from_utf8(&self.stdout).expect("what is printed is text")
    }

    /// Fails where anything is wrong.
    pub fn good(self) -> Run {
        assert_eq!((self.status, self.stderr.as_str()), (Some(0), ""), "{self:?}");
        self
    }

    /// Fails where anything but a note on standard error is wrong.
    pub fn noted(self, note: &str) -> Run {
        assert_eq!((self.status, self.stderr.as_str()), (Some(0), note), "{self:?}");
        self
    }

    /// Fails where the command has not failed with these lines and without printing anything.
    pub fn failed(self, message: &str) {
        assert_eq!((self.status, self.stderr.as_str(), self.text()), (Some(1), message, ""));
    }

    /// Fails where the command has not declined with these lines to do anything.
    pub fn declined(self, message: &str) {
        assert_eq!((self.status, self.stderr.as_str(), self.text()), (Some(2), message, ""));
    }
}

/// An empty folder.
pub fn folder(name: &str) -> PathBuf {
    trials::folder(&format!("command/{name}"))
}

/// The names of a folder's files.
pub fn files(folder: &Path) -> Vec<String> {
    let names = fs::read_dir(folder).expect("the test's folder").map(|entry| entry.expect("an entry").file_name());
    let mut names: Vec<_> = names.map(|name| name.to_string_lossy().into_owned()).collect();
    names.sort();
    names
}

/// The command with these arguments, and nothing to be read.
pub fn command<A: AsRef<OsStr>>(folder: &Path, arguments: &[A]) -> Command {
    let mut command = Command::new(BINARY);
    command.arg0(NAME).current_dir(folder).args(arguments).stdin(Stdio::null());
    command
}

/// Runs the command with these arguments.
pub fn run<A: AsRef<OsStr>>(folder: &Path, arguments: &[A]) -> Run {
    command(folder, arguments).output().expect("the command runs").into()
}

/// Runs the command on a recording that stands in a file `recording`.
pub fn run_on<A: AsRef<OsStr>>(folder: &Path, recording: &[u8], arguments: &[A]) -> Run {
    fs::write(folder.join("recording"), recording).expect("a file for the test");
    run(folder, arguments)
}

/// Runs the command with a recording on standard input.
pub fn run_fed(folder: &Path, recording: &[u8], arguments: &[&str]) -> Run {
    let mut command = command(folder, arguments);
    let mut child = command.stdin(Stdio::piped()).stdout(Stdio::piped()).stderr(Stdio::piped()).spawn().expect("the command runs");
    let mut stdin = child.stdin.take().expect("a pipe");
    std::thread::scope(|scope| {
        scope.spawn(move || stdin.write_all(recording).expect("all of it is read"));
        child.wait_with_output().expect("the command ends").into()
    })
}

/// Runs the command after some line of shell, such as a limit.
pub fn run_after(folder: &Path, line: &str, arguments: &[&str]) -> Run {
    let line = format!("{line}; exec \"$0\" \"$@\"");
    let mut shell = Command::new("sh");
    shell.current_dir(folder).args(["-c", &line, BINARY]).args(arguments).stdin(Stdio::null()).output().expect("the command runs").into()
}
