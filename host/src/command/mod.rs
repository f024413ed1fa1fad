//! The command's parts. Bytes are handed to the library and what comes back is printed: nothing here decides what a recording holds.
mod arguments;
mod claims;
mod columns;
mod convert;
mod events;
mod formats;
mod header;
mod help;
mod info;
mod join;
mod memory;
mod names;
mod options;
mod out;
mod output;
mod progress;
mod recording;
mod refusals;
mod rows;
mod selection;
mod signals;
mod since;
mod standard;
mod view;

use arguments::Request;
use std::ffi::OsString;
use std::process::ExitCode;

/// Why the command ends without having done all that was asked.
pub enum Failure {
    /// The arguments ask for nothing that there is.
    Usage(String),
    /// What was asked for could do harm. The message says what to do.
    Declined(String),
    /// A refusal, or a file or memory that was not to be had.
    Failed(String),
    /// Nobody reads standard output any more.
    Unread,
}

impl From<String> for Failure {
    fn from(usage: String) -> Failure {
        Failure::Usage(usage)
    }
}

/// Does what the arguments ask for; the status is 0, 1 where it failed and 2 where the arguments are wrong or what they ask for is declined.
pub fn run(arguments: &[OsString]) -> ExitCode {
    match arguments::request(arguments).and_then(carry_out) {
        Ok(()) => ExitCode::SUCCESS,
        Err(Failure::Usage(message)) => {
            output::tell(&format!("{message}\ntry {} --help", names::called()));
            ExitCode::from(2)
        }
        Err(Failure::Declined(message)) => {
            output::tell(&message);
            ExitCode::from(2)
        }
        Err(Failure::Failed(message)) => {
            output::tell(&message);
            ExitCode::FAILURE
        }
        // `| head` has seen enough, and that is no failure. Rust ignores the signal that would end other programs here.
        Err(Failure::Unread) => ExitCode::SUCCESS,
    }
}

fn carry_out(request: Request) -> Result<(), Failure> {
    output::is_there()?;
    match request {
        Request::Print(text) => output::write(text.as_bytes()),
        Request::Info(source, view) => info::print(&source, &view),
        Request::Rows(source, view, lines) => rows::print(&source, &view, &lines),
        Request::Convert(source, selection, target, out) => convert::convert(&source, &selection, target, &out),
    }
}
