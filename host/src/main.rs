//! The command `fryskelom`: what a recording holds, its rows as text, and its words written anew.
mod command;

use std::process::ExitCode;

fn main() -> ExitCode {
    command::run(&std::env::args_os().skip(1).collect::<Vec<_>>())
}
