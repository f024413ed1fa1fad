//! The command, run as a program: what it prints, its messages and its status.
#[path = "command/claims.rs"]
mod claims;
#[path = "command/convert.rs"]
mod convert;
#[path = "command/filters.rs"]
mod filters;
#[path = "command/info.rs"]
mod info;
#[path = "command/inputs.rs"]
mod inputs;
#[path = "command/join.rs"]
mod join;
#[path = "command/limits.rs"]
mod limits;
#[path = "command/out.rs"]
mod out;
#[path = "command/readme.rs"]
mod readme;
#[path = "command/refusals.rs"]
mod refusals;
#[path = "command/rows.rs"]
mod rows;
#[path = "command/run.rs"]
mod run;
#[path = "command/script.rs"]
mod script;
#[path = "command/usage.rs"]
mod usage;
