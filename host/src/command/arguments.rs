//! What the command line asks for: which command, of which recording, with which options.
use super::columns;
use super::formats::{bare, capitals, in_raw_files, listed, names, names_written, suffix, suffixes, written, Asked, Format, Head, Words};
use super::names::{proposal, shown};
use super::options::{Given, Opt, Syntax};
use super::recording::{name_of, unreadable};
use super::rows::Lines;
use super::selection::{self, Selection};
use super::view::{self, View};
use super::{claims, help, join, refusals, Failure};
use fryskelom::EVT_SIDE;
use std::ffi::{OsStr, OsString};
use std::fs::{self, File};
use std::io::{self, Read};

/// What was asked for.
pub enum Request {
    /// A text: help, the version or the table of refusals.
    Print(String),
    Info(Source, View),
    Rows(Source, View, Lines),
    Convert(Source, Selection, Target, OsString),
}

/// A recording's file, `-` for standard input, its format, and the picture where it was asked.
pub struct Source {
    pub path: OsString,
    pub format: &'static Format,
    pub asked: Asked,
    /// The byte at which it is joined, if not at its first word.
    pub join: Option<u64>,
    /// Whether to do what is otherwise declined.
    pub force: bool,
}

/// The name of a format, and how it is written.
pub type Target = (&'static str, &'static Words);

struct Command {
    syntax: Syntax,
    help: fn() -> String,
    request: fn(Given) -> Result<Request, Failure>,
}

/// What every command that reads a recording has.
const SOURCE: &[Opt] = &[
    Opt { name: "--format", values: &["FORMAT"] },
    Opt { name: "--width", values: &["N"] },
    Opt { name: "--height", values: &["N"] },
    Opt { name: "--force", values: &[] },
];

const LINES: &[Opt] = &[Opt { name: "--events", values: &[] }, Opt { name: "--columns", values: &["NAMES"] }, Opt { name: "--header", values: &[] }];

const TO: &[Opt] = &[Opt { name: "--to", values: &["WORDS"] }];

const COMMANDS: [Command; 4] = [
    Command {
        syntax: Syntax { name: "info", arguments: &["FILE"], options: &[SOURCE, join::OPTIONS, selection::OPTIONS, view::OPTIONS] },
        help: help::info,
        request: |given| {
            let view = View::given(&given)?;
            Ok(Request::Info(source(&given)?, view))
        },
    },
    Command {
        syntax: Syntax { name: "rows", arguments: &["FILE"], options: &[SOURCE, join::OPTIONS, selection::OPTIONS, view::OPTIONS, LINES] },
        help: help::rows,
        request: |given| {
            let (view, lines) = (View::given(&given)?, lines(&given)?);
            Ok(Request::Rows(source(&given)?, view, lines))
        },
    },
    Command {
        syntax: Syntax { name: "convert", arguments: &["IN", "OUT"], options: &[SOURCE, selection::OPTIONS, TO] },
        help: help::convert,
        request: |given| {
            let (selection, target) = (Selection::given(&given)?, target(&given)?);
            let out = out(&given, target.0)?;
            Ok(Request::Convert(source(&given)?, selection, target, out))
        },
    },
    Command {
        syntax: Syntax { name: "refusals", arguments: &[], options: &[] },
        help: help::refusals,
        request: |_| Ok(Request::Print(refusals::table())),
    },
];

/// What the command line asks for.
pub fn request(line: &[OsString]) -> Result<Request, Failure> {
    let Some((first, rest)) = line.split_first() else {
        return Err(help::short().into());
    };
    match first.to_str() {
        Some("--help" | "-h" | "help") => Ok(help_of(rest)?),
        Some("--version" | "-V") if rest.is_empty() => Ok(Request::Print(format!("fryskelom {}\n", env!("CARGO_PKG_VERSION")))),
        Some("--version" | "-V") => Err("--version stands alone".to_string().into()),
        _ => command(first)?.asked(rest),
    }
}

/// The help of all, or of one command.
fn help_of(rest: &[OsString]) -> Result<Request, String> {
    match rest {
        [] => Ok(Request::Print(help::all())),
        [name] => Ok(Request::Print((command(name)?.help)())),
        _ => Err("help is given for one command at a time".to_string()),
    }
}

fn command(name: &OsStr) -> Result<&'static Command, String> {
    let names = || COMMANDS.iter().map(|command| command.syntax.name);
    let close = || proposal(&name.to_string_lossy(), names().chain(["--help", "--version"]));
    let unknown = || format!("there is no command {}: there are {}{}", shown(name), listed(names(), "", "and"), close());
    COMMANDS.iter().find(|command| name == command.syntax.name).ok_or_else(unknown)
}

impl Command {
    /// What was asked of this command.
    fn asked(&self, line: &[OsString]) -> Result<Request, Failure> {
        let given = self.syntax.given(line)?;
        match given.help {
            true => Ok(Request::Print((self.help)())),
            false => (self.request)(given),
        }
    }
}

/// The recording that the first argument names.
fn source(given: &Given) -> Result<Source, Failure> {
    let path = given.arguments[0].clone();
    let asked = Asked { width: side(given, "--width")?, height: side(given, "--height")? };
    let format = match given.value("--format") {
        Some(name) => Format::named(name).ok_or_else(|| no_format(name))?,
        None => match Format::by_suffix(&path) {
            Some(format) => format,
            None => return Err(unknown_format(&path)),
        },
    };
    if format.head != Head::None && (asked.width.is_some() || asked.height.is_some()) {
        return Err(format!("--width and --height go with {} alone: {PICTURES}", listed(bare(), "--format ", "and")).into());
    }
    Ok(Source { path, format, asked, join: join::given(given, format)?, force: given.has("--force") })
}

/// The pixels of a side.
fn side(given: &Given, name: &str) -> Result<Option<u32>, String> {
    match given.number(name)? {
        None => Ok(None),
        Some(pixels) if (1..=EVT_SIDE.into()).contains(&pixels) => Ok(Some(pixels as u32)),
        Some(pixels) => Err(format!("{name} {pixels}: a side has 1 to {EVT_SIDE} pixels")),
    }
}

const PICTURES: &str = "a RAW or DAT file says its picture itself, and an AEDAT file has none";

/// What to name for a format.
fn naming() -> String {
    format!("name {}", listed(names(), "", "or"))
}

/// What is said of a name that is no format's.
fn no_format(name: &str) -> String {
    let small = name.to_ascii_lowercase().replace([' ', '-', '.', '_'], "");
    let unread = UNREAD.iter().find(|(names, _)| names.contains(&small.as_str()));
    match unread {
        Some((_, title)) => format!("--format {}: {}", shown(name), claims::unread(title)),
        None => format!("--format {}: there is no such format; {}{}", shown(name), naming(), proposal(&small, names())),
    }
}

/// Names of formats that exist and are not read.
const UNREAD: [(&[&str], &str); 5] = [
    (&["evt21", "rawevt21"], "EVT2.1"),
    (&["evt4", "evt40", "rawevt4"], "EVT4"),
    (&["aedat1", "aedat10"], "AEDAT 1"),
    (&["aedat2", "aedat20"], "AEDAT 2"),
    (&["aedat4", "aedat40"], "AEDAT 4"),
];

/// How to name a format that the file's name does not tell. What the file itself says is quoted, and the format still left to be named.
fn unknown_format(path: &OsStr) -> Failure {
    let name = name_of(path);
    match first_bytes(path) {
        Ok(bytes) => {
            let told = claims::foremost(&bytes).map_or_else(|| by_name(path), |claim| claim.proposed());
            format!("{name}: its format is needed; {told}").into()
        }
        Err(error) => unreadable(&name, &error),
    }
}

/// The first bytes of a file. Standard input and what is no file are left alone.
fn first_bytes(path: &OsStr) -> io::Result<Vec<u8>> {
    let mut bytes = vec![];
    if path != "-" && fs::metadata(path)?.is_file() {
        File::open(path)?.take(claims::ENOUGH).read_to_end(&mut bytes)?;
    }
    Ok(bytes)
}

/// What the name of a file leaves to be said of its format.
fn by_name(path: &OsStr) -> String {
    let words = bare().find(|name| suffix(path).as_deref() == Some(name));
    match (suffix(path).as_deref(), words) {
        (Some("raw"), _) => format!(
            "a RAW file holds {} words, and you say which: {}; no line of this one says it",
            capitals(in_raw_files()),
            listed(in_raw_files(), "--format raw-", "or")
        ),
        (_, Some(words)) => format!("if it is what its name says, add --format {words}"),
        _ => format!("{} (only names that end in {} tell it)", naming(), listed(suffixes(), ".", "or")),
    }
}

/// What a line holds. The lines of one call are of one sort.
fn lines(given: &Given) -> Result<Lines, String> {
    let names = ["--events", "--columns", "--bins"];
    let sorts: Vec<_> = names.into_iter().filter(|name| given.has(name)).collect();
    if let [one, other, ..] = sorts[..] {
        return Err(format!("{one} and {other} do not go together: each says what a line holds"));
    }
    let named = given.has("--header");
    match given.number("--bins")? {
        Some(microseconds) => Ok(Lines::Bins(microseconds, named)),
        None if given.has("--events") && named => Err("--events has no columns for --header to name".to_string()),
        None if given.has("--events") => Ok(Lines::Events),
        None => Ok(Lines::Columns(columns::given(given)?, named)),
    }
}

fn target(given: &Given) -> Result<Target, String> {
    let Some(to) = given.value("--to") else {
        return Err(format!("convert needs {}", listed(names_written(), "--to ", "or")));
    };
    let unknown = || format!("--to {}: there are no such words; name {}", shown(to), listed(names_written(), "", "or"));
    written().find(|(name, _)| name.eq_ignore_ascii_case(to)).ok_or_else(unknown)
}

/// The file to write. Its name must not tell another format than it has.
fn out(given: &Given, to: &str) -> Result<OsString, String> {
    let path = &given.arguments[1];
    let suffix = suffix(path);
    let tells = |name: &str| suffix.as_deref() == Some(name);
    match names().chain(["raw"]).find(|name| *name != to && tells(name)) {
        Some(_) => Err(format!("{}: by this name {to} words would later be taken for something else; end it in .{to}", shown(path))),
        None => Ok(path.clone()),
    }
}
