//! What a file says of its own format in its first lines. It is held against the format that was named, and quoted where none was named; no format is
//! ever chosen by it.
use super::formats::{listed, names, Format, FORMATS};
use super::names::{shown, shown_bytes};

/// The longest line of a text header, its newline with it.
const LONGEST: usize = 256;

/// So many bytes of a file are enough for what it says of itself.
pub const ENOUGH: u64 = 1 << 16;

#[derive(Clone, PartialEq)]
pub enum Says {
    /// The words of a RAW file.
    Evt2,
    Evt3,
    Dat,
    Aedat,
    /// There is a text header, whatever it says.
    Text,
    /// A format that is not read.
    Unread(String),
}

/// A line that says something of the format.
pub struct Claim {
    says: Says,
    /// The line's number, from 1 on.
    number: usize,
    line: String,
}

/// All that a file's first bytes say of its format; the lines that tell most come first.
fn claims(bytes: &[u8]) -> Vec<Claim> {
    let lines = header_lines(bytes);
    let claim = |says, number, line| Claim { says, number, line: shown_bytes(line) };
    let telling = lines.iter().zip(1..).filter_map(|(line, number)| Some(claim(said_by(line)?, number, line)));
    // words may begin like a header by chance, though not with a line of text
    let is_text = |line: &&&[u8]| line.starts_with(b"%") && !line.iter().any(|byte| byte.is_ascii_control() && *byte != b'\t');
    let first = lines.first().filter(is_text).map(|line| claim(Says::Text, 1, line));
    telling.chain(first).collect()
}

/// The first line that says a format, and not only that there is a header.
pub fn foremost(bytes: &[u8]) -> Option<Claim> {
    claims(bytes).into_iter().find(|claim| claim.says != Says::Text)
}

/// The first line that says another format than this one.
pub fn contradiction(bytes: &[u8], format: &Format) -> Option<Claim> {
    claims(bytes).into_iter().find(|claim| !format.own.contains(&claim.says))
}

/// The lines of a text header, or the first line of an AEDAT file, without what ends them.
fn header_lines(mut bytes: &[u8]) -> Vec<&[u8]> {
    let mut lines = vec![];
    while let Some(end) = bytes.iter().take(LONGEST).position(|&byte| byte == b'\n') {
        let is_aedat = lines.is_empty() && bytes.starts_with(AEDAT);
        if !is_aedat && !bytes.starts_with(b"% ") {
            break;
        }
        lines.push(bytes[..end].trim_ascii_end());
        bytes = &bytes[end + 1..];
    }
    lines
}

/// What the first line of an AEDAT file begins with; its version follows.
const AEDAT: &[u8] = b"#!AER-DAT";

/// What a line says of the format.
fn said_by(line: &[u8]) -> Option<Says> {
    if let Some(version) = line.strip_prefix(AEDAT) {
        return Some(if version == b"3.1" { Says::Aedat } else { Says::Unread(format!("AEDAT {}", shown_bytes(version))) });
    }
    let line = String::from_utf8_lossy(line);
    let small = line.strip_prefix("% ")?.to_ascii_lowercase();
    if small.starts_with("data file containing") {
        return Some(Says::Dat);
    }
    let mut parts = small.split([' ', '\t', ';']).filter(|part| !part.is_empty());
    match parts.next()?.trim_end_matches(':') {
        "evt" => parts.next().map(evt),
        // such as `EVT3;height=720;width=1280`, or `evt 2.0`
        "format" | "data_format" => match parts.next()? {
            "evt" => parts.next().map(evt),
            name => Some(name.strip_prefix("evt").map_or_else(|| Says::Unread(shown(name.to_ascii_uppercase())), evt)),
        },
        _ => None,
    }
}

/// The words of a version.
fn evt(version: &str) -> Says {
    match version {
        "2" | "2.0" => Says::Evt2,
        "3" | "3.0" => Says::Evt3,
        "21" => Says::Unread("EVT2.1".to_string()),
        _ => Says::Unread(format!("EVT{}", shown(version.trim_end_matches(".0")))),
    }
}

impl Claim {
    /// The line as it stands in the file.
    pub fn quoted(&self) -> String {
        match self.says {
            Says::Text => format!("the file begins with a text header: {}", self.line),
            _ => format!("line {} of the file says: {}", self.number, self.line),
        }
    }

    /// What is said where no format was named.
    pub fn proposed(&self) -> String {
        let advice = match &self.says {
            Says::Unread(title) => unread(title),
            says => format!("add --format {}", listed(names_that_say(says), "", "or")),
        };
        format!("{}; {advice}", self.quoted())
    }

    /// What is said where another format was named.
    pub fn against(&self, Format { name, title, .. }: &Format) -> String {
        let advice = match &self.says {
            Says::Unread(title) => unread(title),
            says => format!("name {}", listed(names_that_say(says), "--format ", "or")),
        };
        format!("{}\nthat is not {name} ({title})\nwhat to do: {advice}; or add --force to read it as {name} all the same", self.quoted())
    }
}

/// The names of the formats whose files may say this.
fn names_that_say(says: &Says) -> impl Iterator<Item = &'static str> + use<'_> {
    FORMATS.iter().filter(|format| format.own.contains(says)).map(|format| format.name)
}

/// What is said of a format that is not read.
pub fn unread(title: &str) -> String {
    format!("{title} is not read; the formats that are read are {}", listed(names(), "", "and"))
}
