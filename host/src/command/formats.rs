//! The formats that a recording can have. What the command knows of a format stands in its entry of the table, and nowhere else.
use super::claims::Says;
use fryskelom::{
    most_rows_aedat, most_rows_dat, most_rows_evt2, most_rows_evt3, most_words_evt2, most_words_evt3, read_aedat, read_dat, read_evt2, read_evt3,
    read_raw_evt2, read_raw_evt3, whole_evt3, write_evt2, write_evt3, Fault, RowFault, DAT_SIDE, EVT3_WRAP, EVT_SIDE,
};
use std::ffi::OsStr;
use std::fmt::Display;
use std::path::Path;

pub struct Format {
    /// The name of `--format`, and of `--to` where it is written. That of a RAW file is `raw-` and the name of its words.
    pub name: &'static str,
    /// What it is called in a sentence.
    pub title: &'static str,
    /// What the help says of it. Neighbours that have the same help share a line.
    pub help: &'static str,
    /// The suffix that tells it where no format is named.
    suffix: Option<&'static str>,
    pub head: Head,
    /// What a file of it may say of itself.
    pub own: &'static [Says],
    /// The library's reading.
    pub read: Read,
    /// Microseconds from one wrap of its clock to the next, where its clock wraps.
    pub wrap: Option<u64>,
    /// As many rows as so many bytes can give.
    pub most_rows: fn(usize) -> usize,
    /// As many rows as there is room for at first.
    pub first_rows: fn(usize) -> usize,
    /// How its words are read from one of them on, where that is possible.
    pub part_way: Option<PartWay>,
    /// How it is written, where it is.
    words: Option<Words>,
}

/// Words that can be read from any of them on.
#[derive(Clone, Copy)]
pub struct PartWay {
    /// The library's reading of the words from there on.
    pub read: Read,
    /// From which of their bytes on it misses no row.
    pub whole: fn(&[u8]) -> Option<usize>,
}

/// Reads bytes into rows. What was asked of the picture counts for bare words alone.
pub type Read = fn(&[u8], Asked, &mut [u32]) -> Result<usize, Fault>;

/// What stands before the data, and says how large the picture is.
#[derive(Clone, Copy, PartialEq)]
pub enum Head {
    /// Bare words have none.
    None,
    /// A text header, of a picture whose sides have at most so many pixels.
    Text(u32),
    /// The lines of an AEDAT file, which has no picture.
    Aedat,
}

/// The picture that was asked for bare words, which do not say it themselves.
#[derive(Clone, Copy)]
pub struct Asked {
    pub width: Option<u32>,
    pub height: Option<u32>,
}

/// The pixels of a side that was asked or left out.
fn side(asked: Option<u32>) -> u32 {
    asked.unwrap_or(EVT_SIDE)
}

/// How a format of bare words is written.
pub struct Words {
    /// What the help says of the rows that it holds.
    pub holds: &'static str,
    /// The bytes of a word.
    pub size: usize,
    /// As many words as are always enough for so many rows, the last of them at this time.
    pub most: fn(usize, u64) -> usize,
    /// The library's writing.
    pub write: fn(&[u32], &mut [u8]) -> Result<usize, RowFault>,
}

const WORDS: &str = "bare words, without a header";
const RAW: &str = "a RAW file of such words";
const TOLD: &str = "a DAT file, an AEDAT 3.1 file";

const EVT3: Read = |bytes, asked, rows| read_evt3(bytes, side(asked.width), side(asked.height), rows);
const EVT3_PART_WAY: PartWay = PartWay { read: EVT3, whole: whole_evt3 };

/// An EVT3 word can give twelve rows, but on the whole there is seldom more than one a word: room for more is asked for when it is needed.
pub const FORMATS: &[Format] = &[
    Format {
        name: "evt2",
        title: "EVT2 words",
        help: WORDS,
        suffix: None,
        head: Head::None,
        own: &[],
        read: |bytes, asked, rows| read_evt2(bytes, side(asked.width), side(asked.height), rows),
        wrap: None,
        most_rows: most_rows_evt2,
        first_rows: most_rows_evt2,
        part_way: None,
        words: Some(Words {
            holds: "pixels of camera 0 alone, below 2048 by 2048, triggers of channels 0 to 31, IMU counts",
            size: 4,
            most: |rows, _| most_words_evt2(rows),
            write: write_evt2,
        }),
    },
    Format {
        name: "evt3",
        title: "EVT3 words",
        help: WORDS,
        suffix: None,
        head: Head::None,
        own: &[],
        read: EVT3,
        wrap: Some(EVT3_WRAP),
        most_rows: most_rows_evt3,
        first_rows: |bytes| bytes / 2,
        part_way: Some(EVT3_PART_WAY),
        words: Some(Words {
            holds: "pixels of cameras 0 and 1, below 2048 by 2048, triggers of channels 0 to 15",
            size: 2,
            most: most_words_evt3,
            write: write_evt3,
        }),
    },
    Format {
        name: "raw-evt2",
        title: "RAW file of EVT2 words",
        help: RAW,
        suffix: None,
        head: Head::Text(EVT_SIDE),
        own: &[Says::Evt2, Says::Text],
        read: |bytes, _, rows| read_raw_evt2(bytes, rows),
        wrap: None,
        most_rows: most_rows_evt2,
        first_rows: most_rows_evt2,
        part_way: None,
        words: None,
    },
    Format {
        name: "raw-evt3",
        title: "RAW file of EVT3 words",
        help: RAW,
        suffix: None,
        head: Head::Text(EVT_SIDE),
        own: &[Says::Evt3, Says::Text],
        read: |bytes, _, rows| read_raw_evt3(bytes, rows),
        wrap: Some(EVT3_WRAP),
        most_rows: most_rows_evt3,
        first_rows: |bytes| bytes / 2,
        part_way: Some(EVT3_PART_WAY),
        words: None,
    },
    Format {
        name: "dat",
        title: "DAT file",
        help: TOLD,
        suffix: Some("dat"),
        head: Head::Text(DAT_SIDE),
        own: &[Says::Dat, Says::Text],
        read: |bytes, _, rows| read_dat(bytes, rows),
        wrap: None,
        most_rows: most_rows_dat,
        first_rows: most_rows_dat,
        part_way: None,
        words: None,
    },
    Format {
        name: "aedat",
        title: "AEDAT 3.1 file",
        help: TOLD,
        suffix: Some("aedat"),
        head: Head::Aedat,
        own: &[Says::Aedat],
        read: |bytes, _, rows| read_aedat(bytes, rows),
        wrap: None,
        most_rows: most_rows_aedat,
        first_rows: most_rows_aedat,
        part_way: None,
        words: None,
    },
];

impl Format {
    /// The format of a name of `--format`, in any letter case.
    pub fn named(name: &str) -> Option<&'static Format> {
        FORMATS.iter().find(|format| format.name.eq_ignore_ascii_case(name))
    }

    /// The format that the suffix of a file's name tells.
    pub fn by_suffix(path: &OsStr) -> Option<&'static Format> {
        let suffix = suffix(path)?;
        FORMATS.iter().find(|format| format.suffix == Some(&suffix))
    }
}

/// What follows the last point of a file's name, in small letters.
pub fn suffix(path: &OsStr) -> Option<String> {
    Some(Path::new(path).extension()?.to_str()?.to_ascii_lowercase())
}

/// The names of all formats.
pub fn names() -> impl Iterator<Item = &'static str> {
    FORMATS.iter().map(|format| format.name)
}

/// The names of the formats of bare words.
pub fn bare() -> impl Iterator<Item = &'static str> {
    FORMATS.iter().filter(|format| format.head == Head::None).map(|format| format.name)
}

/// The names of the formats whose words can be read from any of them on.
pub fn joinable() -> impl Iterator<Item = &'static str> {
    FORMATS.iter().filter(|format| format.part_way.is_some()).map(|format| format.name)
}

/// The names of the words that RAW files hold.
pub fn in_raw_files() -> impl Iterator<Item = &'static str> {
    names().filter_map(|name| name.strip_prefix("raw-"))
}

/// The suffixes that tell a format.
pub fn suffixes() -> impl Iterator<Item = &'static str> {
    FORMATS.iter().filter_map(|format| format.suffix)
}

/// The formats that are written: the name of each, and how.
pub fn written() -> impl Iterator<Item = (&'static str, &'static Words)> {
    FORMATS.iter().filter_map(|format| Some((format.name, format.words.as_ref()?)))
}

/// Their names.
pub fn names_written() -> impl Iterator<Item = &'static str> {
    written().map(|(name, _)| name)
}

/// Names in a sentence, each with the same before it: `.dat or .aedat`.
pub fn listed(names: impl Iterator<Item: Display>, before: &str, joint: &str) -> String {
    let mut names: Vec<String> = names.map(|name| format!("{before}{name}")).collect();
    match names.pop() {
        Some(last) if !names.is_empty() => format!("{} {joint} {last}", names.join(", ")),
        last => last.unwrap_or_default(),
    }
}

/// Such names in capitals, as sentences have them: `DAT or AEDAT`.
pub fn capitals(names: impl Iterator<Item = &'static str>) -> String {
    listed(names.map(str::to_ascii_uppercase), "", "or")
}
