//! A recording: the bytes of its file, and the rows that the library reads from them.
use super::arguments::Source;
use super::formats::{Asked, Format, Read};
use super::join::Join;
use super::memory::{zeros, Lack};
use super::names::shown;
use super::progress::Progress;
use super::selection::Selection;
use super::{claims, refusals, standard, Failure};
use fryskelom::{Fault, Refusal, MOST_BYTES, ROW_NUMBERS};
use std::ffi::OsStr;
use std::fs::{File, Metadata};
use std::hint::black_box;
use std::io::{self, Read as _, Seek};
use std::os::unix::fs::MetadataExt;

/// How much of a file is read at once.
const PIECE: usize = 4 << 20;

/// Memory that rows leave for what is done with them.
const SPARE: usize = 8 << 20;

pub struct Recording {
    /// What messages call it.
    pub name: String,
    pub format: &'static Format,
    pub asked: Asked,
    /// Where it is joined, if not at its first word.
    pub join: Option<Join>,
    /// Nothing where a file's length alone tells that it is refused.
    pub bytes: Vec<u8>,
    /// How many bytes there are; not known of a stream that is longer than any input that is read.
    pub length: Option<u64>,
}

/// The rows finished, ten numbers each, and why there are no more.
pub struct Reading {
    numbers: Vec<u32>,
    rows: usize,
    pub stop: Option<Stop>,
}

/// Why a reading ended before the recording did.
#[derive(Clone, Copy)]
pub enum Stop {
    Refused(Fault),
    /// No larger buffer for rows was to be had than the one that is full.
    Full(Lack),
}

/// The file of a recording, or standard input, before anything of it is read.
pub struct Input {
    name: String,
    file: File,
    metadata: Metadata,
}

impl Input {
    pub fn open(source: &Source) -> Result<Input, Failure> {
        let name = name_of(&source.path);
        let opened = match source.path == "-" {
            true => standard::input(),
            false => File::open(&source.path),
        };
        let opened = opened.and_then(|file| Ok((file.metadata()?, file)));
        let (metadata, file) = opened.map_err(|error| unreadable(&name, &error))?;
        let input = Input { name, file, metadata };
        if standard::output().and_then(|output| output.metadata()).is_ok_and(|output| input.is(&output)) {
            return Err(Failure::Declined(format!(
                "standard output goes into {} itself, and a recording is never changed; send it somewhere else",
                input.name
            )));
        }
        Ok(input)
    }

    /// Whether this is the same file, whatever its names are.
    pub fn is(&self, other: &Metadata) -> bool {
        self.metadata.is_file() && (self.metadata.dev(), self.metadata.ino()) == (other.dev(), other.ino())
    }

    /// How many bytes there are to be read, where a file says it.
    fn length(&mut self) -> Option<u64> {
        // standard input may have been read by another program before
        let read = self.file.stream_position().unwrap_or(0);
        self.metadata.is_file().then(|| self.metadata.len().saturating_sub(read))
    }

    /// Reads it into memory, unless its length tells that it is refused.
    pub fn load(mut self, source: &Source, progress: &Progress) -> Result<Recording, Failure> {
        let length = self.length();
        let Input { name, file, .. } = self;
        let mut recording = Recording { name, format: source.format, asked: source.asked, join: None, bytes: vec![], length };
        if length.is_none_or(|length| length <= MOST_BYTES as u64) {
            recording.fill(file, source.force, progress)?;
        }
        if let Some(byte) = source.join {
            recording.join = Join::at(byte, &recording)?;
        }
        Ok(recording)
    }
}

impl Recording {
    /// Whether it is longer than any input that is read.
    pub fn is_too_long(&self) -> bool {
        self.length.is_none_or(|length| length > MOST_BYTES as u64)
    }

    /// Takes all bytes, up to the longest input that is read and a byte more.
    fn fill(&mut self, mut input: File, force: bool, progress: &Progress) -> Result<(), Failure> {
        progress.stage("reading", "bytes");
        // a piece more, so that the end is found without another buffer
        self.reserve(self.length.map_or(0, |length| length as usize) + PIECE)?;
        loop {
            let piece = PIECE.min(MOST_BYTES + 1 - self.bytes.len());
            self.reserve(piece)?;
            let read = input.by_ref().take(piece as u64).read_to_end(&mut self.bytes).map_err(|error| unreadable(&self.name, &error))?;
            if self.bytes.len() == read {
                self.looked_at(force, progress)?;
            }
            if read == 0 {
                // a file that has grown meanwhile is as long as what was read
                self.length = (self.bytes.len() <= MOST_BYTES).then_some(self.bytes.len() as u64);
                return Ok(());
            }
            progress.done(self.bytes.len());
        }
    }

    /// Holds what the file says of its own format against the one that was named.
    fn looked_at(&self, force: bool, progress: &Progress) -> Result<(), Failure> {
        match claims::contradiction(&self.bytes, self.format) {
            Some(claim) if force => progress.note(&format!("note: {}; it is read as {}, since --force is given", claim.quoted(), self.format.name)),
            Some(claim) => return Err(Failure::Declined(format!("{}: {}", self.name, claim.against(self.format)))),
            None => {}
        }
        Ok(())
    }

    fn reserve(&mut self, bytes: usize) -> Result<(), Failure> {
        let lack = Lack(self.bytes.len() + bytes);
        self.bytes.try_reserve(bytes).map_err(|_| Failure::Failed(lack.message("the file", &self.name, "no rows were read")))
    }

    /// Reads all rows. The buffer for them grows until they fit, or as long as there is memory.
    pub fn read(&self, progress: &Progress) -> Reading {
        progress.stage("decoding", "bytes");
        progress.done(self.bytes.len());
        if self.is_too_long() {
            let fault = Fault { refusal: Refusal::TOO_LONG, rows: 0, place: 0 };
            return Reading { numbers: vec![], rows: 0, stop: Some(Stop::Refused(fault)) };
        }
        // untouched, and given back at the end; the compiler would leave out what nobody looks at
        let _spare = match zeros::<u8>(SPARE) {
            Ok(spare) => black_box(spare),
            Err(lack) => return Reading { numbers: vec![], rows: 0, stop: Some(Stop::Full(lack)) },
        };
        let (from, read, asked): (usize, Read, Asked) = match &self.join {
            Some(join) => (join.byte, join.words.read, join.asked),
            None => (0, self.format.read, self.asked),
        };
        let bytes = &self.bytes[from..];
        let most = (self.format.most_rows)(bytes.len());
        let mut numbers = largest((self.format.first_rows)(bytes.len()));
        loop {
            let fault = match read(bytes, asked, &mut numbers) {
                Ok(rows) => return Reading { numbers, rows, stop: None },
                Err(fault) => Fault { place: from + fault.place, ..fault },
            };
            let room = numbers.len() / ROW_NUMBERS;
            if fault.refusal != Refusal::NO_ROOM || room >= most {
                return Reading { numbers, rows: fault.rows, stop: Some(Stop::Refused(fault)) };
            }
            // the full buffer is given up only when the larger one is there: if that is refused, its rows are still wanted
            match rows_of(most.min(2 * room.max(1))) {
                Ok(larger) => numbers = larger,
                Err(lack) => return Reading { numbers, rows: fault.rows, stop: Some(Stop::Full(lack)) },
            }
        }
    }
}

/// Room for so many rows.
fn rows_of(room: usize) -> Result<Vec<u32>, Lack> {
    zeros(room.saturating_mul(ROW_NUMBERS))
}

/// Room for so many rows, or for a part of them where memory is refused.
fn largest(room: usize) -> Vec<u32> {
    rows_of(room).unwrap_or_else(|_| largest(room / 2))
}

/// What messages call a file, or standard input.
pub fn name_of(path: &OsStr) -> String {
    match path == "-" {
        true => "standard input".to_string(),
        false => shown(path),
    }
}

/// What is said of a file that cannot be read.
pub fn unreadable(name: &str, error: &io::Error) -> Failure {
    Failure::Failed(format!("cannot read {name}: {error}"))
}

impl Reading {
    /// The finished rows, one after the other.
    pub fn numbers(&self) -> &[u32] {
        &self.numbers[..ROW_NUMBERS * self.rows]
    }

    pub fn rows(&self) -> usize {
        self.rows
    }

    /// Leaves those rows alone that pass the filters.
    pub fn select(&mut self, selection: &Selection) {
        let mut kept = 0;
        for row in 0..self.rows {
            if selection.holds(&self.numbers[ROW_NUMBERS * row..][..ROW_NUMBERS]) {
                self.numbers.copy_within(ROW_NUMBERS * row..ROW_NUMBERS * (row + 1), ROW_NUMBERS * kept);
                kept += 1;
            }
        }
        self.rows = kept;
    }

    /// Fails where the reading stopped, and says so.
    pub fn end(&self, recording: &Recording) -> Result<(), Failure> {
        match self.stop {
            None => Ok(()),
            Some(Stop::Refused(fault)) => Err(Failure::Failed(refusals::reading(&fault, recording))),
            Some(Stop::Full(lack)) => Err(Failure::Failed(lack.message("rows", &recording.name, &refusals::finished(self.rows)))),
        }
    }
}

/// The time of a row, in microseconds.
pub fn time_of(row: &[u32]) -> u64 {
    u64::from(row[2]) << 32 | u64::from(row[1])
}

/// Microseconds as seconds: always six decimals, so that nobody takes the point for a separator of thousands.
pub fn seconds(microseconds: u64) -> String {
    format!("{}.{:06} s", microseconds / 1_000_000, microseconds % 1_000_000)
}
