//! `convert`: a recording's rows written anew as bare words.
use super::arguments::{Source, Target};
use super::formats::Words;
use super::memory::{zeros, Lack};
use super::out::Out;
use super::progress::Progress;
use super::recording::{time_of, Input};
use super::selection::Selection;
use super::{header, output, refusals, Failure};
use fryskelom::{MOST_ROWS, ROW_NUMBERS};
use std::ffi::OsStr;

/// Writes those rows of a recording that are selected as words to a file or a stream, all of them or none.
pub fn convert(source: &Source, selection: &Selection, (to, words): Target, out: &OsStr) -> Result<(), Failure> {
    let progress = Progress::new();
    let input = Input::open(source)?;
    let out = Out::new(out, &input, source.force)?;
    let recording = input.load(source, &progress)?;
    let mut reading = recording.read(&progress);
    reading.end(&recording)?;
    header::note(&recording, &progress);
    let all = reading.rows();
    reading.select(selection);
    progress.stage("writing", "rows");
    progress.done(reading.rows());
    let (count, bytes) = spelling(words, reading.numbers(), &recording.name)?;
    out.write(&bytes)?;
    drop(progress);
    let of = if selection.is_any() { format!(" of {all}") } else { String::new() };
    let report = format!("written; rows: {}{of}, {to} words: {count}, bytes: {}\nto read it back: --format {to}", reading.rows(), bytes.len());
    match out.leaves_standard_output() {
        true => output::write(format!("{}: {report}\n", out.name()).as_bytes()),
        false => {
            output::tell(&report);
            Ok(())
        }
    }
}

/// The number of words for a list of rows, and their bytes.
fn spelling(words: &Words, numbers: &[u32], name: &str) -> Result<(usize, Vec<u8>), Failure> {
    let lack = |lack: Lack| Failure::Failed(lack.message("words", name, "nothing was written"));
    let mut bytes = zeros(words.size * most_words(words, numbers)).map_err(lack)?;
    let count = (words.write)(numbers, &mut bytes).map_err(|fault| Failure::Failed(refusals::writing(&fault, name, numbers)))?;
    bytes.truncate(words.size * count);
    Ok((count, bytes))
}

/// As many words as are always enough for a list of rows.
fn most_words(words: &Words, numbers: &[u32]) -> usize {
    // a longer list is refused (13) before its buffer is looked at
    let rows = (numbers.len() / ROW_NUMBERS).min(MOST_ROWS);
    (words.most)(rows, numbers.chunks_exact(ROW_NUMBERS).last().map_or(0, time_of))
}
