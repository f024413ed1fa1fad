//! `rows`: the rows of a recording as lines of text, or how many there are in each bin.
use super::arguments::Source;
use super::columns::{add_cell, Column};
use super::memory::Lack;
use super::progress::Progress;
use super::recording::Input;
use super::since::Edges;
use super::view::{Bin, Looked, View};
use super::{events, header, output, Failure};

/// Lines are written to standard output when they have so many bytes together.
const BYTES_AT_ONCE: usize = 1 << 18;

/// What a line holds.
pub enum Lines {
    /// Numbers with a space between, and whether their names stand above them.
    Columns(Vec<Column>, bool),
    Events,
    /// The time at which a bin begins and the number of its events, and whether the names of these stand above them.
    Bins(u64, bool),
}

/// Prints those rows of a recording that are looked at.
pub fn print(source: &Source, view: &View, lines: &Lines) -> Result<(), Failure> {
    let progress = Progress::new();
    let recording = Input::open(source)?.load(source, &progress)?;
    let reading = recording.read(&progress);
    header::note(&recording, &progress);
    if let Some(join) = &recording.join {
        progress.note(&format!("note: {}", join.lines(reading.stop).join("; ")));
    }
    let lack = |lack: Lack| Failure::Failed(lack.message("triggers or bins", &recording.name, "nothing was printed"));
    let looked = view.look(reading.numbers()).map_err(lack)?;
    looked.lack_of_edges().iter().for_each(|note| progress.note(note));
    progress.before_printing();
    progress.stage("printing", "lines");
    let mut printer = Printer { text: vec![], lines: 0, progress: &progress };
    match lines {
        Lines::Columns(columns, named) => print_columns(&looked, columns, *named, &mut printer),
        Lines::Events => looked.items().try_for_each(|item| {
            printer.line(|text| {
                events::add_line(&item, view.since.is_some(), text);
                text.push(b' ');
            })
        }),
        Lines::Bins(microseconds, named) => {
            let bins = looked.bins(*microseconds).map_err(lack)?;
            print_bins(&bins, view.since.is_some().then_some(&looked.edges), *named, &mut printer)
        }
    }?;
    printer.flush()?;
    drop(progress);
    reading.end(&recording)
}

fn print_columns(looked: &Looked, columns: &[Column], named: bool, printer: &mut Printer) -> Result<(), Failure> {
    if named {
        printer.line(|text| columns.iter().for_each(|column| add_text(column.name, text)))?;
    }
    looked.items().try_for_each(|item| printer.line(|text| columns.iter().for_each(|column| column.add(&item, text))))
}

/// Prints bins, with the time since the last edge where that was asked for.
fn print_bins(bins: &[Bin], since: Option<&Edges>, named: bool, printer: &mut Printer) -> Result<(), Failure> {
    if named {
        let names: &[&str] = if since.is_some() { &["time_us", "since_us", "events"] } else { &["time_us", "events"] };
        printer.line(|text| names.iter().for_each(|name| add_text(name, text)))?;
    }
    bins.iter().try_for_each(|&(start, count)| {
        printer.line(|text| {
            add_cell(Some(start), text);
            if let Some(edges) = since {
                add_cell(edges.last(start).map(|edge| start - edge.time), text);
            }
            add_cell(Some(count as u64), text);
        })
    })
}

/// Adds a text and a space.
fn add_text(cell: &str, text: &mut Vec<u8>) {
    text.extend_from_slice(cell.as_bytes());
    text.push(b' ');
}

/// Lines on their way to standard output.
struct Printer<'a> {
    text: Vec<u8>,
    lines: usize,
    progress: &'a Progress,
}

impl Printer<'_> {
    /// Adds a line whose cells each end with a space.
    fn line(&mut self, add: impl FnOnce(&mut Vec<u8>)) -> Result<(), Failure> {
        add(&mut self.text);
        // in place of the last space
        *self.text.last_mut().expect("a line is not empty") = b'\n';
        self.lines += 1;
        match self.text.len() < BYTES_AT_ONCE {
            true => Ok(()),
            false => self.flush(),
        }
    }

    fn flush(&mut self) -> Result<(), Failure> {
        self.progress.done(self.lines);
        output::write(&self.text)?;
        self.text.clear();
        Ok(())
    }
}
