//! `info`: what a recording holds.
use super::arguments::Source;
use super::events::{self, KINDS};
use super::memory::Lack;
use super::progress::Progress;
use super::recording::{seconds, Input, Reading, Recording};
use super::view::{Item, Looked, View};
use super::{header, output, Failure};
use fryskelom::{kind, MOST_BYTES};
use std::collections::VecDeque;

/// So many triggers are listed from the first one on, and so many up to the last.
const TRIGGERS: usize = 100;

/// Prints format, size, header, picture, events and times of a recording, and then its refusal.
pub fn print(source: &Source, view: &View) -> Result<(), Failure> {
    let progress = Progress::new();
    let recording = Input::open(source)?.load(source, &progress)?;
    let reading = recording.read(&progress);
    progress.stage("counting", "rows");
    progress.done(reading.rows());
    let lack = |lack: Lack| Failure::Failed(lack.message("triggers or bins", &recording.name, "nothing was counted"));
    let about_rows = about_rows(&recording, &reading, view).map_err(lack)?;
    let joined = recording.join.iter().flat_map(|join| join.lines(reading.stop)).collect();
    let lines = [about_file(&recording), header::lines(&recording, reading.stop), joined, about_rows].concat();
    drop(progress);
    output::write((lines.join("\n") + "\n").as_bytes())?;
    reading.end(&recording)
}

fn about_file(recording: &Recording) -> Vec<String> {
    // where it is not known, no more was read
    let size = recording.length.map_or(format!("over {MOST_BYTES}"), |length| length.to_string());
    vec![
        format!("file: {}", recording.name),
        format!("format: {} ({})", recording.format.title, recording.format.name),
        format!("size: {size} bytes"),
    ]
}

fn about_rows(recording: &Recording, reading: &Reading, view: &View) -> Result<Vec<String>, Lack> {
    let looked = view.look(reading.numbers())?;
    let summary = Summary::of(looked.items());
    let part = if reading.stop.is_some() { " before the reading stopped" } else { "" };
    let mut lines = match view.selection.is_any() {
        true => vec![format!("events: {} of {} pass the filters{part}", summary.count, reading.rows())],
        false => vec![format!("events: {}{part}", summary.count)],
    };
    lines.extend(summary.kinds());
    lines.extend(summary.times());
    lines.push(format!("times out of order: {}", summary.behind));
    let counted = if recording.join.is_some() { " since it was joined" } else { "" };
    lines.extend(recording.format.wrap.map(|wrap| summary.wraps(wrap, counted)));
    lines.extend(view.since.as_ref().map(|since| format!("time since the last {}: {}", since.title(), summary.since())));
    if let Some(microseconds) = view.bins {
        lines.extend(about_bins(&looked, microseconds)?);
    }
    lines.extend(triggers(&looked));
    Ok(lines)
}

/// How many bins hold events, and the first one that holds the most.
fn about_bins(looked: &Looked, microseconds: u64) -> Result<Vec<String>, Lack> {
    let bins = looked.bins(microseconds)?;
    let mut lines = vec![format!("bins of {microseconds} µs that hold events: {}", bins.len())];
    // the last of those that are alike would be taken, so from the end
    if let Some((start, count)) = bins.iter().rev().max_by_key(|(_, count)| *count) {
        let since = looked.edges.last(*start).map_or(String::new(), |edge| format!(", {} µs after {}", start - edge.time, edge.title()));
        lines.push(format!("    most events in one: {count}, from {start} µs on{since}"));
    }
    Ok(lines)
}

/// The triggers, or the first and the last of them where they are many.
fn triggers(looked: &Looked) -> Vec<String> {
    let (mut count, mut first, mut last) = (0, vec![], VecDeque::new());
    for item in looked.items().filter(|item| item.row[0] == kind::TRIGGER) {
        count += 1;
        if count <= TRIGGERS {
            first.push(item);
            continue;
        }
        if last.len() == TRIGGERS {
            last.pop_front();
        }
        last.push_back(item);
    }
    let hidden = count - first.len() - last.len();
    let between = (hidden > 0).then(|| format!("    and {hidden} more, and then the last {TRIGGERS}:"));
    let line = |item: &Item| format!("    {}", events::line_of(item));
    [format!("triggers: {count}")].into_iter().chain(first.iter().map(line)).chain(between).chain(last.iter().map(line)).collect()
}

/// How many events there are of each kind, by its number, how many pixels of each camera, how many whose times are out of order, the smallest and the
/// largest time and time since an edge.
#[derive(Default)]
struct Summary {
    count: usize,
    kinds: [usize; 7],
    cameras: [usize; 2],
    behind: usize,
    times: Option<(u64, u64)>,
    since: Option<(u64, u64)>,
    before_edges: usize,
}

impl Summary {
    fn of<'a>(items: impl Iterator<Item = Item<'a>>) -> Summary {
        let mut summary = Summary::default();
        for Item { row, time, behind, edge } in items {
            summary.count += 1;
            summary.kinds[row[0] as usize] += 1;
            if row[0] == kind::PIXEL {
                summary.cameras[row[6] as usize] += 1;
            }
            summary.behind += usize::from(behind > 0);
            summary.times = widened(summary.times, time);
            match edge {
                Some(edge) => summary.since = widened(summary.since, time - edge.time),
                None => summary.before_edges += 1,
            }
        }
        summary
    }

    /// A line for each kind, and under pixels one for each camera where the second one has any.
    fn kinds(&self) -> Vec<String> {
        let mut lines = vec![];
        for (kind, name) in KINDS {
            lines.push(format!("    {name}: {}", self.kinds[kind as usize]));
            if kind == kind::PIXEL && self.cameras[1] > 0 {
                lines.extend(self.cameras.iter().enumerate().map(|(camera, count)| format!("        of camera {camera}: {count}")));
            }
        }
        lines
    }

    fn times(&self) -> [String; 3] {
        let Some((first, last)) = self.times else {
            return ["first time", "last time", "span"].map(|name| format!("{name}: none"));
        };
        let span = last - first;
        [format!("first time: {first} µs"), format!("last time: {last} µs"), format!("span: {span} µs, {}", seconds(span))]
    }

    /// How often a clock that wraps after so many microseconds has done so, since when. Times count every wrap, so that the first and the last one tell.
    fn wraps(&self, wrap: u64, since: &str) -> String {
        let wraps = match self.times {
            Some((first, last)) => format!("{} before the last event, {} of them before the first", last / wrap, first / wrap),
            None => "not known, since there is no event".to_string(),
        };
        format!("clock wraps{since}: {wraps}; the clock wraps every {wrap} µs")
    }

    fn since(&self) -> String {
        match self.since {
            Some((least, most)) => format!("{least} to {most} µs; events before any such edge: {}", self.before_edges),
            None => format!("none; events before any such edge: {}", self.before_edges),
        }
    }
}

/// The smallest and the largest of some numbers and one more.
fn widened(range: Option<(u64, u64)>, number: u64) -> Option<(u64, u64)> {
    let (least, most) = range.unwrap_or((number, number));
    Some((least.min(number), most.max(number)))
}
