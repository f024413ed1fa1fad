//! What to do about each refusal, and the messages that are made of it. What was found is the library's text.
use super::events;
use super::formats::{capitals, written, Head};
use super::help::wrapped;
use super::recording::{time_of, Recording};
use fryskelom::{read_header, Fault, Refusal, RowFault, MOST_ROWS, ROW_NUMBERS};

/// What to do where a recording is read, and where rows are written; empty where it is not refused so.
struct Rule {
    refusal: Refusal,
    /// Whether a format that was named wrongly is the first thing to look for.
    wrong_format: bool,
    reading: &'static str,
    /// What else, where rows were finished before the fault.
    with_rows: &'static str,
    writing: &'static str,
}

/// One for each refusal. What is left out is empty.
const RULES: [Rule; Refusal::ALL.len()] = [
    Rule {
        reading: "record in shorter parts, or cut the file by time with the camera maker's software (metavision_file_cutter for RAW files)",
        ..rule(Refusal::TOO_LONG)
    },
    Rule {
        reading: "lend a larger buffer: the library's documents say how large is always enough",
        writing: "lend a larger buffer; nothing has been written",
        ..rule(Refusal::NO_ROOM)
    },
    Rule {
        wrong_format: true,
        reading: "the file is damaged at this place: copy it again from the camera",
        with_rows: "or use the rows before it",
        ..rule(Refusal::RESERVED)
    },
    Rule {
        reading: "the file is cut: copy it again from the camera",
        with_rows: "the rows before this place are good",
        ..rule(Refusal::CUT)
    },
    Rule {
        reading: "the camera's clock or cable, or the file, is damaged at this place or just before it: use no time after it; try another cable and record again",
        with_rows: "do not rely on the last times before it",
        writing: "rows are written in the order of time alone, and those of this recording are not in it: use them as `rows` prints them",
        ..rule(Refusal::BAD_TIME)
    },
    Rule { wrong_format: true, reading: "check the width and height that were given or that the header says", ..rule(Refusal::OUTSIDE) },
    Rule {
        wrong_format: true,
        reading: "words were lost at this place: record again",
        with_rows: "or use the rows before it",
        ..rule(Refusal::STRAY)
    },
    Rule {
        reading: "check first that the format is right; if it is, look at the line at this place: widths and heights are whole numbers without comma or \
                  point, each said once",
        ..rule(Refusal::BAD_HEADER)
    },
    Rule {
        reading: "the file is damaged at this place: copy it again from the camera",
        with_rows: "or use the rows before it",
        ..rule(Refusal::BAD_PACKET)
    },
    Rule {
        reading: "times after this place count from another zero: record again",
        with_rows: "or use the rows before it",
        ..rule(Refusal::CLOCK_RESET)
    },
    Rule { writing: "write other words, leave such rows out by --kind, --region or --camera, or use the rows as `rows` prints them", ..rule(Refusal::BAD_ROW) },
    Rule { writing: "write it in parts, each to a file of its own: --until T for the first and --from T for the next", ..rule(Refusal::BAD_LIST) },
    Rule { reading: "give a width and a height from 1 to 2048, or leave them out", ..rule(Refusal::BAD_PICTURE) },
];

const fn rule(refusal: Refusal) -> Rule {
    Rule { refusal, wrong_format: false, reading: "", with_rows: "", writing: "" }
}

fn rule_of(refusal: Refusal) -> &'static Rule {
    RULES.iter().find(|rule| rule.refusal == refusal).expect("a rule for every refusal that the library answers")
}

/// A reader's refusal.
pub fn reading(fault: &Fault, recording: &Recording) -> String {
    let Fault { refusal, rows, place } = *fault;
    let Rule { wrong_format, reading, with_rows, .. } = rule_of(refusal);
    let format = recording.format;
    let advice = match (refusal, wrong_format) {
        (Refusal::BAD_HEADER, _) => of_header(place, recording),
        (_, true) => format!("check first that the format is right: it was read as {} ({}); if it is right, {reading}", format.name, format.title),
        (_, false) => reading.to_string(),
    };
    let also = if rows > 0 && !with_rows.is_empty() { format!("; {with_rows}") } else { String::new() };
    message(refusal, &format!("at byte {place} of {} (counted from 0); {} before it", recording.name, finished(rows)), &format!("{advice}{also}"))
}

/// What to do about a header: what has to stand at this place, and what stands there.
fn of_header(place: usize, recording: &Recording) -> String {
    let bytes = &recording.bytes;
    match recording.format.head {
        Head::Text(limit) if read_header(bytes, limit).is_ok() => format!(
            "check first that it is a DAT file: its header must be followed by the bytes 0 and 8, the type and the size of its events, and here it is {} and {}",
            bytes[place],
            bytes[place + 1]
        ),
        Head::Aedat => "check first that it is an AEDAT 3.1 file; its lines are #!AER-DAT3.1, then #Format: RAW, then others that begin with #, then \
                        #!END-HEADER, and each ends in CR LF"
            .to_string(),
        _ => rule_of(Refusal::BAD_HEADER).reading.to_string(),
    }
}

/// A writer's refusal of the rows of a recording.
pub fn writing(fault: &RowFault, name: &str, numbers: &[u32]) -> String {
    let RowFault { refusal, row } = *fault;
    let Rule { writing, .. } = rule_of(refusal);
    let row_of = |row: usize| &numbers[ROW_NUMBERS * row..][..ROW_NUMBERS];
    let (place, advice) = match refusal {
        // no row is at fault
        Refusal::BAD_LIST => (
            format!("{name} has {} rows, and at most {MOST_ROWS} can be written", numbers.len() / ROW_NUMBERS),
            format!("{writing}; here T may be {}", time_of(row_of(MOST_ROWS))),
        ),
        Refusal::BAD_ROW => (at(row, name, row_of(row)), format!("{writing}: {}", held())),
        _ => (at(row, name, row_of(row)), writing.to_string()),
    };
    message(refusal, &format!("{place}; nothing was written"), &advice)
}

fn at(index: usize, name: &str, row: &[u32]) -> String {
    format!("at row {index} of {name} (counted from 0): {}", events::line(row))
}

/// What words hold.
fn held() -> String {
    let held = written().map(|(name, words)| format!("{} holds {}", capitals([name].into_iter()), words.holds));
    held.collect::<Vec<_>>().join("; ")
}

/// The number, plain words, the place, and what to do.
fn message(refusal: Refusal, place: &str, advice: &str) -> String {
    format!("refused {}: {}\n{place}\nwhat to do: {advice}", refusal.0, refusal.text())
}

/// So many rows were finished.
pub fn finished(rows: usize) -> String {
    match rows {
        1 => "1 row was finished".to_string(),
        _ => format!("{rows} rows were finished"),
    }
}

/// All refusals.
pub fn table() -> String {
    RULES.iter().map(|rule| wrapped(&format!("{:>2}  ", rule.refusal.0), rule.refusal.text()) + &rule.advice()).collect()
}

impl Rule {
    /// What to do, in lines of their own.
    fn advice(&self) -> String {
        let first = if self.wrong_format { "check first that the format is right; if it is, " } else { "" };
        let also = if self.with_rows.is_empty() { "" } else { "; " };
        let reading = format!("{first}{}{also}{}", self.reading, self.with_rows);
        match (reading.as_str(), self.writing) {
            (advice, "") | ("", advice) => wrapped("    what to do: ", advice),
            (reading, writing) => wrapped("    what to do when reading: ", reading) + &wrapped("    what to do when writing: ", writing),
        }
    }
}
