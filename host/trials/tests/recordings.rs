//! Folders of recordings, each read by the library and by the second implementation, and written by both as far as it can be: `samples/`, the
//! hard inputs kept in `tests/recordings/`, and the folder that FRYSKELOM_RECORDINGS names, absolute or from `host/` on.
#[path = "common/formats.rs"]
mod formats;

use formats::lent::hold;
use formats::{Format, AEDAT, DAT, EVT2, EVT3, RAW_EVT2, RAW_EVT3};
use fryskelom::{read_evt2, read_evt3, Fault};
use std::path::{Path, PathBuf};
use std::{env, fs};
use trials::samples::{imu, pixel, row, slave_pixel, trigger};
use trials::second::rows::{time_of, Row, MOST_ROWS};
use trials::second::words::{Reading, Writing, SIDE};
use trials::{in_repository, numbers, second};

/// Inputs that are hard to read, one for each rule and fault of each format.
const KEPT: &str = "host/trials/tests/recordings";

const NAMED_BY: &str = "FRYSKELOM_RECORDINGS";

/// Of a recording so many rows are compared, 4 GB, and then that there is no room for the next.
const MOST_ROOM: usize = 100_000_000;

/// The formats that a file is read by: any bytes are words, and its suffix may name others.
fn formats_of(path: &Path) -> Vec<Format> {
    let suffix = path.extension().unwrap_or_default().to_ascii_lowercase();
    let named = match suffix.to_str() {
        Some("raw") => vec![RAW_EVT2, RAW_EVT3],
        Some("dat") => vec![DAT],
        Some("aedat") => vec![AEDAT],
        _ => vec![],
    };
    named.into_iter().chain([EVT2, EVT3]).collect()
}

type Reader = fn(&[u8], u32, u32, &mut [u32]) -> Result<usize, Fault>;

/// A format that is written.
struct Written {
    name: &'static str,
    library: fn(&[u32], &mut [u8]) -> (u64, u64),
    second: fn(&[u32], usize) -> Writing,
    read: Reader,
}

const WRITTEN: [Written; 2] = [
    Written { name: "EVT2", library: numbers::write_evt2, second: second::evt2::write, read: read_evt2 },
    Written { name: "EVT3", library: numbers::write_evt3, second: second::evt3::write, read: read_evt3 },
];

impl Written {
    /// Writes all rows of a recording, and where that is refused, those that can be written; answers how many were.
    fn compare_rows(&self, path: &Path, rows: &[Row]) -> usize {
        if self.compare(path, rows).refusal == 0 {
            return rows.len();
        }
        let accepted = self.accepted(rows);
        assert_eq!(self.compare(path, &accepted).refusal, 0);
        accepted.len()
    }

    /// Rows that have words in this format and are no earlier than those before them, as many as a list may have.
    fn accepted(&self, rows: &[Row]) -> Vec<Row> {
        let has_words = |&[kind, _, _, ref data @ ..]: &Row| (self.second)(&row(kind, 0, *data), usize::MAX).refusal == 0;
        let mut last = 0;
        let accepted = rows.iter().filter(|row| {
            let fits = has_words(row) && time_of(row) >= last;
            last = if fits { time_of(row) } else { last };
            fits
        });
        accepted.take(MOST_ROWS).copied().collect()
    }

    /// Compares with a buffer that is long enough and one that is not, and reads back what was written.
    fn compare(&self, path: &Path, rows: &[Row]) -> Writing {
        let numbers = rows.as_flattened();
        let expected = (self.second)(numbers, usize::MAX);
        let length = expected.bytes.len();
        let input = || format!("{} rows of {}, written as {}", rows.len(), path.display(), self.name);
        let library = |out: &mut [u8]| (self.library)(numbers, out);
        hold(library, length + 1, expected.answer(), &expected.bytes, input);
        if length > 0 {
            hold(library, length - 1, (2, 0), &[], input);
        }
        if expected.refusal == 0 {
            let mut back = vec![u32::MAX; numbers.len()];
            assert_eq!((self.read)(&expected.bytes, SIDE, SIDE, &mut back), Ok(rows.len()), "{}", input());
            assert!(back == numbers, "{}: read back as other rows", input());
        }
        expected
    }
}

/// Compares a file in every format that it may be of, and says in a line what it holds.
fn compare_file(path: &Path) {
    let bytes = fs::read(path).unwrap_or_else(|error| panic!("{}: {error}", path.display()));
    let results: Vec<String> = formats_of(path).iter().map(|format| compare_as(format, path, &bytes)).collect();
    println!("{}, {} bytes: {}", path.display(), bytes.len(), results.join("; "));
}

fn compare_as(format: &Format, path: &Path, bytes: &[u8]) -> String {
    let Reading { refusal, rows, place, .. } = format.compare(path, bytes, MOST_ROOM);
    let written = WRITTEN.map(|words| format!("{} as {}", words.compare_rows(path, &rows), words.name));
    let count = rows.len();
    drop(rows);
    for room in [0, 1, count / 2] {
        format.compare(path, bytes, room);
    }
    let fault = if refusal == 0 { String::new() } else { format!(", refusal {refusal} at {place}") };
    let written = if count == 0 { String::new() } else { format!(", written {}", written.join(", ")) };
    format!("{} {count} rows{fault}{written}", format.name)
}

/// The files of a folder and of those in it.
fn files_of(folder: &Path) -> Vec<PathBuf> {
    let entries = fs::read_dir(folder).unwrap_or_else(|error| panic!("{}: {error}", folder.display()));
    let paths = entries.map(|entry| entry.expect("an entry of the folder").path());
    paths.flat_map(|path| if path.is_dir() { files_of(&path) } else { vec![path] }).collect()
}

fn compare_folder(folder: &Path) {
    let mut files = files_of(folder);
    assert!(!files.is_empty(), "no recordings in {}", folder.display());
    files.sort();
    files.iter().for_each(|path| compare_file(path));
}

#[test]
fn samples() {
    compare_folder(&in_repository("samples"));
}

#[test]
fn kept_inputs() {
    compare_folder(&in_repository(KEPT));
}

/// What is read of a kept recording.
fn read_kept(format: &Format, name: &str) -> Reading {
    let path = in_repository(KEPT).join(name);
    format.compare(&path, &fs::read(&path).expect("a kept recording"), MOST_ROOM)
}

/// Which of the kept recordings whose high part falls are refused, where, and after how many rows.
#[test]
fn falling_high_parts() {
    let cases = [
        ("one", (5, 1, 8)),
        ("2047", (5, 1, 8)),
        ("2048", (0, 2, 0)),
        ("2049", (0, 2, 0)),
        ("one-after-all-wraps", (5, 1, 4_100)),
    ];
    for (fall, answer) in cases {
        let reading = read_kept(&EVT3, &format!("high-part-falls-by-{fall}.evt3"));
        assert_eq!((reading.refusal, reading.rows.len(), reading.place), answer, "high part falls by {fall}");
    }
}

/// The words of USB packets are passed over, whatever their bits are and wherever a packet ends: they give no row and begin no group. Only inside an
/// IMU group is a packet refused, as is all else that does not continue the group.
#[test]
fn usb_packets() {
    const PIXEL: Row = pixel(66, 5, 3, 1);
    const IMU: Row = imu(66, [1, 2, 3, 4, 5, 6]);
    let cases: [(&str, (u64, usize), &[Row]); 9] = [
        // one before the clock and one at the end
        ("usb-packet-before-the-clock.evt2", (0, 0), &[PIXEL]),
        // bits above the subtype are not looked at
        ("usb-packet-with-upper-bits-set.evt2", (0, 0), &[PIXEL]),
        // without its last word it is none the worse
        ("usb-packet-cut.evt2", (0, 0), &[PIXEL]),
        // a word that is cut is refused where it stands, and not where the packet begins
        ("usb-packet-cut-inside-a-word.evt2", (4, 16), &[PIXEL]),
        // a high part and a pixel amid its words are read, and the rest are CONTINUED outside a group
        ("usb-packet-with-stray.evt2", (0, 0), &[PIXEL, PIXEL]),
        // an IMU group in place of its last two words is read
        ("usb-packet-cut-by-imu-group.evt2", (0, 0), &[PIXEL, IMU]),
        // its first word does not continue an IMU group
        ("usb-packet-inside-imu-group.evt2", (8, 16), &[PIXEL]),
        // any other OTHERS is passed over likewise
        ("others-of-another-subtype.evt2", (0, 0), &[PIXEL, PIXEL]),
        // before the clock, between events and between IMU groups of a RAW file, whose header has a line manual_events
        ("usb-packets-after-header.raw", (0, 0), &[PIXEL, trigger(64, 6, 1), IMU, IMU]),
    ];
    for (name, fault, rows) in cases {
        let reading = read_kept(if name.ends_with(".raw") { &RAW_EVT2 } else { &EVT2 }, name);
        assert_eq!(((reading.refusal, reading.place), &reading.rows[..]), (fault, rows), "{name}");
    }
}

/// Bit 11 of an ADDR_Y is the camera of all pixels up to the next ADDR_Y. It is no part of the line, and changes nothing else.
#[test]
fn cameras() {
    const TIME: u64 = 4_098;
    let both = [pixel(TIME, 5, 3, 1), slave_pixel(TIME, 5, 3, 1)];
    let alone = [slave_pixel(TIME, 5, 3, 1), slave_pixel(TIME, 16, 3, 1), slave_pixel(TIME, 17, 3, 1)];
    let in_turn = [
        pixel(TIME, 5, 3, 1),
        slave_pixel(TIME, 6, 3, 1),
        pixel(TIME, 7, 3, 1),
        // neither a time nor a trigger tells a camera, and of three ADDR_Y the last one counts
        pixel(TIME + 1, 8, 3, 1),
        trigger(TIME + 1, 1, 0),
        slave_pixel(TIME + 1, 9, 4, 1),
    ];
    let cases: [(&str, (u64, usize), &[Row]); 7] = [
        ("slave-camera.evt3", (0, 0), &both),
        ("slave-camera-alone.evt3", (0, 0), &alone),
        // a pixel before the clock gives no row, but its camera stays known
        ("slave-camera-before-the-clock.evt3", (0, 0), &alone[..1]),
        ("slave-camera-at-the-last-pixel.evt3", (0, 0), &[slave_pixel(TIME, 2_047, 2_047, 1)]),
        ("cameras-in-turn.evt3", (0, 0), &in_turn),
        // the vector that follows an ADDR_Y goes on where the last one ended
        (
            "base-goes-on-at-another-camera.evt3",
            (0, 0),
            &[pixel(TIME, 10, 3, 0), pixel(TIME, 21, 3, 0), slave_pixel(TIME, 22, 3, 0), slave_pixel(TIME, 23, 3, 0)],
        ),
        // the last line of a picture of 48, and then the one past it
        ("slave-camera-past-the-height.raw", (6, 37), &[pixel(TIME, 5, 3, 1), slave_pixel(TIME, 5, 47, 1)]),
    ];
    for (name, fault, rows) in cases {
        let reading = read_kept(if name.ends_with(".raw") { &RAW_EVT3 } else { &EVT3 }, name);
        assert_eq!(((reading.refusal, reading.place), &reading.rows[..]), (fault, rows), "{name}");
    }
}

#[test]
fn named_folder() {
    match env::var_os(NAMED_BY) {
        Some(name) => {
            let folder = in_repository("host").join(&name);
            assert!(folder.is_dir(), "{NAMED_BY} is {name:?}, and there is no such folder");
            compare_folder(&folder);
        }
        None => println!("{NAMED_BY} names no folder of recordings"),
    }
}
