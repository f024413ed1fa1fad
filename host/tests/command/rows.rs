//! `rows`: the lines of every format, from files and from standard input.
use super::inputs::{self, raw};
use super::run::{folder, run, run_fed, run_on};
use fryskelom::{read_aedat, read_dat, read_evt2, read_evt3, read_raw_evt2, read_raw_evt3, Fault};
use std::ffi::OsStr;
use std::fs;
use std::os::unix::ffi::OsStrExt;
use trials::samples::{aedat, dat, evt2, evt3, Numbers};

#[test]
fn rows_and_events_of_every_format() {
    let folder = folder("rows");
    for (format, bytes, rows, events) in inputs::all() {
        assert_eq!(run_on(&folder, &bytes, &["rows", "recording", "--format", format]).good().text(), rows, "{format}");
        assert_eq!(run_on(&folder, &bytes, &["rows", "--events", "recording", "--format", format]).good().text(), events, "{format}");
    }
}

#[test]
fn standard_input() {
    let folder = folder("standard-input");
    for (format, bytes, rows, _) in inputs::all() {
        assert_eq!(run_fed(&folder, &bytes, &["rows", "-", "--format", format]).good().text(), rows, "{format}");
    }
}

#[test]
fn a_format_by_suffix() {
    let folder = folder("suffix");
    for (name, bytes, rows) in [("a.dat", inputs::dat(), inputs::DAT_ROWS), ("b.v2.AEDAT", inputs::aedat(), inputs::AEDAT_ROWS)] {
        fs::write(folder.join(name), bytes).expect("a file");
        assert_eq!(run(&folder, &["rows", name]).good().text(), rows, "{name}");
    }
    // a format that is named counts more than the suffix
    fs::write(folder.join("words.dat"), inputs::evt3_words()).expect("a file");
    assert_eq!(run(&folder, &["rows", "words.dat", "--format=evt3"]).good().text(), inputs::EVT3_ROWS);
}

#[test]
fn any_file_name() {
    let folder = folder("names");
    let names: [&[u8]; 4] = [b"a recording, with spaces.dat", b"not \xff UTF-8.dat", b"-begins-with-a-hyphen.dat", b"--format=evt3"];
    for name in names.map(OsStr::from_bytes) {
        fs::write(folder.join(name), inputs::dat()).expect("a file");
        let arguments = [OsStr::new("rows"), OsStr::new("--format"), OsStr::new("dat"), OsStr::new("--"), name];
        assert_eq!(run(&folder, &arguments).good().text(), inputs::DAT_ROWS, "{name:?}");
    }
}

#[test]
fn width_and_height_of_bare_words() {
    let folder = folder("picture");
    let words = evt3::bytes_of(&[0x8001, 0x6002, 0x0003, 0x2805]);
    for (side, pixels, status) in [("--width", "6", 0), ("--width", "5", 1), ("--width", "0006", 0), ("--height", "4", 0), ("--height", "3", 1)] {
        let run = run_on(&folder, &words, &["rows", "recording", "--format", "evt3", side, pixels]);
        assert_eq!(run.status, Some(status), "{side} {pixels}");
    }
}

/// Which picture was taken is told where the header does not say it whole; `info` says it itself.
#[test]
fn a_picture_that_the_header_does_not_say() {
    let folder = folder("unsaid");
    let cases: [(&str, &[u8], &str); 6] = [
        ("raw-evt3", b"% width 640\n% height 480\n", ""),
        ("raw-evt3", b"% evt 3.0\n", "gives no width or height; a picture of 2048 by 2048 pixels was assumed"),
        ("raw-evt2", b"", "gives no width or height; a picture of 2048 by 2048 pixels was assumed"),
        ("raw-evt2", b"% Width: 640\n", "gives no height; a picture of 640 by 2048 pixels was assumed"),
        ("raw-evt3", b"% height 2048\n", "gives no width; a picture of 2048 by 2048 pixels was assumed"),
        ("dat", b"% Height 480\n\x00\x08", "gives no width; a picture of 16384 by 480 pixels was assumed"),
    ];
    for (format, bytes, told) in cases {
        let note = if told.is_empty() { String::new() } else { format!("note: the header of recording {told}\n") };
        run_on(&folder, bytes, &["rows", "recording", "--format", format]).noted(&note);
        run_on(&folder, bytes, &["convert", "recording", "out", "--format", format, "--to", "evt3", "--force"]).noted(&note);
        run_on(&folder, bytes, &["info", "recording", "--format", format]).good();
    }
}

/// A reader of the library.
type Reader = fn(&[u8], &mut [u32]) -> Result<usize, Fault>;

#[test]
fn the_rows_are_those_that_the_library_reads() {
    let folder = folder("library");
    let mut numbers = Numbers::new(0x1d87_2b41_ac5e_9f03);
    let (picture, events) = ((1_280, 720), 40_000);
    let words2 = evt2::recording(evt2::Scene::Mixed, picture, (1 << 32) - 500, events, &mut numbers);
    let words3 = evt3::recording(evt3::Scene::Dense, picture, 0, events, &mut numbers);
    let cases: [(&str, Vec<u8>, Reader); 6] = [
        ("evt2", words2.clone(), |bytes, rows| read_evt2(bytes, 2_048, 2_048, rows)),
        ("evt3", words3.clone(), |bytes, rows| read_evt3(bytes, 2_048, 2_048, rows)),
        ("raw-evt2", [&b"% width 1280\n% height 720\n"[..], &words2].concat(), read_raw_evt2),
        ("raw-evt3", [&b"% width 1280\n% height 720\n"[..], &words3].concat(), read_raw_evt3),
        ("dat", dat::recording(picture, events, &mut numbers), read_dat),
        ("aedat", aedat::recording(aedat::Scene::Mixed, picture, 0, events, &mut numbers), read_aedat),
    ];
    for (format, bytes, reader) in cases {
        let mut rows = vec![0; 10 * 2 * events];
        let count = reader(&bytes, &mut rows).expect("no refusal");
        assert!(count >= events, "{format}: {count} rows");
        let run = run_on(&folder, &bytes, &["rows", "recording", "--format", format]).good();
        // not assert_eq: two texts of a megabyte help nobody
        assert!(run.text() == lines(&rows[..10 * count]), "{format}");
    }
}

fn lines(rows: &[u32]) -> String {
    rows.chunks(10).map(|row| row.iter().map(u32::to_string).collect::<Vec<_>>().join(" ") + "\n").collect()
}

#[test]
fn no_rows() {
    let folder = folder("no-rows");
    for (format, bytes) in [("evt2", vec![]), ("evt3", vec![]), ("raw-evt2", raw("2.0", &[])), ("raw-evt3", raw("3.0", &[]))] {
        assert_eq!(run_on(&folder, &bytes, &["rows", "recording", "--format", format]).good().text(), "", "{format}");
    }
}
