//! Every refusal that a reader or a writer can give, reached through the command.
use super::inputs::{aedat, dat, evt3_words};
use super::readme::README;
use super::run::{folder, run, run_on};
use fryskelom::Refusal;
use trials::samples::aedat::{packet, polarity, special, Packet, END, POLARITY, SPECIAL, START};
use trials::samples::recordings::RECORDINGS;
use trials::samples::{evt2, evt3};

#[test]
fn the_table() {
    let table = run(&folder("table"), &["refusals"]).good();
    let numbers = || table.text().lines().filter(|line| !line.starts_with("    ")).map(|line| line.trim().split(' ').next()?.parse().ok());
    assert_eq!(numbers().collect::<Option<Vec<u64>>>(), Some(Refusal::ALL.map(|refusal| refusal.0).to_vec()));
    let advice = table.text().matches("    what to do").count();
    assert_eq!(advice, Refusal::ALL.len() + 2, "one for each number, and another where rows are written, for 2 and 5");
}

/// README.md has the same table, in rows of its own.
#[test]
fn the_table_of_the_readme() {
    let table = run(&folder("readme"), &["refusals"]).good();
    let mut rows: Vec<String> = vec![];
    for line in table.text().lines() {
        match line.strip_prefix("    ") {
            Some(advice) => *rows.last_mut().expect("a refusal before its advice") += &format!(" {}", advice.trim_start()),
            None => rows.push(format!("| {} |", line.trim_start().replacen("  ", " | ", 1))),
        }
    }
    let advice = [(" what to do: ", " "), (" what to do when reading: ", " reading: "), (" what to do when writing: ", "; writing: ")];
    for row in &mut rows {
        *row = advice.iter().fold(row.clone(), |row, (told, short)| row.replace(told, short)) + " |";
    }
    let (_, after) = README.split_once("## Refusals").expect("a table of refusals");
    let table: Vec<_> = after.lines().skip_while(|line| !line.starts_with("|---")).skip(1).take_while(|line| line.starts_with('|')).collect();
    assert_eq!((table, rows.len()), (rows.iter().map(String::as_str).collect(), Refusal::ALL.len()));
}

/// A recording that is refused.
struct Case {
    format: &'static str,
    bytes: Vec<u8>,
    refusal: u32,
    place: usize,
    rows: usize,
}

impl Case {
    /// The same with more bytes.
    fn and(mut self, bytes: &[u8]) -> Case {
        self.bytes.extend(bytes);
        self
    }
}

/// EVT3 words after a pixel, which are 8 bytes.
fn words3(refusal: u32, place: usize, rows: usize, words: &[u16]) -> Case {
    Case { format: "evt3", bytes: evt3::bytes_of(&[&[0x8001, 0x6002, 0x0003, 0x2805], words].concat()), refusal, place, rows }
}

/// EVT2 words after a pixel, which are 8 bytes.
fn words2(refusal: u32, place: usize, rows: usize, words: &[u32]) -> Case {
    Case { format: "evt2", bytes: evt2::bytes_of(&[&[0x8000_0001, 0x1080_2803], words].concat()), refusal, place, rows }
}

/// A file, in a format.
fn file(format: &'static str, refusal: u32, place: usize, rows: usize, parts: &[&[u8]]) -> Case {
    Case { format, bytes: parts.concat(), refusal, place, rows }
}

/// AEDAT packets after a packet of one pixel, which ends at byte 78.
fn packets(refusal: u32, place: usize, rows: usize, after: &[u8]) -> Case {
    file("aedat", refusal, place, rows, &[START, END, &packet(POLARITY, 0, &[polarity(100, 5, 3, 1)]), after])
}

fn cases() -> Vec<Case> {
    let resets = packet(SPECIAL, 0, &[special(5, 0, 0), special(6, 1, 0)]);
    vec![
        words3(3, 8, 1, &[0x9000]),
        words2(3, 12, 2, &[0x0080_2803, 0x3000_0000]),
        file("evt3", 4, 2, 0, &[&evt3_words()[..3]]),
        file("dat", 4, 38, 1, &[&dat()[..45]]),
        file("dat", 4, 0, 0, &[]),
        file("aedat", 4, 61, 0, &[&aedat()[..70]]),
        words2(4, 8, 1, &[0xd000_0000, 0xf000_0000]),
        words2(5, 8, 1, &[0x8000_0000]),
        words3(5, 8, 1, &[0x8000]),
        words3(5, 12, 2, &[0x8fff, 0x2006, 0x8800]),
        file("dat", 5, 38, 1, &[&dat()[..38], &[0; 8]]),
        packets(5, 106, 1, &packet(POLARITY, 0, &[polarity(-1, 5, 3, 1)])),
        words3(6, 10, 2, &[0x2006, 0x27ff]),
        // after a line of a slave camera, which is read
        words3(6, 12, 2, &[0x0803, 0x2006, 0x27ff]),
        file("dat", 6, 38, 1, &[&dat()[..38], &[0, 0, 0, 1, 0, 0, 0, 0x20]]),
        words2(8, 12, 1, &[0xd000_0000, 0x8000_0001]),
        words2(8, 32, 1, &[0xe000_00fe, 0xf000_0000, 0xd000_0000, 0xf000_0000, 0xf000_0000, 0xf000_0000, 0xe000_00fe]),
        file("raw-evt3", 9, 10, 0, &[b"% evt 3.0\n% width 12,500\n"]),
        file("raw-evt2", 9, 12, 0, &[b"% width 640\n% width 640\n"]),
        file("dat", 9, 28, 0, &[&dat()[..28], b"\x0c\x08"]),
        file("aedat", 9, 14, 0, &[b"#!AER-DAT3.1\r\n#Format: OTHER\r\n"]),
        packets(10, 78, 1, &Packet::new(5, 8, 0).bytes()),
        packets(11, 114, 2, &resets),
    ]
}

#[test]
fn readings() {
    let folder = folder("readings");
    for Case { format, bytes, refusal, place, rows } in cases() {
        // only the cases of 6 have a pixel outside this picture
        let picture: &[&str] = if format.starts_with("evt") { &["--width", "2047"] } else { &[] };
        let run = run_on(&folder, &bytes, &[&["rows", "recording", "--format", format], picture].concat());
        let case = format!("{refusal} at {place} of {format}: {run:?}");
        assert_eq!(run.status, Some(1), "{case}");
        // what was finished is still printed
        assert_eq!(run.text().lines().count(), rows, "{case}");
        let were = if rows == 1 { "row was" } else { "rows were" };
        let messages: Vec<_> = run.stderr.lines().filter(|line| !line.starts_with("note: ")).collect();
        let [first, second, third] = messages[..] else { panic!("{case}") };
        assert!(first.starts_with(&format!("refused {refusal}: ")), "{case}");
        assert_eq!(second, format!("at byte {place} of recording (counted from 0); {rows} {were} finished before it"), "{case}");
        assert!(third.starts_with("what to do: ") && third.len() > 20, "{case}");
    }
}

#[test]
fn whole_messages() {
    let folder = folder("whole-messages");
    let message = "refused 4: the input ends inside a word, group, event, packet or header\n\
                   at byte 2 of recording (counted from 0); 0 rows were finished before it\n\
                   what to do: the file is cut: copy it again from the camera\n";
    run_on(&folder, &evt3_words()[..3], &["rows", "recording", "--format", "evt3"]).failed(message);
    run_on(&folder, &evt3_words()[..3], &["convert", "recording", "out", "--to", "evt2", "--format", "evt3"]).failed(message);
}

/// What to do about a refusal, which depends on what was read before it and on what stands at its place.
#[test]
fn advice() {
    let folder = folder("advice");
    let damaged = "the file is damaged at this place: copy it again from the camera";
    let format = "check first that the format is right: it was read as";
    let line =
        "check first that the format is right; if it is, look at the line at this place: widths and heights are whole numbers without comma or \
                point, each said once";
    let dat_bytes =
        "check first that it is a DAT file: its header must be followed by the bytes 0 and 8, the type and the size of its events, and here it is";
    let aedat_lines = "check first that it is an AEDAT 3.1 file; its lines are #!AER-DAT3.1, then #Format: RAW, then others that begin with #, then \
                       #!END-HEADER, and each ends in CR LF";
    let cases = [
        // the format comes first, and rows are spoken of where there are any
        (words3(3, 8, 1, &[0x9000]), format!("{format} evt3 (EVT3 words); if it is right, {damaged}; or use the rows before it")),
        (file("evt3", 3, 0, 0, &[&[0x00, 0x90]]), format!("{format} evt3 (EVT3 words); if it is right, {damaged}")),
        (file("raw-evt2", 3, 0, 0, &[&[0, 0, 0, 0x30]]), format!("{format} raw-evt2 (RAW file of EVT2 words); if it is right, {damaged}")),
        (words3(4, 8, 1, &[]).and(&[7]), "the file is cut: copy it again from the camera; the rows before this place are good".to_string()),
        (file("dat", 4, 0, 0, &[]), "the file is cut: copy it again from the camera".to_string()),
        // a line, two bytes and a line of another sort
        (file("raw-evt3", 9, 10, 0, &[b"% evt 3.0\n% width 12,500\n"]), line.to_string()),
        (file("dat", 9, 0, 0, &[b"% width 12,500\n"]), line.to_string()),
        (file("dat", 9, 28, 0, &[&dat()[..28], b"\x0c\x08"]), format!("{dat_bytes} 12 and 8")),
        (file("dat", 9, 28, 0, &[&dat()[..28], b"\x00\x28and more"]), format!("{dat_bytes} 0 and 40")),
        (file("aedat", 9, 14, 0, &[b"#!AER-DAT3.1\r\n#Format: OTHER\r\n"]), aedat_lines.to_string()),
        (
            packets(11, 106, 1, &packet(SPECIAL, 0, &[special(6, 1, 0)])),
            "times after this place count from another zero: record again; or use the rows before it".to_string(),
        ),
    ];
    for (Case { format, bytes, refusal, place, rows }, advice) in cases {
        let run = run_on(&folder, &bytes, &["info", "recording", "--format", format]);
        let lines: Vec<_> = run.stderr.lines().collect();
        let were = if rows == 1 { "row was" } else { "rows were" };
        assert!(lines[0].starts_with(&format!("refused {refusal}: ")), "{run:?}");
        assert_eq!(lines[1], format!("at byte {place} of recording (counted from 0); {rows} {were} finished before it"));
        assert_eq!(lines[2..], [format!("what to do: {advice}")]);
    }
}

/// One wrong bit of a high part: the trigger under it comes 32768 µs late, the next high part is lower, and no time after that is read.
#[test]
fn a_clock_that_goes_back() {
    let folder = folder("clock-goes-back");
    let (_, make) = RECORDINGS.into_iter().find(|(name, _)| *name == "clock-goes-back.raw").expect("a sample");
    let run = run_on(&folder, &make(), &["rows", "recording", "--format", "raw-evt3", "--events"]);
    assert_eq!(run.status, Some(1));
    assert_eq!(run.text().lines().filter(|line| line.contains("trigger")).collect::<Vec<_>>(), ["62768 µs trigger channel 0 rising"]);
    assert_eq!(
        run.stderr,
        "refused 5: a time goes back, is negative or passes the limit\n\
         at byte 544 of recording (counted from 0); 69 rows were finished before it\n\
         what to do: the camera's clock or cable, or the file, is damaged at this place or just before it: use no time after it; try another cable \
         and record again; do not rely on the last times before it\n"
    );
}

#[test]
fn files_that_cannot_be_read() {
    let folder = folder("unreadable");
    run(&folder, &["rows", "not there.dat"]).failed("cannot read not there.dat: No such file or directory (os error 2)\n");
    run(&folder, &["info", ".", "--format", "dat"]).failed("cannot read .: Is a directory (os error 21)\n");
}
