//! `convert`: what is written, what it reads back as, and that nothing is left where it fails.
use super::inputs::{self, evt2_words, evt3_words, two_cameras, EVT3_ROWS};
use super::run::{files, folder, run, run_after, run_fed, run_on};
use std::fs;
use std::path::{Path, PathBuf};
use trials::samples::{aedat, dat, evt2, evt3, Numbers};

#[test]
fn reading_back() {
    let folder = folder("reading-back");
    let mut numbers = Numbers::new(0x6b1f_92c4_0d37_e85b);
    let (picture, events) = ((1_280, 720), 3_000);
    let inputs = [
        ("evt2", evt2::recording(evt2::Scene::Pixels, picture, 0, events, &mut numbers)),
        ("evt3", evt3::recording(evt3::Scene::Sparse, picture, 0, events, &mut numbers)),
        ("dat", dat::recording(picture, events, &mut numbers)),
        ("aedat", aedat::recording(aedat::Scene::Pixels, picture, 5 << 31, events, &mut numbers)),
    ];
    for (format, bytes) in inputs {
        let rows = run_on(&folder, &bytes, &["rows", "recording", "--format", format]).good();
        for words in ["evt2", "evt3"] {
            run(&folder, &["convert", "recording", "out", "--format", format, "--to", words, "--force"]).good();
            let back = run(&folder, &["rows", "out", "--format", words]).good();
            assert!(back.stdout == rows.stdout, "{format} to {words}");
        }
    }
    assert_eq!(files(&folder), ["out", "recording"]);
}

/// EVT3 words hold the pixels of both cameras. EVT2 words are refused at the first one of camera 1.
#[test]
fn cameras_read_back() {
    let folder = folder("cameras-read-back");
    let bytes = evt3::recording(evt3::Scene::TwoCameras, (1_280, 720), 0, 3_000, &mut Numbers::new(0x5e83_0b6f_d29a_417c));
    let rows = run_on(&folder, &bytes, &["rows", "recording", "--format", "evt3"]).good();
    run(&folder, &["convert", "recording", "out", "--format", "evt3", "--to", "evt3"]).good();
    assert!(run(&folder, &["rows", "out", "--format", "evt3"]).good().stdout == rows.stdout);
    let events = run(&folder, &["rows", "recording", "--format", "evt3", "--events"]).good();
    let (index, event) = events.text().lines().enumerate().find(|(_, event)| event.ends_with(" camera 1")).expect("a pixel of camera 1");
    run(&folder, &["convert", "recording", "out2", "--format", "evt3", "--to", "evt2"]).failed(&format!(
        "refused 12: a bad row, or one that the format cannot write\n\
         at row {index} of recording (counted from 0): {event}; nothing was written\n\
         {OTHER_WORDS}\n"
    ));
    assert_eq!(files(&folder), ["out", "recording"]);
}

/// The EVT2 words without the USB packet, and in the order of time: clock, trigger, IMU reading and pixel.
pub fn in_order() -> Vec<u8> {
    let words = evt2_words();
    [&words[20..24], &words[28..], &words[24..28]].concat()
}

const BACK: &str = "to read it back: --format";

#[test]
fn the_report() {
    let folder = folder("report");
    let run = run_on(&folder, &in_order(), &["convert", "recording", "a file", "--format=evt2", "--to", "evt2"]).good();
    assert_eq!(run.text(), format!("a file: written; rows: 3, evt2 words: 9, bytes: 36\n{BACK} evt2\n"));
    assert_eq!(fs::read(folder.join("a file")).expect("it was written"), in_order());
    let run = run_on(&folder, &evt3_words(), &["convert", "recording", "a file", "--format=EVT3", "--to=Evt3", "--force"]).good();
    assert_eq!(run.text(), format!("a file: written; rows: 5, evt3 words: 12, bytes: 24\n{BACK} evt3\n"));
    assert_eq!(super::run::run(&folder, &["rows", "a file", "--format", "evt3"]).good().text(), EVT3_ROWS);
}

/// A USB packet gives no row, so that it is not written either.
#[test]
fn usb_packets_are_left_out() {
    let folder = folder("usb-packets");
    let recording = [&evt2_words()[..20], &in_order()].concat();
    run_on(&folder, &recording, &["convert", "recording", "out", "--format=evt2", "--to=evt2"]).good();
    assert_eq!(fs::read(folder.join("out")).expect("it was written"), in_order());
}

#[test]
fn standard_input_and_output() {
    let run = run_fed(&folder("to-standard-output"), &in_order(), &["convert", "-", "-", "--format", "evt2", "--to", "evt2"]);
    assert_eq!((run.status, &run.stdout), (Some(0), &in_order()));
    assert_eq!(run.stderr, format!("written; rows: 3, evt2 words: 9, bytes: 36\n{BACK} evt2\n"));
}

#[test]
fn no_rows() {
    let folder = folder("convert-no-rows");
    for words in ["evt2", "evt3"] {
        let run = run_on(&folder, &[], &["convert", "recording", "out", "--format=evt2", "--to", words, "--force"]).good();
        assert!(run.text().starts_with(&format!("out: written; rows: 0, {words} words: 0, bytes: 0\n")), "{run:?}");
        assert_eq!(fs::read(folder.join("out")).expect("it was written"), []);
    }
}

#[test]
fn the_most_words_for_a_row() {
    let folder = folder("most-words");
    // an IMU reading after the clock, and a pixel after all wraps of it
    let cases = [
        (&[0x8000_0000, 0xd000_0000, 0xf000_0000, 0xf000_0000, 0xf000_0000, 0xf000_0000, 0xf000_0000][..], "evt2", "words: 7, bytes: 28"),
        (&[0x8fff_ffff, 0x1fc0_0000], "evt3", "words: 2050, bytes: 4100"),
    ];
    for (recording, words, written) in cases {
        let run = run_on(&folder, &evt2::bytes_of(recording), &["convert", "recording", "out", "--format", "evt2", "--to", words, "--force"]).good();
        assert_eq!(run.text(), format!("out: written; rows: 1, {words} {written}\n{BACK} {words}\n"));
    }
}

/// What to do about rows that the words asked for cannot hold.
const OTHER_WORDS: &str = "what to do: write other words, leave such rows out by --kind, --region or --camera, or use the rows as `rows` prints them: EVT2 holds \
                           pixels of camera 0 alone, below 2048 by 2048, triggers of channels 0 to 31, IMU counts; EVT3 holds pixels of cameras 0 and 1, below \
                           2048 by 2048, triggers of channels 0 to 15";

/// A recording, its format, the words asked for, and the message.
fn refused() -> [(Vec<u8>, &'static str, &'static str, String); 7] {
    let unwritable = "refused 12: a bad row, or one that the format cannot write";
    let imu = "65 µs IMU counts acceleration x 1.000000 y -2.000000 z 0.000000 g rotation x 1.000000 y 0.000000 z -0.007634 °/s";
    let back = "refused 5: a time goes back, is negative or passes the limit";
    let order = "what to do: rows are written in the order of time alone, and those of this recording are not in it: use them as `rows` prints them";
    let step_back = evt3::bytes_of(&[0x8001, 0x6002, 0xa001, 0x6001, 0xa000]);
    let special = [aedat::START, aedat::END, &aedat::packet(aedat::SPECIAL, 0, &[aedat::special(7, 5, 9)])].concat();
    [
        (
            special,
            "aedat",
            "evt2",
            format!("{unwritable}\nat row 0 of recording (counted from 0): 7 µs special type 5 data 9; nothing was written\n{OTHER_WORDS}\n"),
        ),
        (in_order(), "evt2", "evt3", format!("{unwritable}\nat row 1 of recording (counted from 0): {imu}; nothing was written\n{OTHER_WORDS}\n")),
        (
            inputs::dat(),
            "dat",
            "evt3",
            format!("{unwritable}\nat row 1 of recording (counted from 0): 12500100 µs pixel x 16383 y 479 darker camera 0; nothing was written\n{OTHER_WORDS}\n"),
        ),
        (
            two_cameras(),
            "evt3",
            "evt2",
            format!("{unwritable}\nat row 1 of recording (counted from 0): 4098 µs pixel x 5 y 3 darker camera 1; nothing was written\n{OTHER_WORDS}\n"),
        ),
        // the USB packet before the pixel is no row
        (
            evt2_words(),
            "evt2",
            "evt2",
            format!("{back}\nat row 1 of recording (counted from 0): 64 µs trigger channel 6 rising; nothing was written\n{order}\n"),
        ),
        (
            step_back,
            "evt3",
            "evt3",
            format!("{back}\nat row 1 of recording (counted from 0): 4097 µs trigger channel 0 falling; nothing was written\n{order}\n"),
        ),
        (
            evt3_words()[..21].to_vec(),
            "evt3",
            "evt3",
            "refused 4: the input ends inside a word, group, event, packet or header\n\
             at byte 20 of recording (counted from 0); 4 rows were finished before it\n\
             what to do: the file is cut: copy it again from the camera; the rows before this place are good\n"
                .to_string(),
        ),
    ]
}

/// A folder with a file that was there before.
fn folder_with_old(name: &str) -> PathBuf {
    let folder = folder(name);
    fs::write(folder.join("old"), "as it was").expect("a file");
    folder
}

/// That file is as it was, and beside it is the recording alone.
fn assert_left(folder: &Path) {
    assert_eq!(fs::read(folder.join("old")).expect("it is there"), b"as it was");
    assert_eq!(files(folder), ["old", "recording"]);
}

#[test]
fn refusals_write_nothing() {
    let folder = folder_with_old("convert-refused");
    for (bytes, format, words, message) in refused() {
        for out in ["new", "old", "-"] {
            run_on(&folder, &bytes, &["convert", "recording", out, "--format", format, "--to", words, "--force"]).failed(&message);
            assert_left(&folder);
        }
    }
}

/// A part of the rows: those that the words cannot hold are left out.
#[test]
fn a_part_of_the_rows() {
    let folder = folder("convert-part");
    let arguments = ["convert", "recording", "out", "--format=evt3", "--to=evt2", "--camera", "0"];
    let run = run_on(&folder, &two_cameras(), &arguments).good();
    assert_eq!(run.text(), format!("out: written; rows: 2 of 6, evt2 words: 3, bytes: 12\n{BACK} evt2\n"));
    let rows = super::run::run(&folder, &["rows", "out", "--format", "evt2"]).good();
    assert_eq!(rows.text(), "1 4098 0 5 3 1 0 0 0 0\n1 4099 0 6 7 1 0 0 0 0\n");
}

#[test]
fn a_disk_that_is_full() {
    let folder = folder_with_old("convert-full");
    fs::write(folder.join("recording"), dat::recording((640, 480), 10_000, &mut Numbers::new(0x4f8a_66d1_93b0_2e7c))).expect("a file");
    for out in ["new", "old"] {
        // a file can have some blocks only, and the process goes on where it has more
        let run = run_after(&folder, "trap '' XFSZ; ulimit -f 8", &["convert", "recording", out, "--format", "dat", "--to", "evt3", "--force"]);
        run.failed(&format!("cannot write {out}: File too large (os error 27)\n"));
        assert_left(&folder);
    }
}
