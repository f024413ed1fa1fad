//! `info`: all of its text, for every format.
use super::inputs;
use super::run::{folder, run_on};
use trials::samples::evt3;

const EVT2: &str = "\
file: recording
format: EVT2 words (evt2)
size: 56 bytes
header: none
picture width: 2048 pixels, the limit, since no --width is given
picture height: 480 pixels
events: 3
    pixel: 1
    trigger: 1
    IMU counts: 1
    IMU singles: 0
    special: 0
first time: 64 µs
last time: 66 µs
span: 2 µs, 0.000002 s
times out of order: 2
triggers: 1
    64 µs trigger channel 6 rising, out of order by 2 µs
";

const RAW_EVT3: &str = r#"file: recording
format: RAW file of EVT3 words (raw-evt3)
size: 79 bytes
header: the data begin at byte 55
    % evt 3.0
    % Width: 640
    % height 480
    % maker A\tB\xe9\ "C"\r
picture width: 640 pixels
picture height: 480 pixels
events: 5
    pixel: 4
    trigger: 1
    IMU counts: 0
    IMU singles: 0
    special: 0
first time: 4098 µs
last time: 33554433 µs
span: 33550335 µs, 33.550335 s
times out of order: 0
clock wraps: 2 before the last event, 0 of them before the first; the clock wraps every 16777216 µs
triggers: 1
    33554433 µs trigger channel 15 falling
"#;

const DAT: &str = "\
file: recording
format: DAT file (dat)
size: 46 bytes
header: the data begin at byte 28
    % Width: 16384
    % Height 480
picture width: 16384 pixels
picture height: 480 pixels
events: 2
    pixel: 2
    trigger: 0
    IMU counts: 0
    IMU singles: 0
    special: 0
first time: 100 µs
last time: 12500100 µs
span: 12500000 µs, 12.500000 s
times out of order: 0
triggers: 0
";

const AEDAT: &str = "\
file: recording
format: AEDAT 3.1 file (aedat)
size: 205 bytes
header: the data begin at byte 61
    #!AER-DAT3.1
    #Format: RAW
    #Source 0: DVS128
    #!END-HEADER
picture: an AEDAT file says none
events: 4
    pixel: 1
    trigger: 1
    IMU counts: 0
    IMU singles: 1
    special: 1
first time: 100 µs
last time: 4294967596 µs
span: 4294967496 µs, 4294.967496 s
times out of order: 0
triggers: 1
    200 µs trigger channel 0 falling
";

#[test]
fn every_format() {
    let folder = folder("info");
    let cases = [
        (inputs::evt2_words(), "--format evt2 --height 480", EVT2),
        (inputs::raw("3.0", &inputs::evt3_words()), "--format raw-evt3", RAW_EVT3),
        (inputs::dat(), "--format dat", DAT),
        (inputs::aedat(), "--format aedat", AEDAT),
    ];
    for (bytes, options, text) in cases {
        let arguments: Vec<_> = ["info", "recording"].into_iter().chain(options.split(' ')).collect();
        assert_eq!(run_on(&folder, &bytes, &arguments).good().text(), text, "{options}");
    }
}

const NO_EVENTS: &str = "\
events: 0
    pixel: 0
    trigger: 0
    IMU counts: 0
    IMU singles: 0
    special: 0
first time: none
last time: none
span: none
times out of order: 0
triggers: 0
";

#[test]
fn a_usb_packet_is_no_event() {
    let run = run_on(&folder("no-events"), &inputs::evt2_words()[..20], &["info", "recording", "--format", "evt2"]).good();
    assert!(run.text().ends_with(NO_EVENTS), "{run:?}");
}

/// Pixels of each camera are counted where the second one has any.
#[test]
fn two_cameras() {
    let folder = folder("cameras");
    let counted = |bytes: &[u8]| {
        let run = run_on(&folder, bytes, &["info", "recording", "--format", "evt3"]);
        let (_, after) = run.text().split_once("events: ").expect("the number of events");
        after.split_once("    IMU counts").expect("the kinds of events").0.to_string()
    };
    assert_eq!(counted(&inputs::two_cameras()), "6\n    pixel: 5\n        of camera 0: 2\n        of camera 1: 3\n    trigger: 1\n");
    // the slave alone, and then the master alone
    let slave = evt3::bytes_of(&[0x8001, 0x6002, 0x0803, 0x2805]);
    assert_eq!(counted(&slave), "1\n    pixel: 1\n        of camera 0: 0\n        of camera 1: 1\n    trigger: 0\n");
    assert_eq!(counted(&inputs::two_cameras()[..10]), "1\n    pixel: 1\n    trigger: 0\n");
    // of the part before a refusal too
    let stopped = "4 before the reading stopped\n    pixel: 4\n        of camera 0: 1\n        of camera 1: 3\n    trigger: 0\n";
    assert_eq!(counted(&inputs::two_cameras()[..17]), stopped);
}

/// Of EVT3 words alone, bare or in a RAW file, and of the part before a refusal too.
#[test]
fn wraps_of_the_clock() {
    let folder = folder("wraps");
    let wraps = |words: &[u16], format: &str| {
        let run = run_on(&folder, &evt3::bytes_of(words), &["info", "recording", "--format", format]);
        run.text().lines().find_map(|line| line.strip_prefix("clock wraps: ").map(str::to_string))
    };
    let every = "; the clock wraps every 16777216 µs";
    let cases: [(&[u16], &str); 7] = [
        (&[0x8fff, 0x6fff, 0xa001], "0 before the last event, 0 of them before the first"),
        (&[0x8fff, 0x8000, 0x6000, 0xa001], "1 before the last event, 1 of them before the first"),
        (&[0x8fff, 0x6fff, 0xa001, 0x8000, 0x6000], "0 before the last event, 0 of them before the first"),
        (&[0x8fff, 0x6fff, 0xa001, 0x8000, 0x8fff, 0x8000, 0x6000, 0xa001, 0x8001, 0x8000], "2 before the last event, 0 of them before the first"),
        (&[0x8fff, 0x6fff, 0x8000, 0xa001], "0 before the last event, 0 of them before the first"),
        (&[0x8fff, 0x8000, 0x6000], "not known, since there is no event"),
        (&[], "not known, since there is no event"),
    ];
    for (words, text) in cases {
        for format in ["evt3", "raw-evt3"] {
            assert_eq!(wraps(words, format), Some(format!("{text}{every}")), "{words:x?}");
        }
    }
    let all = [evt3::ALL_WRAPS, &[0x8fff, 0x6fff, 0xa001, 0x8000, 0xa001]].concat();
    assert_eq!(wraps(&all, "evt3"), Some(format!("1023 before the last event, 1023 of them before the first{every}")));
    for format in ["evt2", "raw-evt2", "dat", "aedat"] {
        assert_eq!(wraps(&[0x8fff, 0x8000], format), None, "{format}");
    }
}

#[test]
fn both_sides_said_and_neither() {
    let folder = folder("sides");
    let limit = ", the limit, since no line of the header says it";
    let cases = [
        ("% width 2048\n% height 2048\n", "picture width: 2048 pixels\npicture height: 2048 pixels\n".to_string()),
        ("% evt 2.0\n", format!("picture width: 2048 pixels{limit}\npicture height: 2048 pixels{limit}\n")),
        ("", format!("header: the data begin at byte 0\npicture width: 2048 pixels{limit}\npicture height: 2048 pixels{limit}\n")),
    ];
    for (header, text) in cases {
        let run = run_on(&folder, header.as_bytes(), &["info", "recording", "--format", "raw-evt2"]).good();
        assert!(run.text().contains(&text), "{run:?}");
    }
}

/// Text of any language stands as it is, and nothing else reaches a terminal.
#[test]
fn lines_of_a_header() {
    let header = b"% maker M\xc3\xbcller \xc2\xb5\n% a\x1b[31m\x7f\xff\xe2\x80\xae\n% width 640\n% height 480\n";
    let run = run_on(&folder("header-lines"), header, &["info", "recording", "--format", "raw-evt2"]).good();
    assert!(run.text().contains("    % maker Müller µ\n    % a\\u{1b}[31m\\u{7f}\\xff\\u{202e}\n    % width 640\n"), "{run:?}");
}

/// A header of a great many lines is shown by its first ones.
#[test]
fn a_header_of_many_lines() {
    let folder = folder("many-lines");
    for (count, hidden) in [(1_000, ""), (1_001, "    and 1 more lines\n"), (300_000, "    and 299000 more lines\n")] {
        let run = run_on(&folder, "% a line\n".repeat(count).as_bytes(), &["info", "recording", "--format", "raw-evt2"]).good();
        let begin = format!("header: the data begin at byte {}\n", 9 * count);
        assert!(run.text().contains(&format!("{begin}{}{hidden}picture width", "    % a line\n".repeat(1_000))), "{count}");
    }
}

#[test]
fn what_was_finished_before_a_refusal() {
    let folder = folder("info-refused");
    let cases: [(&str, &[u8], &str); 6] = [
        ("evt3", &inputs::evt3_words()[..13], "header: none\npicture width: 2048 pixels, the limit, since no --width is given\n"),
        ("evt3", &inputs::evt3_words()[..13], "events: 4 before the reading stopped\n    pixel: 4\n"),
        ("raw-evt3", b"% evt 3.0\n% width 1,280\n\x01\x80", "refused at byte 10, in the line marked >\n    % evt 3.0\n  > % width 1,280\n"),
        ("raw-evt2", b"% evt 2.0\n% width 640\r\n", "    % evt 2.0\n  > % width 640\\r\npicture: not known\n"),
        ("aedat", &inputs::aedat()[..40], "refused at byte 28, in the line marked >\n    #!AER-DAT3.1\n    #Format: RAW\n  > #Source 0: D\n"),
        ("aedat", &inputs::aedat()[..110], "header: the data begin at byte 61\n    #!AER-DAT3.1\n"),
    ];
    for (format, bytes, text) in cases {
        let run = run_on(&folder, bytes, &["info", "recording", "--format", format]);
        assert_eq!(run.status, Some(1), "{format}");
        assert!(run.text().contains(text) && run.text().contains("before the reading stopped"), "{run:?}");
        assert!(run.stderr.starts_with("refused "), "{run:?}");
    }
}
