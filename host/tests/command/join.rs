//! `--join`: EVT3 words read from one of them on.
use super::inputs;
use super::run::{folder, run_fed, run_on, Run};
use fryskelom::{read_evt3, whole_evt3, ROW_NUMBERS};
use trials::samples::evt3;
use trials::samples::recordings::RECORDINGS;

const TIMES: &str = "times are right up to a multiple of 16.777216 s, the same for all: how often the clock wrapped before this byte is not known";

/// What is said of a recording that is joined at a byte and misses nothing from another one on.
fn joined(byte: usize, whole: usize) -> String {
    format!("joined at byte {byte}: from byte {whole} on no event is missing; before it some may be")
}

/// What is said of one that never comes to such a byte.
fn never(byte: usize) -> String {
    let lacking = "after this byte there is no TIME_HIGH, no later TIME_LOW, no ADDR_Y or no VECT_BASE_X";
    format!("joined at byte {byte}: some events may be missing throughout: {lacking}")
}

/// What is said of words that begin at a byte.
fn of_words(byte: usize, words: &[u8]) -> String {
    whole_evt3(words).map_or_else(|| never(byte), |whole| joined(byte, byte + whole))
}

fn note(missing: &str) -> String {
    format!("note: {missing}; {TIMES}\n")
}

fn sample(name: &str) -> Vec<u8> {
    RECORDINGS.iter().find(|(recording, _)| *recording == name).expect("a sample of this name").1()
}

/// The rows of words, in lines as the command prints them.
fn lines(words: &[u8], (width, height): (u32, u32)) -> String {
    let mut rows = vec![0; ROW_NUMBERS * 20_000];
    let count = read_evt3(words, width, height, &mut rows).expect("words that are read");
    let line = |row: &[u32]| row.iter().map(u32::to_string).collect::<Vec<_>>().join(" ") + "\n";
    rows.chunks(ROW_NUMBERS).take(count).map(line).collect()
}

/// The words of a few events, joined at each of them, and at their end: bare, in a RAW file whose header has an odd number of bytes, and on standard input.
#[test]
fn every_word() {
    let folder = folder("join");
    let words = inputs::evt3_words();
    let file = inputs::raw("3.0", &words);
    let header = file.len() - words.len();
    assert_eq!(header % 2, 1);
    let mut seen = [0, 0];
    for byte in (0..=words.len()).step_by(2) {
        seen[usize::from(whole_evt3(&words[byte..]).is_some())] += 1;
        let told = |before: usize| note(&of_words(before + byte, &words[byte..]));
        let bare = byte.to_string();
        let run = run_on(&folder, &words, &["rows", "recording", "--format", "evt3", "--join", &bare]).noted(&told(0));
        assert_eq!(run.text(), lines(&words[byte..], (2_048, 2_048)), "{byte}");
        let fed = run_fed(&folder, &words, &["rows", "-", "--format", "evt3", "--join", &bare]).noted(&told(0));
        assert_eq!(fed.text(), run.text());
        let in_file = (header + byte).to_string();
        let run = run_on(&folder, &file, &["rows", "--join", &in_file, "recording", "--format", "raw-evt3"]).noted(&told(header));
        assert_eq!(run.text(), lines(&words[byte..], (640, 480)), "{in_file}");
    }
    assert_eq!(seen, [10, 3]);
}

/// Samples from some of their words on, in the picture of their header or in the one that is asked for.
#[test]
fn samples() {
    let folder = folder("join-samples");
    for (name, format, data) in [("gate-relay-evt3.raw", "raw-evt3", 116), ("two-cameras-evt3.raw", "raw-evt3", 116), ("clock-wrap.evt3", "evt3", 0)]
    {
        let bytes = sample(name);
        for byte in (data..bytes.len()).step_by(1_234) {
            let arguments = ["rows", "recording", "--format", format, "--join", &byte.to_string()];
            let run = run_on(&folder, &bytes, &arguments).noted(&note(&of_words(byte, &bytes[byte..])));
            let picture = if data == 0 { (2_048, 2_048) } else { (640, 480) };
            assert_eq!(run.text(), lines(&bytes[byte..], picture), "{name} from byte {byte} on");
        }
    }
    // what is asked of the picture counts
    let arguments = ["info", "recording", "--format", "evt3", "--join", "8", "--width", "290", "--height", "480"];
    let run = run_on(&folder, &sample("clock-wrap.evt3"), &arguments);
    assert!(run.status == Some(1) && run.stderr.starts_with("refused 6: "), "{run:?}");
}

#[test]
fn info() {
    let folder = folder("join-info");
    let arguments = ["info", "recording", "--format", "evt3", "--join", "14"];
    let run = run_on(&folder, &inputs::evt3_words(), &arguments).good();
    let text = format!(
        "file: recording\nformat: EVT3 words (evt3)\nsize: 24 bytes\nheader: none\npicture width: 2048 pixels, the limit, since no --width is given\n\
         picture height: 2048 pixels, the limit, since no --height is given\n{}\n{TIMES}\nevents: 1\n    pixel: 0\n    trigger: 1\n    IMU counts: 0\n    \
         IMU singles: 0\n    special: 0\nfirst time: 16777217 µs\nlast time: 16777217 µs\nspan: 0 µs, 0.000000 s\ntimes out of order: 0\nclock wraps since it \
         was joined: 1 before the last event, 1 of them before the first; the clock wraps every 16777216 µs\ntriggers: 1\n    16777217 µs trigger channel 15 \
         falling\n",
        never(14)
    );
    assert_eq!(run.text(), text);
    // filters and bins are of what was read
    let arguments = ["info", "recording", "--format", "raw-evt3", "--join", "836", "--kind", "pixel", "--bins", "1000"];
    let run = run_on(&folder, &sample("gate-relay-evt3.raw"), &arguments).good();
    assert!(run.text().contains("\nevents: ") && run.text().contains(" pass the filters\n") && run.text().contains("\nbins of 1000 µs"), "{run:?}");
    assert!(
        run.text().contains("\nheader: the data begin at byte 116\n    % date ") && run.text().contains("\npicture width: 640 pixels\n"),
        "{run:?}"
    );
}

/// Bytes at which no word of a RAW file begins, which its header alone can tell.
#[test]
fn bytes_that_are_no_words() {
    let folder = folder("join-no-words");
    let (words, file) = (inputs::evt3_words(), inputs::raw("3.0", &inputs::evt3_words()));
    let run = |recording: &[u8], format: &str, byte: &str| run_on(&folder, recording, &["rows", "recording", "--format", format, "--join", byte]);
    let usage = |run: Run, message: &str| run.declined(&format!("{message}\ntry ./fryskelom --help\n"));
    usage(run(&file, "raw-evt3", "0"), "--join 0: that is in the header; the words begin at byte 55");
    usage(run(&file, "raw-evt3", "54"), "--join 54: that is in the header; the words begin at byte 55");
    usage(run(&file, "raw-evt3", "56"), "--join 56: that is inside the word that begins at byte 55");
    usage(run(&file, "raw-evt3", "80"), "--join 80: recording has only 79 bytes");
    usage(run(&file, "raw-evt3", "18446744073709551615"), "--join 18446744073709551615: recording has only 79 bytes");
    usage(run(&words, "evt3", "26"), "--join 26: recording has only 24 bytes");
    // a file without a header, whose words begin at once
    run(&words, "raw-evt3", "24").noted(&format!(
        "note: the header of recording gives no width or height; a picture of 2048 by 2048 pixels was assumed\n{}",
        note(&never(24))
    ));
    usage(run(&words, "raw-evt3", "23"), "--join 23: that is inside the word that begins at byte 22");
    usage(run(b"", "evt3", "2"), "--join 2: recording has only 0 bytes");
}

/// Places are counted from the first byte of the file, and what is refused is not called whole.
#[test]
fn refused() {
    let folder = folder("join-refused");
    let run = |recording: &[u8], format: &str, byte: &str| run_on(&folder, recording, &["rows", "recording", "--format", format, "--join", byte]);
    let cut = run(&sample("cut-inside-a-word.evt3"), "evt3", "4000");
    let told = cut.stderr.strip_prefix(&note(&never(4_000))).expect("a note");
    assert!(told.starts_with("refused 4: ") && told.contains("\nat byte 6000 of recording (counted from 0); "), "{cut:?}");
    assert_eq!(cut.status, Some(1));
    // a reserved word before the last of the four, in a file whose words begin at byte 55, and after it
    let words = [0x8001, 0x8001, 0x6002, 0x0003, 0x1000, 0x3004, 0x1000];
    let file = inputs::raw("3.0", &evt3::bytes_of(&words));
    let stopped = "no event would be missing from byte 67 on, but the reading stopped before it; before it some may be";
    let run_57 = run(&file, "raw-evt3", "57");
    assert!(run_57.stderr.starts_with(&note(&format!("joined at byte 57: {stopped}"))), "{run_57:?}");
    assert!(
        run_57.stderr.contains("\nrefused 3: a word of a reserved type\nat byte 63 of recording (counted from 0); 0 rows were finished"),
        "{run_57:?}"
    );
    let words: Vec<u16> = words.into_iter().enumerate().filter(|(index, _)| *index != 4).map(|(_, word)| word).collect();
    let run_57 = run(&inputs::raw("3.0", &evt3::bytes_of(&words)), "raw-evt3", "57");
    assert!(run_57.stderr.starts_with(&note(&joined(57, 65))) && run_57.stderr.contains("\nat byte 65 of recording"), "{run_57:?}");
    // the picture is the header's, 640 by 480
    for (line, pixel, outside) in [(479, 639, false), (480, 639, true), (479, 640, true)] {
        let words = [0xe000, 0x8001, 0x6002, line, 0x2000 | pixel];
        let run = run(&inputs::raw("3.0", &evt3::bytes_of(&words)), "raw-evt3", "57");
        assert_eq!(run.stderr.contains("\nrefused 6: ") && run.stderr.contains("\nat byte 63 of recording"), outside, "{run:?}");
    }
    // a header that is refused, of which no byte is a word's
    let comma = run(&sample("comma-in-width.raw"), "raw-evt3", "100");
    assert!(comma.status == Some(1) && comma.stderr.starts_with("refused 9: ") && comma.stderr.contains("at byte 37 "), "{comma:?}");
}
