//! Header lines with what each is to be, written from the requirement: lines around every rule, at every place in a header.
use crate::{expect, PIXEL, PIXEL_ROW, READERS};
use trials::samples::aedat::END;

/// What a line is.
#[derive(Clone, Copy, PartialEq)]
enum Line {
    Good,
    /// The last one of the header.
    Last,
    Bad,
    /// Without its newline; nothing can follow it.
    Cut,
}

use Line::{Bad, Cut, Good, Last};

/// Lines at the first place.
const FIRST: &[(&str, Line)] = &[
    ("#!AER-DAT3.1\r\n", Good),
    ("#!AER-DAT3.1\n", Bad),
    ("#!AER-DAT3.1\r\r\n", Bad),
    ("#!AER-DAT3.1 \r\n", Bad),
    ("#!AER-DAT3.1\t\r\n", Bad),
    ("#!AER-DAT3.1\0\r\n", Bad),
    (" #!AER-DAT3.1\r\n", Bad),
    ("\u{feff}#!AER-DAT3.1\r\n", Bad),
    ("#!AER-DAT3.10\r\n", Bad),
    ("#!AER-DAT3.0\r\n", Bad),
    ("#!AER-DAT3,1\r\n", Bad),
    ("#!AER-DAT3\r\n", Bad),
    ("#!AER-DAT2.0\r\n", Bad),
    ("#!aer-dat3.1\r\n", Bad),
    ("# !AER-DAT3.1\r\n", Bad),
    ("!AER-DAT3.1\r\n", Bad),
    ("#Format: RAW\r\n", Bad),
    ("#!END-HEADER\r\n", Bad),
    ("#\r\n", Bad),
    ("\r\n", Bad),
    ("\n", Bad),
    ("", Cut),
    ("#", Cut),
    ("\r", Cut),
    ("x", Cut),
    ("#!AER-DAT3.1", Cut),
    ("#!AER-DAT3.1\r", Cut),
    ("#!AER-DAT2.0\r", Cut),
    ("no line at all", Cut),
];

/// Lines at the second place.
const SECOND: &[(&str, Line)] = &[
    ("#Format: RAW\r\n", Good),
    ("#Format: RAW\n", Bad),
    ("#Format: RAW\r\r\n", Bad),
    ("#Format: RAW \r\n", Bad),
    ("#Format:RAW\r\n", Bad),
    ("#Format:  RAW\r\n", Bad),
    ("#Format RAW\r\n", Bad),
    ("#Format: raw\r\n", Bad),
    ("#format: RAW\r\n", Bad),
    ("#Format: SERIAL_TS\r\n", Bad),
    ("Format: RAW\r\n", Bad),
    ("#Source 0: DVS128\r\n", Bad),
    ("#!AER-DAT3.1\r\n", Bad),
    ("#!END-HEADER\r\n", Bad),
    ("\r\n", Bad),
    ("\n", Bad),
    ("", Cut),
    ("#", Cut),
    ("#Format: RAW", Cut),
    ("#Format: RAW\r", Cut),
    ("Format", Cut),
];

/// Lines at the third place and later ones.
const LATER: &[(&str, Line)] = &[
    ("#!END-HEADER\r\n", Last),
    ("#!END-HEADER \r\n", Good),
    ("#!END-HEADER\r\r\n", Good),
    ("# !END-HEADER\r\n", Good),
    ("#!end-header\r\n", Good),
    ("#!END-HEADERS\r\n", Good),
    ("##!END-HEADER\r\n", Good),
    ("#!END-HEADE\r\n", Good),
    ("#!AER-DAT3.1\r\n", Good),
    ("#Format: RAW\r\n", Good),
    ("#Format: SERIAL_TS\r\n", Good),
    ("#Source 0: DVS128\r\n", Good),
    ("#\r\n", Good),
    ("#\r\r\n", Good),
    ("#\r#\r\n", Good),
    ("#\0\u{ff}\u{7fff}\r\n", Good),
    ("#!END-HEADER\n", Bad),
    ("#!END-HEADER\n\r\n", Bad),
    ("#!END-HEADER\r \n", Bad),
    (" #!END-HEADER\r\n", Bad),
    ("!END-HEADER\r\n", Bad),
    ("\0#\r\n", Bad),
    ("%\r\n", Bad),
    ("#\n", Bad),
    ("#\n\r\n", Bad),
    ("\r\n", Bad),
    ("\n", Bad),
    ("\n\r\n", Bad),
    ("", Cut),
    ("#", Cut),
    ("\r", Cut),
    ("#\r", Cut),
    ("x", Cut),
    ("#!END-HEADER", Cut),
    ("#!END-HEADER\r", Cut),
];

/// The lines of a place, and long ones: the newline counts, and 1,024 bytes without one are bad whatever follows.
fn lines(table: &[(&str, Line)], long: Line) -> Vec<(String, Line)> {
    let signs = |number: usize, end: &str| format!("{:#<number$}{end}", "");
    let mut lines: Vec<_> = table.iter().map(|&(line, is)| (line.to_string(), is)).collect();
    lines.extend([(1_020, long), (1_021, long), (1_022, long), (1_023, Bad), (1_024, Bad)].map(|(number, is)| (signs(number, "\r\n"), is)));
    lines.extend([1_022, 1_023, 1_024].map(|number| (signs(number, "\n"), Bad)));
    lines.extend([(1_022, Cut), (1_023, Cut), (1_024, Bad), (1_025, Bad), (3_000, Bad)].map(|(number, is)| (signs(number, ""), is)));
    lines.extend([(1_022, Cut), (1_023, Bad)].map(|(number, is)| (signs(number, "\r"), is)));
    lines
}

/// Reads two lines or more. The first at fault decides; where none is, the end line and a packet follow unless they stand there.
fn read(lines: &[&(String, Line)]) {
    let packet = PIXEL.concat();
    let mut text = vec![];
    for (line, is) in lines {
        let place = text.len();
        text.extend(line.bytes());
        match is {
            Good => {}
            Last => return read_text(&[text, packet].concat(), None),
            Bad => return read_text(&[&text, END, &packet].concat(), Some((9, place))),
            Cut => return read_text(&text, Some((4, place))),
        }
    }
    read_text(&text, Some((4, text.len())));
    read_text(&[&text, END, &packet].concat(), None);
}

fn read_text(text: &[u8], fault: Option<(u64, usize)>) {
    let rows = if fault.is_none() { &[PIXEL_ROW][..] } else { &[] };
    READERS.iter().for_each(|reader| expect(&text.escape_ascii().to_string(), 2, rows, fault, |rows| reader(text, rows)));
}

#[test]
fn first_and_second_lines() {
    let [first, second] = [lines(FIRST, Bad), lines(SECOND, Bad)];
    for (first, second) in first.iter().flat_map(|first| second.iter().map(move |second| (first, second))) {
        read(&[first, second]);
    }
}

#[test]
fn later_lines() {
    let start = [FIRST[0], SECOND[0]].map(|(line, is)| (line.to_string(), is));
    let later = lines(LATER, Good);
    for (third, fourth) in later.iter().flat_map(|third| later.iter().map(move |fourth| (third, fourth))) {
        read(&[&start[0], &start[1], third, fourth]);
    }
}
