//! Header lines: of every length, with any byte changed, cut after any one or two bytes, and made of pieces in any order.
use crate::Comparer;
use trials::samples::aedat::{packet, polarity, END, POLARITY, START};
use trials::samples::Numbers;

/// A packet that is read where the lines before it are good.
fn data() -> Vec<u8> {
    packet(POLARITY, 0, &[polarity(7, 5, 3, 1)])
}

/// The parts of a header after which another line may begin, and one after which it may not.
const STARTS: [&str; 5] = [
    "",
    "#!AER-DAT3.1\r\n",
    "#!AER-DAT3.1\r\n#Format: RAW\r\n",
    "#!AER-DAT3.1\r\n#Format: RAW\r\n#\r\n#Source 0: DVS128\r\n",
    "#!AER-DAT3.1\r\n#Format: RAW\r\n#!END-HEADER\r\n",
];

/// Every one and every two bytes at the end of the input.
pub fn short_ends(comparer: &mut Comparer) {
    for (start, first) in STARTS.iter().flat_map(|start| (0..=u8::MAX).map(move |first| (start.as_bytes(), first))) {
        comparer.compare(&[start, &[first]].concat());
        (0..=u8::MAX).for_each(|second| comparer.compare(&[start, &[first, second]].concat()));
    }
}

/// A line of every length that is short or near the limit, after each part of a header and with each sort of end. The input goes on after
/// it, or ends among its last bytes.
pub fn lengths(comparer: &mut Comparer) {
    const ENDS: [&str; 6] = ["\r\n", "\n", "\r", "", "\r\r\n", "\n\r\n"];
    let lengths = (0..24).chain(1_004..1_040).chain([1_100, 2_047, 2_048, 2_049]);
    for (length, start) in lengths.flat_map(|length| STARTS.map(|start| (length, start))) {
        for end in ENDS {
            let signs = length - end.len().min(length);
            let text = format!("{start}{:#<signs$}{end}", "");
            let bytes = [text.as_bytes(), END, &data()].concat();
            comparer.compare(&bytes);
            (text.len().saturating_sub(24)..text.len()).for_each(|at| comparer.compare(&bytes[..at]));
        }
    }
}

/// Bytes that a rule of a line names, and their neighbours.
const TELLING: &[u8] = b"\0\t\n\x0b\x0c\r\x0e !\"#$%-.:013AERW\x7f\x8a\x8d\xff";

/// The bytes of a header dropped and with every byte before them, and any two of them replaced by telling ones.
pub fn changed(comparer: &mut Comparer) {
    let shortest = [START, END].concat();
    let longer = [START, b"#Source 0: DVS128\r\n", END].concat();
    for (text, at) in [&shortest, &longer].iter().flat_map(|text| (0..text.len()).map(move |at| (text, at))) {
        let (before, after) = (&text[..at], [&text[at..], &data()].concat());
        comparer.compare(&[before, &after[1..]].concat());
        (0..=u8::MAX).for_each(|byte| comparer.compare(&[before, &[byte], &after].concat()));
    }
    for (one, other) in (0..shortest.len()).flat_map(|one| (0..one).map(move |other| (one, other))) {
        for (first, second) in TELLING.iter().flat_map(|&first| TELLING.iter().map(move |&second| (first, second))) {
            let mut text = shortest.clone();
            (text[one], text[other]) = (first, second);
            comparer.compare(&[text, data()].concat());
        }
    }
}

const PIECES: [&str; 20] = [
    "#!AER-DAT3.1\r\n",
    "#Format: RAW\r\n",
    "#!END-HEADER\r\n",
    "#!END-HEADER\r\n",
    "#!END-HEADER",
    "#!END-HEADER\n",
    "#!END-HEADER \r\n",
    "#!end-header\r\n",
    "#Format: RAW",
    "#!AER-DAT3.1",
    "#Source 0: DVS128\r\n",
    "#\r\n",
    "#",
    "#",
    "\r\n",
    "\r\n",
    "\r",
    "\n",
    " ",
    "\0",
];

/// Pieces of lines in any order, mostly after the first two lines.
pub fn pieces(comparer: &mut Comparer) {
    let mut numbers = Numbers::new(0x28bd_8aa4_f2b0_91d3);
    for _ in 0..300_000 {
        let mut text = numbers.one_of(&[STARTS[0], STARTS[1], STARTS[2], STARTS[2]]).to_string();
        (0..numbers.below(8)).for_each(|_| text += numbers.one_of(&PIECES));
        let after = if numbers.once_in(2) { data() } else { vec![] };
        comparer.compare(&[text.as_bytes(), &after].concat());
    }
}
