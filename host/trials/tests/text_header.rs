//! The text header of RAW and DAT files, read by the library and by the hand-written reader, against the second implementation: headers that
//! are cut at every byte, of which any byte is replaced, dropped or added, with every number and every length of line.
#[path = "common/header_readers.rs"]
mod readers;

use readers::headers::{pairs, short_headers};
use readers::{by_second, hand_written, Reader, LIMITS, READERS};
use trials::numbers;
use trials::samples::header::header;
use trials::samples::Numbers;
use trials::second::words::MOST_BYTES;

/// Holds a reader to the second implementation and counts what was reached.
struct Comparer {
    reader: Reader,
    inputs: usize,
    /// Headers without refusal, by whether the width and the height are other than the limit.
    said: [[usize; 2]; 2],
    /// Cut lines by their bytes.
    cut: [usize; 256],
    /// Bad lines by their index: 0, 1, 2 or a later one.
    bad: [usize; 4],
}

impl Comparer {
    fn compare(&mut self, bytes: &[u8], limit: u32) {
        let expected = by_second(bytes, limit);
        assert_eq!((self.reader)(bytes, limit), expected, "limit {limit}, {}", bytes.escape_ascii());
        self.inputs += 1;
        let (refusal, place, width, height) = expected;
        let (before, line) = bytes.split_at(place as usize);
        match refusal {
            0 => self.said[usize::from(width != limit)][usize::from(height != limit)] += 1,
            4 => self.cut[line.len()] += 1,
            _ => self.bad[before.iter().filter(|&&byte| byte == b'\n').count().min(3)] += 1,
        }
    }

    fn check(&self) {
        let often = |what: &str, which: usize, count: usize| assert!(count >= 200, "{what} {which}: {count} times only");
        self.said.as_flattened().iter().enumerate().for_each(|(which, &count)| often("sides said", which, count));
        (2..256).for_each(|length| often("cut lines of bytes", length, self.cut[length]));
        (0..4).for_each(|index| often("bad lines of index", index, self.bad[index]));
    }
}

/// Headers as cameras have them, and short ones of any rule.
fn some_headers(limit: u32, made_up: usize, numbers: &mut Numbers) -> Vec<Vec<u8>> {
    let mut headers: Vec<Vec<u8>> = short_headers(limit).into_iter().map(|(text, _)| text).collect();
    for _ in 0..made_up {
        let [width, height] = [(); 2].map(|()| (!numbers.once_in(4)).then(|| 1 + numbers.below(limit)));
        headers.push(header(width, height, numbers));
    }
    headers
}

/// Headers of which the input ends at every byte.
fn cut_headers(comparer: &mut Comparer) {
    let mut numbers = Numbers::new(0x51ae_03f7_44b5_c98b);
    for limit in LIMITS {
        let pairs = pairs(limit).into_iter().map(|(text, _)| text);
        for text in some_headers(limit, 2_000, &mut numbers).into_iter().chain(pairs.filter(|text| text.len() < 64)) {
            (0..=text.len()).for_each(|end| comparer.compare(&text[..end], limit));
        }
    }
}

/// Every byte of a header replaced by every other, dropped, doubled, and with every byte before it.
fn changed_bytes(comparer: &mut Comparer) {
    let mut numbers = Numbers::new(0x77aa_3bdc_3b43_0d2f);
    let some = [b"% width: 640\n% Height 480\n\0\x08".to_vec(), b"% height 00064\n% model 1,5\n% WIDTH 1280\n%".to_vec()];
    let made_up = [(); 30].map(|()| header(Some(1 + numbers.below(2_048)), Some(1 + numbers.below(2_048)), &mut numbers));
    for (text, at) in some.iter().chain(&made_up).flat_map(|text| (0..text.len()).map(move |at| (text, at))) {
        let (before, after) = (&text[..at], &text[at + 1..]);
        comparer.compare(&[before, after].concat(), 2_048);
        comparer.compare(&[before, &[text[at], text[at]], after].concat(), 2_048);
        for byte in 0..=u8::MAX {
            comparer.compare(&[before, &[byte], after].concat(), 2_048);
            comparer.compare(&[before, &[byte, text[at]], after].concat(), 2_048);
        }
    }
}

/// Bytes that a rule of a line names, and their neighbours.
const TELLING: &[u8] = b"\0\t\n\x0b\r\x1f !$%&,./0159:;@AWZ[`aghwz{\x7f\x80\xff";

/// Every two bytes of a line replaced by telling ones.
fn two_changed_bytes(comparer: &mut Comparer) {
    for line in [&b"% width: 640\n"[..], b"% Height 64\n"] {
        for (one, other) in (0..line.len()).flat_map(|one| (0..one).map(move |other| (one, other))) {
            for (first, second) in TELLING.iter().flat_map(|&first| TELLING.iter().map(move |&second| (first, second))) {
                let mut text = line.to_vec();
                (text[one], text[other]) = (first, second);
                text.extend(b"% height: 48\n");
                comparer.compare(&text, 2_048);
            }
        }
    }
}

/// Headers of any rule, of which one byte is replaced, dropped or added.
fn damaged_headers(comparer: &mut Comparer) {
    let mut numbers = Numbers::new(0x4e62_7d90_b8f3_21c7);
    for limit in LIMITS {
        for (mut text, _) in [short_headers(limit), pairs(limit)].concat().into_iter().filter(|(text, _)| !text.is_empty()) {
            for _ in 0..4 {
                let (any, at) = (numbers.any() as u8, numbers.below(text.len().min(40) as u32) as usize);
                let byte = if numbers.once_in(4) { any } else { numbers.one_of(TELLING) };
                let before = text[at];
                match numbers.below(3) {
                    0 => comparer.compare(&[&text[..at], &text[at + 1..]].concat(), limit),
                    1 => comparer.compare(&[&text[..at], &[byte], &text[at..]].concat(), limit),
                    _ => {
                        text[at] = byte;
                        comparer.compare(&text, limit);
                        text[at] = before;
                    }
                }
            }
        }
    }
}

/// Every number of one to five digits, leading zeros among them, and numbers of more.
fn every_number(comparer: &mut Comparer) {
    const TRIED: [u32; 9] = [0, 1, 2, 2_048, 16_384, 99_998, 99_999, 100_000, u32::MAX];
    let short = (1..=5usize).flat_map(|digits| (0..10u64.pow(digits as u32)).map(move |number| format!("{number:0digits$}")));
    let long = [0u64, 1, 64, 2_048, 65_600, 99_999, 100_000, (1 << 32) + 64]
        .into_iter()
        .flat_map(|number| (6..20).map(move |digits| format!("{number:0digits$}")));
    for (index, number) in short.chain(long).enumerate() {
        let text = [format!("% width {number}\n"), format!("% height: {number}\n%")];
        TRIED.iter().for_each(|&limit| comparer.compare(text[index % 2].as_bytes(), limit));
    }
}

/// Lines of every length up to 300 bytes, each after a short one, with an end of the input at every byte, and one more line after them.
fn every_length(comparer: &mut Comparer) {
    for (start, length) in ["% Date ", "% width 64", "% ", "%  ", "% height: "].iter().flat_map(|start| (0..300).map(move |length| (start, length))) {
        let text = format!("% width 32\n{start:.<length$}\n% height 16\n").into_bytes();
        for end in 11..=text.len() {
            comparer.compare(&text[..end], 16_384);
        }
        comparer.compare(&text[11..], 16_384);
    }
}

/// Pieces of lines in any order.
fn any_pieces(comparer: &mut Comparer) {
    const PIECES: [&str; 24] = [
        "% ", "% ", "% width", "% height", "% Width ", "% HEIGHT", "% Date", "%", " ", " ", ":", ": ", "\n", "\n", "\n", "\r\n", "\t", ",", ".", "0",
        "1", "64", "2048", "16385",
    ];
    let mut numbers = Numbers::new(0x28bd_8aa4_f2b0_91d3);
    for _ in 0..1_000_000 {
        let text: String = (0..numbers.below(16)).map(|_| numbers.one_of(&PIECES)).collect();
        comparer.compare(text.as_bytes(), numbers.one_of(&LIMITS));
    }
}

/// Made-up lines, then a line of any rule, then bytes of any value.
fn long_headers(comparer: &mut Comparer) {
    let mut numbers = Numbers::new(0x6bc7_5e1f_a1d7_9b6d);
    let last: Vec<Vec<u8>> = short_headers(2_048).into_iter().map(|(text, _)| text).collect();
    for _ in 0..200_000 {
        let mut text = header(None, None, &mut numbers);
        text.extend(header(numbers.once_in(4).then_some(64), numbers.once_in(4).then_some(48), &mut numbers));
        text.extend(&last[numbers.below(last.len() as u32) as usize]);
        text.extend((0..numbers.below(8)).map(|_| numbers.any() as u8));
        comparer.compare(&text, 2_048);
    }
}

/// Inputs of one sort, all of which are compared.
type Family = fn(&mut Comparer);

fn compare_all(reader: Reader) {
    let families: [(&str, Family); 8] = [
        ("cut headers", cut_headers),
        ("changed bytes", changed_bytes),
        ("two changed bytes", two_changed_bytes),
        ("damaged headers", damaged_headers),
        ("every number", every_number),
        ("every length", every_length),
        ("any pieces", any_pieces),
        ("long headers", long_headers),
    ];
    let mut comparer = Comparer { reader, inputs: 0, said: [[0; 2]; 2], cut: [0; 256], bad: [0; 4] };
    for (name, family) in families {
        let before = comparer.inputs;
        family(&mut comparer);
        println!("{name}: {} inputs", comparer.inputs - before);
    }
    println!("all: {} inputs", comparer.inputs);
    comparer.check();
}

#[test]
fn library() {
    compare_all(numbers::read_header);
}

#[test]
fn hand_written_reader() {
    compare_all(hand_written);
}

/// The longest input that is read and the next one. Neither is looked at past its first lines.
#[test]
fn longest_input() {
    let mut bytes = vec![0; MOST_BYTES + 1];
    bytes[..12].copy_from_slice(b"% width 64\n\n");
    for reader in READERS {
        assert_eq!(reader(&bytes[..MOST_BYTES], 2_048), (0, 11, 64, 2_048));
        assert_eq!(reader(&bytes, 2_048), (1, 0, 0, 0));
        assert_eq!(reader(&bytes, 0), (1, 0, 0, 0));
    }
}
