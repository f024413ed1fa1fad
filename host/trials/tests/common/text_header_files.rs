//! What the tests of RAW and DAT files share: text headers of every rule before data of every fault, and what all files are tried with.
#[path = "files.rs"]
mod files;
#[path = "headers.rs"]
mod headers;

pub use files::often;
use files::Reader;
use headers::{pairs, short_headers};
use trials::samples::header::header;
use trials::samples::{Numbers, Picture};
use trials::second;
use trials::second::header::Header;
use trials::second::words::Reading;
use trials::LAST_REFUSAL;

/// A format of data after a text header, and what its inputs have reached.
pub trait Reached: Default {
    /// The most pixels of a side.
    const SIDE: u32;

    /// What can be refused after the header.
    const REFUSED: &'static [usize];

    /// The second implementation.
    fn second(bytes: &[u8], room: usize) -> Reading;

    /// What follows the header of a recording.
    fn data(picture: Picture, most_events: u32, numbers: &mut Numbers) -> Vec<u8>;

    /// Data that are refused, each by another rule or at another place, the first only where there is no room. Pixels past the picture are
    /// at column 64 or line 48.
    fn faults() -> Vec<Vec<u8>>;

    /// Counts what was reached in the data after a header.
    fn count(&mut self, _header: &Header, _data: &[u8], _reading: &Reading) {}

    /// Fails where something that the inputs are there for was not reached.
    fn check(&self) {}
}

/// What a format's inputs have reached, with their headers.
#[derive(Default)]
pub struct Headed<R> {
    finished: usize,
    /// Refusals of the header by number.
    in_header: [usize; LAST_REFUSAL + 1],
    /// Refusals after it by number.
    after_header: [usize; LAST_REFUSAL + 1],
    reached: R,
}

impl<R: Reached> files::Reached for Headed<R> {
    fn second(bytes: &[u8], room: usize) -> Reading {
        R::second(bytes, room)
    }

    fn a_file(most_events: u32, numbers: &mut Numbers) -> Vec<u8> {
        let picture = a_picture::<R>(numbers);
        [a_header::<R>(picture, numbers), R::data(picture, most_events, numbers)].concat()
    }

    fn a_short_file(numbers: &mut Numbers) -> Vec<u8> {
        let mut bytes = [header(Some(64), Some(48), numbers), R::data((64, 48), 1, numbers)].concat();
        bytes.truncate(150);
        bytes
    }

    fn count(&mut self, bytes: &[u8], reading: &Reading) {
        match second::header::read(bytes, R::SIDE) {
            Err((refusal, _)) => self.in_header[refusal as usize] += 1,
            Ok(header) => {
                match reading.refusal {
                    0 => self.finished += 1,
                    refusal => self.after_header[refusal as usize] += 1,
                }
                self.reached.count(&header, &bytes[header.data..], reading);
            }
        }
    }

    /// Every refusal but 1, in the header and after it, and what the format asks for was reached often.
    fn check(&self) {
        [4, 9].iter().for_each(|&refusal| often("of the header, refusal", refusal, self.in_header[refusal]));
        R::REFUSED.iter().for_each(|&refusal| often("after the header, refusal", refusal, self.after_header[refusal]));
        often("refusal", 0, self.finished);
        self.reached.check();
    }
}

pub type Comparer<R> = files::Comparer<Headed<R>>;

pub type Family<R> = files::Family<Headed<R>>;

fn a_picture<R: Reached>(numbers: &mut Numbers) -> Picture {
    let sides = [1, 2, 3, 12, 13, 100, 720, 1_280, 2_047, 2_048, R::SIDE - 1, R::SIDE];
    (numbers.one_of(&sides), numbers.one_of(&sides))
}

/// The header of a picture. One as large as can be is said or left out.
fn a_header<R: Reached>((width, height): Picture, numbers: &mut Numbers) -> Vec<u8> {
    let [width, height] = [width, height].map(|side| (side < R::SIDE || numbers.once_in(2)).then_some(side));
    header(width, height, numbers)
}

/// Every header of one line before data of every fault, and every header of two lines before data of some fault.
fn headers_before_faults<R: Reached>(comparer: &mut Comparer<R>) {
    let mut numbers = Numbers::new(0x0d4f_9a31_c2b7_6e85);
    let faults = R::faults();
    for (index, (text, _)) in short_headers(R::SIDE).iter().enumerate() {
        comparer.compare(text);
        for fault in &faults {
            let bytes = [&text[..], fault].concat();
            comparer.compare(&bytes);
            comparer.compare_lent(&bytes, index % 31);
        }
    }
    for (text, _) in pairs(R::SIDE) {
        let bytes = [&text[..], &faults[numbers.below(faults.len() as u32) as usize]].concat();
        comparer.compare(&text);
        comparer.compare_lent(&bytes, numbers.below(31) as usize);
    }
}

/// Headers as cameras have them before data of every fault.
fn faults_after_headers<R: Reached>(comparer: &mut Comparer<R>) {
    let mut numbers = Numbers::new(0x5b1d_07e6_93fa_c248);
    for _ in 0..1_500 {
        let picture = numbers.one_of(&[(64, 48), (64, R::SIDE), (R::SIDE, 48), (R::SIDE, R::SIDE)]);
        let text = a_header::<R>(picture, &mut numbers);
        for fault in R::faults() {
            let bytes = [&text[..], &fault].concat();
            comparer.compare(&bytes);
            comparer.compare_lent(&bytes, numbers.below(31) as usize);
        }
    }
}

/// Recordings under their own header or one of a picture that is a little smaller.
fn files<R: Reached>(comparer: &mut Comparer<R>) {
    let mut numbers = Numbers::new(0x6bc7_5e1f_a1d7_9b6d);
    for _ in 0..60_000 {
        let (width, height) = a_picture::<R>(&mut numbers);
        let smaller = |side: u32, less: u32| side.saturating_sub(less).max(1);
        let said = (smaller(width, numbers.below(3)), smaller(height, numbers.below(3)));
        let text = a_header::<R>(numbers.one_of(&[(width, height), said]), &mut numbers);
        comparer.compare(&[text, R::data((width, height), 80, &mut numbers)].concat());
    }
}

/// Data whose first two bytes are any, so that a percent sign and a space are among them, with a newline soon, late or never.
fn data_like_text<R: Reached>(comparer: &mut Comparer<R>) {
    for text in [&b""[..], b"% width 64\n"] {
        for (first, second) in (0..=u8::MAX).flat_map(|first| (0..=u8::MAX).map(move |second| (first, second))) {
            for rest in [&b""[..], b"\0\0\0", b"\0\0\n\0\x08\0\0"] {
                comparer.compare(&[text, &[first, second], rest].concat());
            }
        }
        for (newline, length) in (2..300).flat_map(|newline| [newline, newline + 1, newline + 5, 320].map(|length| (newline, length))) {
            let mut data = vec![0; length];
            data[..2].copy_from_slice(b"% ");
            data.get_mut(newline).into_iter().for_each(|byte| *byte = b'\n');
            comparer.compare(&[text, &data].concat());
        }
    }
}

/// Compares on the format's own families, on those above and on those of all files.
pub fn compare_all<R: Reached>(reader: Reader, own: &[Family<R>]) {
    let shared: [Family<R>; 4] = [
        ("headers before faults", headers_before_faults),
        ("faults after headers", faults_after_headers),
        ("files", files),
        ("data like text", data_like_text),
    ];
    files::compare_all(reader, &[own, &shared].concat());
}

/// The longest input that is read and the next one. After a header each is refused at its first byte, by this number.
pub fn compare_longest<R: Reached>(readers: &[Reader], refusal: u64) {
    // a newline that ends the header soon, in a word of a type that is reserved
    files::compare_longest::<Headed<R>>(readers, b"% width 64\n\n\x90\0\x90", (refusal, 0, 11));
}
