//! What the tests of all readers of words share: a reader is held to the second implementation, on inputs of its format's own and on
//! recordings that are made up, damaged, cut and short of room.
#[path = "answer.rs"]
mod answer;
#[path = "lent.rs"]
mod lent;
#[path = "often.rs"]
mod often;

pub use answer::answer;
pub use often::often;
use trials::samples::{Numbers, Picture};
use trials::second::words::{Reading, MOST_BYTES};
use trials::LAST_REFUSAL;

/// The refusal, the finished rows and the place.
pub type Answer = (u64, u64, u64);

pub type Reader = fn(&[u8], u32, u32, &mut [u32]) -> Answer;

pub const LARGEST: Picture = (2_048, 2_048);

/// A format of words, and what its inputs have reached.
pub trait Reached: Default {
    /// How many bytes a word takes.
    const SIZE: usize;

    /// Refusals and the types of word that can meet them.
    const REFUSED: &'static [(usize, &'static [usize])];

    /// The second implementation.
    fn second(bytes: &[u8], width: u32, height: u32, room: usize) -> Reading;

    fn a_recording(picture: Picture, most_events: u32, numbers: &mut Numbers) -> Vec<u8>;

    /// Counts what a reading has reached. The type of a word is given by its index.
    fn count(&mut self, bytes: &[u8], reading: &Reading, kind: impl Fn(usize) -> usize);

    /// Fails where something that the inputs are there for was not reached.
    fn check(&self);
}

/// Holds a reader to the second implementation and counts what was reached.
pub struct Comparer<R> {
    reader: Reader,
    inputs: usize,
    finished: usize,
    /// Refusals by number and by the type of the word at fault.
    refused: [[usize; 16]; LAST_REFUSAL + 1],
    reached: R,
}

impl<R: Reached> Comparer<R> {
    fn new(reader: Reader) -> Comparer<R> {
        Comparer { reader, inputs: 0, finished: 0, refused: [[0; 16]; LAST_REFUSAL + 1], reached: R::default() }
    }

    /// Compares with room for every row: for just that many, or for a little more.
    pub fn compare(&mut self, bytes: &[u8], picture: Picture) {
        let expected = R::second(bytes, picture.0, picture.1, usize::MAX);
        self.hold(bytes, picture, 10 * expected.rows.len() + self.inputs % 12, expected);
    }

    /// Compares with a buffer of so many numbers.
    pub fn compare_lent(&mut self, bytes: &[u8], picture: Picture, lent: usize) {
        self.hold(bytes, picture, lent, R::second(bytes, picture.0, picture.1, lent / 10));
    }

    fn hold(&mut self, bytes: &[u8], picture: Picture, lent: usize, expected: Reading) {
        let input = || format!("picture {picture:?}, {lent} numbers lent, words {}", shown(bytes, R::SIZE));
        let reader = |rows: &mut [u32]| (self.reader)(bytes, picture.0, picture.1, rows);
        lent::hold(reader, lent, expected.answer(), expected.rows.as_flattened(), input);
        self.count(bytes, &expected);
    }

    fn count(&mut self, bytes: &[u8], reading: &Reading) {
        let kind = |index: usize| bytes.get(R::SIZE * index + R::SIZE - 1).map_or(0, |top| usize::from(top >> 4));
        self.inputs += 1;
        match reading.refusal {
            0 => self.finished += 1,
            refusal => self.refused[refusal as usize][kind(reading.place / R::SIZE)] += 1,
        }
        self.reached.count(bytes, reading, kind);
    }

    /// How many inputs were refused by this number.
    fn refused(&self, refusal: usize) -> usize {
        self.refused[refusal].iter().sum()
    }

    /// Every refusal but 1, from every type of word that can meet it, and what the format asks for was reached often. 7 is given no more.
    fn check(&self) {
        assert_eq!(self.refused(7), 0, "refusal 7");
        for (refusal, kinds) in R::REFUSED {
            for &kind in *kinds {
                often(&format!("refusal {refusal} of type"), kind, self.refused[*refusal][kind]);
            }
        }
        for refusal in [4, 14] {
            often("refusal", refusal, self.refused(refusal));
        }
        often("refusal", 0, self.finished);
        self.reached.check();
    }
}

/// The first words of an input in hexadecimal, and a part of a word as fewer digits.
fn shown(bytes: &[u8], size: usize) -> String {
    let words = bytes.chunks(size).take(4_096).map(|word| word.iter().rev().map(|byte| format!("{byte:02X}")).collect::<String>());
    words.collect::<Vec<_>>().join(" ")
}

pub fn a_picture(numbers: &mut Numbers) -> Picture {
    let sides = [1, 2, 3, 12, 13, 32, 100, 720, 1_280, 2_047, 2_048];
    (numbers.one_of(&sides), numbers.one_of(&sides))
}

/// Recordings as a camera sends them, read for their own picture or for one a little smaller.
fn recordings<R: Reached>(comparer: &mut Comparer<R>) {
    let mut numbers = Numbers::new(0x6bc7_5e1f_a1d7_9b6d);
    for _ in 0..100_000 {
        let (width, height) = a_picture(&mut numbers);
        let bytes = R::a_recording((width, height), 80, &mut numbers);
        let smaller = |side: u32, less: u32| side.saturating_sub(less).max(1);
        let read_for = (smaller(width, numbers.below(3)), smaller(height, numbers.below(3)));
        comparer.compare(&bytes, numbers.one_of(&[(width, height), read_for]));
    }
}

/// Recordings of which bytes were replaced, dropped and doubled.
fn damaged_recordings<R: Reached>(comparer: &mut Comparer<R>) {
    let mut numbers = Numbers::new(0x77aa_3bdc_3b43_0d2f);
    for _ in 0..100_000 {
        let picture = a_picture(&mut numbers);
        let mut bytes = R::a_recording(picture, 60, &mut numbers);
        damage(&mut bytes, &mut numbers);
        comparer.compare(&bytes, picture);
    }
}

/// Replaces, drops and doubles some bytes.
pub fn damage(bytes: &mut Vec<u8>, numbers: &mut Numbers) {
    for _ in 0..=numbers.below(4) {
        let at = numbers.below(bytes.len() as u32) as usize;
        match numbers.below(3) {
            0 => bytes[at] = numbers.any() as u8,
            1 => drop(bytes.remove(at)),
            _ => bytes.insert(at, bytes[at]),
        }
    }
}

/// Recordings that end or begin at any byte. Where they begin inside a word, every word is made of parts of two.
fn cut_recordings<R: Reached>(comparer: &mut Comparer<R>) {
    let mut numbers = Numbers::new(0x51ae_03f7_44b5_c98b);
    for _ in 0..400 {
        let picture = a_picture(&mut numbers);
        let bytes = R::a_recording(picture, 60, &mut numbers);
        for at in 0..=bytes.len() {
            comparer.compare(&bytes[..at], picture);
            comparer.compare(&bytes[at..], picture);
        }
    }
}

/// Every pair of a width and a height at their limits.
fn pictures<R: Reached>(comparer: &mut Comparer<R>) {
    const SIDES: [u32; 7] = [0, 1, 2, 2_047, 2_048, 2_049, u32::MAX];
    let mut numbers = Numbers::new(0x3d0c_11e8_72a9_54f1);
    for _ in 0..200 {
        let bytes = R::a_recording(LARGEST, 60, &mut numbers);
        for (width, height) in SIDES.iter().flat_map(|&width| SIDES.map(|height| (width, height))) {
            comparer.compare(&bytes, (width, height));
        }
    }
}

/// Every length of buffer from none to one that is longer than the rows.
fn buffers<R: Reached>(comparer: &mut Comparer<R>) {
    let mut numbers = Numbers::new(0x4e62_7d90_b8f3_21c7);
    for _ in 0..300 {
        let picture = a_picture(&mut numbers);
        let bytes = R::a_recording(picture, 30, &mut numbers);
        let rows = R::second(&bytes, picture.0, picture.1, usize::MAX).rows.len();
        for lent in 0..10 * rows + 20 {
            comparer.compare_lent(&bytes, picture, lent);
        }
    }
}

/// Inputs of one sort, by name.
pub type Family<R> = (&'static str, fn(&mut Comparer<R>));

/// Compares on the format's own families and on those above.
pub fn compare_all<R: Reached>(reader: Reader, own: &[Family<R>]) {
    let shared: [Family<R>; 5] = [
        ("recordings", recordings),
        ("damaged recordings", damaged_recordings),
        ("cut recordings", cut_recordings),
        ("pictures", pictures),
        ("buffers", buffers),
    ];
    let mut comparer = Comparer::new(reader);
    for (name, family) in own.iter().chain(&shared) {
        let before = comparer.inputs;
        family(&mut comparer);
        println!("{name}: {} inputs", comparer.inputs - before);
    }
    comparer.check();
}

/// The longest input that is read and the next one. Neither is looked at past its first word, whose type 9 every format reserves.
pub fn compare_longest<R: Reached>(readers: [Reader; 2]) {
    let mut bytes = vec![0u8; MOST_BYTES + 1];
    bytes[R::SIZE - 1] = 0x90;
    let inputs = [(MOST_BYTES, LARGEST, 3), (MOST_BYTES, (0, 1), 14), (MOST_BYTES + 1, LARGEST, 1), (MOST_BYTES + 1, (0, 1), 1)];
    for reader in readers {
        let mut comparer = Comparer::<R>::new(reader);
        for (length, picture, refusal) in inputs {
            let before = comparer.refused(refusal);
            comparer.compare_lent(&bytes[..length], picture, 25);
            assert_eq!(comparer.refused(refusal), before + 1, "{length} bytes were to be refused {refusal}");
        }
    }
}
