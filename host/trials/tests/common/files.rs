//! What the tests of all readers of files share: a reader is held to the second implementation, on inputs of its format's own and on files
//! that are damaged, cut, changed at every byte and short of room.
#[path = "lent.rs"]
mod lent;
#[path = "often.rs"]
mod often;

pub use often::often;
use trials::samples::Numbers;
use trials::second::words::{Reading, MOST_BYTES};

/// The refusal, the finished rows and the place.
pub type Answer = (u64, u64, u64);

pub type Reader = fn(&[u8], &mut [u32]) -> Answer;

/// A format of files, and what its inputs have reached.
pub trait Reached: Default {
    /// The second implementation.
    fn second(bytes: &[u8], room: usize) -> Reading;

    /// A made-up file.
    fn a_file(most_events: u32, numbers: &mut Numbers) -> Vec<u8>;

    /// A file of which every byte is tried.
    fn a_short_file(numbers: &mut Numbers) -> Vec<u8>;

    /// Counts what an input has reached.
    fn count(&mut self, bytes: &[u8], reading: &Reading);

    /// Fails where something that the inputs are there for was not reached.
    fn check(&self);
}

/// Holds a reader to the second implementation and counts what was reached.
pub struct Comparer<R> {
    reader: Reader,
    inputs: usize,
    reached: R,
}

impl<R: Reached> Comparer<R> {
    fn new(reader: Reader) -> Comparer<R> {
        Comparer { reader, inputs: 0, reached: R::default() }
    }

    /// Compares with room for every row: for just that many, or for a little more.
    pub fn compare(&mut self, bytes: &[u8]) {
        let expected = R::second(bytes, usize::MAX);
        self.hold(bytes, 10 * expected.rows.len() + self.inputs % 12, expected);
    }

    /// Compares with a buffer of so many numbers.
    pub fn compare_lent(&mut self, bytes: &[u8], lent: usize) {
        self.hold(bytes, lent, R::second(bytes, lent / 10));
    }

    fn hold(&mut self, bytes: &[u8], lent: usize, expected: Reading) {
        let input = || format!("{lent} numbers lent, {}", bytes[..bytes.len().min(8_192)].escape_ascii());
        lent::hold(|rows| (self.reader)(bytes, rows), lent, expected.answer(), expected.rows.as_flattened(), input);
        self.inputs += 1;
        self.reached.count(bytes, &expected);
    }
}

/// Files of which bytes were replaced, dropped and doubled, about one in two of these among the first 120.
fn damaged_files<R: Reached>(comparer: &mut Comparer<R>) {
    let mut numbers = Numbers::new(0x77aa_3bdc_3b43_0d2f);
    for _ in 0..100_000 {
        let mut bytes = R::a_file(40, &mut numbers);
        for _ in 0..=numbers.below(3) {
            let most = numbers.one_of(&[bytes.len(), bytes.len().min(120)]);
            let at = numbers.below(most as u32) as usize;
            match numbers.below(3) {
                0 => bytes[at] = numbers.any() as u8,
                1 => drop(bytes.remove(at)),
                _ => bytes.insert(at, bytes[at]),
            }
        }
        comparer.compare(&bytes);
    }
}

/// Files that end or begin at any byte.
fn cut_files<R: Reached>(comparer: &mut Comparer<R>) {
    let mut numbers = Numbers::new(0x51ae_03f7_44b5_c98b);
    for _ in 0..250 {
        let bytes = R::a_file(40, &mut numbers);
        for at in 0..=bytes.len() {
            comparer.compare(&bytes[..at]);
            comparer.compare(&bytes[at..]);
        }
    }
}

/// Files of which each byte is replaced by every other.
fn changed_bytes<R: Reached>(comparer: &mut Comparer<R>) {
    let mut numbers = Numbers::new(0x3d0c_11e8_72a9_54f1);
    for _ in 0..12 {
        let mut bytes = R::a_short_file(&mut numbers);
        for at in 0..bytes.len() {
            let before = bytes[at];
            for byte in 0..=u8::MAX {
                bytes[at] = byte;
                comparer.compare(&bytes);
            }
            bytes[at] = before;
        }
    }
}

/// Every length of buffer from none to one that is longer than the rows.
fn buffers<R: Reached>(comparer: &mut Comparer<R>) {
    let mut numbers = Numbers::new(0x4e62_7d90_b8f3_21c7);
    for _ in 0..200 {
        let bytes = R::a_file(30, &mut numbers);
        let rows = R::second(&bytes, usize::MAX).rows.len();
        for lent in 0..10 * rows + 20 {
            comparer.compare_lent(&bytes, lent);
        }
    }
}

/// Inputs of one sort, by name.
pub type Family<R> = (&'static str, fn(&mut Comparer<R>));

/// Compares on the format's own families and on those above.
pub fn compare_all<R: Reached>(reader: Reader, own: &[Family<R>]) {
    let shared: [Family<R>; 4] = [("damaged files", damaged_files), ("cut files", cut_files), ("changed bytes", changed_bytes), ("buffers", buffers)];
    let mut comparer = Comparer::new(reader);
    for (name, family) in own.iter().chain(&shared) {
        let before = comparer.inputs;
        family(&mut comparer);
        println!("{name}: {} inputs", comparer.inputs - before);
    }
    println!("all: {} inputs", comparer.inputs);
    comparer.reached.check();
}

/// The longest input that is read and the next one: a start, then zeros. Neither gives a row.
pub fn compare_longest<R: Reached>(readers: &[Reader], start: &[u8], expected: Answer) {
    let mut bytes = vec![0; MOST_BYTES + 1];
    bytes[..start.len()].copy_from_slice(start);
    for &reader in readers {
        let mut comparer = Comparer::<R>::new(reader);
        for (length, expected) in [(MOST_BYTES, expected), (MOST_BYTES + 1, (1, 0, 0))] {
            let mut rows = [7; 25];
            assert_eq!(reader(&bytes[..length], &mut rows), expected, "{length} bytes");
            assert_eq!(rows, [7; 25]);
            comparer.compare_lent(&bytes[..length], 25);
        }
    }
}
