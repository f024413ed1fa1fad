//! What readers and writers of words have in common: what they answer, and what they refuse whatever the words are.
use super::rows::{first_fault, Row};

/// The longest input.
pub const MOST_BYTES: usize = 1_073_741_824;
/// The most columns or lines of a picture.
pub const SIDE: u32 = 2_048;

/// What a reading is to answer.
#[derive(Default)]
pub struct Reading {
    /// 0 where the whole input was read.
    pub refusal: u64,
    /// The finished rows.
    pub rows: Vec<Row>,
    /// The first byte of what is at fault; 0 where nothing is.
    pub place: usize,
    /// For each word that was read without refusal, how many rows it gave. The row of a group counts for its first word.
    pub given: Vec<usize>,
}

impl Reading {
    /// The answer where a word or a group is refused after what was read before it.
    pub fn refused(self, refusal: u64, place: usize) -> Reading {
        Reading { refusal, place, ..self }
    }

    /// What the library is to answer: the refusal, the number of finished rows and the place.
    pub fn answer(&self) -> (u64, u64, u64) {
        (self.refusal, self.rows.len() as u64, self.place as u64)
    }
}

/// Why an input is refused before any of its words is looked at, or 0.
pub fn refusal_before_words(bytes: &[u8], width: u32, height: u32) -> u64 {
    if bytes.len() > MOST_BYTES {
        1
    } else if [width, height].iter().any(|&side| side == 0 || side > SIDE) {
        14
    } else {
        0
    }
}

/// The number that bytes make, low byte first.
pub fn number(bytes: &[u8]) -> u64 {
    bytes.iter().rev().fold(0, |number, &byte| 256 * number + u64::from(byte))
}

/// What a writing is to answer.
#[derive(Debug, PartialEq, Eq)]
pub struct Writing {
    /// 0 where the list was written.
    pub refusal: u64,
    /// The number of words, or the index of the row at fault.
    pub count: usize,
    /// What stands at the buffer's start afterwards.
    pub bytes: Vec<u8>,
}

impl Writing {
    /// What the library is to answer: the refusal, and the number of words or the index of a row.
    pub fn answer(&self) -> (u64, u64) {
        (self.refusal, self.count as u64)
    }
}

/// A format that lists are written in.
pub struct Format {
    /// How many bytes a word takes.
    pub bytes_a_word: usize,
    /// Which good rows it has words for.
    pub can_write: fn(&Row) -> bool,
    /// The words of rows that can be written.
    pub words_of: fn(&[Row]) -> Vec<u32>,
}

/// Writes a list of numbers into a buffer of so many bytes.
pub fn write(format: &Format, numbers: &[u32], lent: usize) -> Writing {
    let refused = |refusal, count| Writing { refusal, count, bytes: vec![] };
    if let Some((refusal, index)) = first_fault(numbers, format.can_write) {
        return refused(refusal, index);
    }
    let words = (format.words_of)(numbers.as_chunks().0);
    if lent < format.bytes_a_word * words.len() {
        return refused(2, 0);
    }
    let bytes = words.iter().flat_map(|word| word.to_le_bytes().into_iter().take(format.bytes_a_word)).collect();
    Writing { refusal: 0, count: words.len(), bytes }
}
