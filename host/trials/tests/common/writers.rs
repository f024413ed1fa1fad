//! What the tests of all writers of words share: a writer is held to the second implementation, on lists of its format's own and on those
//! that every format is tried with. What was written is read back.
#[path = "lent.rs"]
mod lent;
#[path = "lists.rs"]
mod lists;

use fryskelom::{Fault, RowFault};
use std::collections::BTreeSet;
use trials::samples::Numbers;
use trials::second::rows::{time_of, Row, MOST_ROWS};
use trials::second::words::Writing;
use trials::LAST_REFUSAL;

/// The refusal, and the number of words or the index of a row.
pub type Answer = (u64, u64);

pub type Writer = fn(&[u32], &mut [u8]) -> Answer;

pub type Reader = fn(&[u8], u32, u32, &mut [u32]) -> Result<usize, Fault>;

pub fn answer(writing: Result<usize, RowFault>) -> Answer {
    match writing {
        Ok(words) => (0, words as u64),
        Err(fault) => (fault.refusal.0, fault.row as u64),
    }
}

/// A format of words, and what its lists have reached.
pub trait Reached: Default {
    /// How many bytes a word takes.
    const SIZE: usize;

    /// The kinds of rows that can be written.
    const KINDS: &'static [u32];

    /// After how many microseconds each part of the clock begins anew.
    const CLOCK: &'static [u64];

    /// The second implementation.
    fn second(numbers: &[u32], lent: usize) -> Writing;

    /// The most words that the rows may take.
    fn most_words(rows: &[Row]) -> usize;

    /// The number of values that each of a kind's data numbers may take where the kind can be written; nothing where there is no such kind.
    fn limits(kind: u32) -> Option<[u64; 7]>;

    /// A list that can be written.
    fn a_list(most_events: u32, numbers: &mut Numbers) -> Vec<Row>;

    /// Counts what a list and its words have reached.
    fn count(&mut self, rows: &[Row], bytes: &[u8]);

    /// Fails where something that the lists are there for was not reached.
    fn check(&self);
}

/// Fails where something was reached by few lists or by none.
pub fn often(what: &str, which: usize, count: usize) {
    assert!(count >= 500, "{what} {which}: {count} times only");
}

/// Holds a writer to the second implementation, reads back what it has written, and counts what was reached.
pub struct Comparer<R> {
    writer: Writer,
    reader: Reader,
    inputs: usize,
    written: usize,
    /// Rows of a time that takes more than 32 bits.
    late: usize,
    /// Rows that go back (5) and rows at fault (12), by the index 0, 1, 2 or a later one.
    refused: [[usize; 4]; LAST_REFUSAL + 1],
    /// Rows at fault by kind, 7 standing for all others, and by the first number that breaks a rule of this kind.
    broken: [[usize; 10]; 8],
    /// Rows at fault that also go back.
    both: usize,
    /// Buffers that are too short, by the bytes missing: one to seven, or more.
    short: [usize; 9],
    /// Lists with a part of a row at the end, by its length.
    parts: [usize; 10],
    reached: R,
}

impl<R: Reached> Comparer<R> {
    fn new(writer: Writer, reader: Reader) -> Comparer<R> {
        let reached = R::default();
        Comparer {
            writer,
            reader,
            inputs: 0,
            written: 0,
            late: 0,
            refused: [[0; 4]; LAST_REFUSAL + 1],
            broken: [[0; 10]; 8],
            both: 0,
            short: [0; 9],
            parts: [0; 10],
            reached,
        }
    }

    /// Compares with buffers that are as long as the words, a byte or a word shorter, a byte longer, empty, and always long enough.
    pub fn compare(&mut self, numbers: &[u32]) {
        let length = R::second(numbers, usize::MAX).bytes.len();
        let enough = R::SIZE * R::most_words(numbers.as_chunks().0);
        for lent in BTreeSet::from([0, length.saturating_sub(R::SIZE), length.saturating_sub(1), length, length + 1, enough]) {
            self.compare_lent(numbers, lent, length.saturating_sub(lent));
        }
    }

    /// Compares with a buffer of so many bytes, to which those that are `missing` for the words would have to be added.
    pub fn compare_lent(&mut self, numbers: &[u32], lent: usize, missing: usize) {
        let expected = R::second(numbers, lent);
        let input = || format!("{lent} bytes lent, rows {:?}", numbers.chunks(10).take(400).collect::<Vec<_>>());
        lent::hold(|out| (self.writer)(numbers, out), lent, expected.answer(), &expected.bytes, input);
        if expected.refusal == 0 {
            assert!(expected.count <= R::most_words(numbers.as_chunks().0), "more words than there may be; {}", input());
            self.read_back(numbers, &expected.bytes);
        }
        self.count(numbers, missing, &expected);
    }

    /// With room for the list alone, reading gives the list.
    fn read_back(&self, numbers: &[u32], bytes: &[u8]) {
        let mut rows = vec![u32::MAX; numbers.len()];
        assert_eq!((self.reader)(bytes, 2_048, 2_048, &mut rows), Ok(numbers.len() / 10));
        assert_eq!(rows, numbers);
    }

    fn count(&mut self, numbers: &[u32], missing: usize, writing: &Writing) {
        let (rows, part) = numbers.as_chunks();
        self.inputs += 1;
        match writing.refusal {
            0 => {
                self.written += 1;
                self.late += rows.iter().filter(|row| row[2] > 0).count();
                self.reached.count(rows, &writing.bytes);
            }
            2 => self.short[missing.min(8)] += 1,
            13 => self.parts[part.len()] += 1,
            refusal => self.count_fault(refusal, rows, writing.count),
        }
    }

    fn count_fault(&mut self, refusal: u64, rows: &[Row], index: usize) {
        self.refused[refusal as usize][index.min(3)] += 1;
        if refusal == 12 {
            let row = &rows[index];
            self.broken[row[0].min(7) as usize][first_broken::<R>(row)] += 1;
            self.both += usize::from(index > 0 && time_of(row) < time_of(&rows[index - 1]));
        }
    }

    /// Every refusal at every index, every rule of every number, and what the format asks for was reached often.
    fn check(&self) {
        (0..4).for_each(|index| often("refusal 12 at row", index, self.refused[12][index]));
        (1..4).for_each(|index| often("refusal 5 at row", index, self.refused[5][index]));
        for kind in 0..8 {
            // the low half of the time breaks no rule, nor does a kind that can be written
            let numbers = if R::KINDS.contains(&kind) { 2..10 } else { 0..1 };
            numbers.for_each(|number| often(&format!("kind {kind}, broken number"), number, self.broken[kind as usize][number]));
        }
        (1..9).for_each(|missing| often("bytes missing", missing, self.short[missing]));
        (1..10).for_each(|length| often("numbers of a part of a row", length, self.parts[length]));
        for (what, count) in [("lists written", self.written), ("rows past 32 bits", self.late), ("bad rows that go back", self.both)] {
            often(what, 1, count);
        }
        self.reached.check();
    }
}

/// The first number of a row at fault that breaks a rule: of its kind, or, where the kind has no words, the kind.
fn first_broken<R: Reached>(row: &Row) -> usize {
    if !R::KINDS.contains(&row[0]) {
        return 0;
    }
    let limits = R::limits(row[0]).expect("the limits of a kind");
    let over = |i: usize| if i == 2 { row[2] >= 4 } else { u64::from(row[i]) >= limits[i - 3] };
    (2..10).find(|&i| over(i)).expect("a rule that the row breaks")
}

/// Lists of one sort, by name.
pub type Family<R> = (&'static str, fn(&mut Comparer<R>));

/// Compares on the format's own families and on those of every format.
pub fn compare_all<R: Reached>(writer: Writer, reader: Reader, own: &[Family<R>]) {
    let mut comparer = Comparer::new(writer, reader);
    for (name, family) in own.iter().chain(&lists::families()) {
        let before = comparer.inputs;
        family(&mut comparer);
        println!("{name}: {} inputs", comparer.inputs - before);
    }
    comparer.check();
}

/// The longest list that is looked at and the next ones. None is looked at past its first row, which is bad.
pub fn compare_longest<R: Reached>(writers: [Writer; 2]) {
    let numbers = vec![0; 10 * MOST_ROWS + 10];
    for (length, refusal) in [(10 * MOST_ROWS, 12), (10 * MOST_ROWS + 1, 13), (10 * MOST_ROWS + 10, 13)] {
        for writer in writers {
            let mut out = [7; 8];
            assert_eq!(writer(&numbers[..length], &mut out), (refusal, 0), "{length} numbers");
            assert_eq!(out, [7; 8]);
        }
        assert_eq!(R::second(&numbers[..length], 8), Writing { refusal, count: 0, bytes: vec![] });
    }
}

/// Writes as many rows as a list may have, each given by its index, and compares with the words that they are to become.
pub fn write_longest<const N: usize, W: Iterator<Item = [u8; N]>>(writers: [Writer; 2], row: impl Fn(usize) -> Row, words: impl Fn() -> W) {
    let numbers: Vec<u32> = (0..MOST_ROWS).flat_map(row).collect();
    let count = words().count();
    let mut out = vec![[0; N]; count + 1];
    for writer in writers {
        out.fill([7; N]);
        assert_eq!(writer(&numbers, &mut out.as_flattened_mut()[..N * count]), (0, count as u64));
        let wrong = out.iter().zip(words().chain([[7; N]])).position(|(is, should)| *is != should);
        assert_eq!(wrong, None, "the first wrong word");
        assert_eq!(writer(&numbers, &mut out.as_flattened_mut()[..N * count - 1]), (2, 0));
    }
}
