//! Times of two ways of doing the same, which take turns and use the same buffer.
use std::hint::black_box;
use std::time::Instant;

/// From an input into a buffer; answers how many rows or words it has put there.
pub type Way<I, O> = fn(&[I], &mut [O]) -> usize;

/// The seconds that each took in one round, one after the other.
pub struct Round {
    pub by_hand: f64,
    pub library: f64,
    /// Filling the part of the buffer that both use, with nothing read.
    pub filling: f64,
}

impl Round {
    /// How fast the library was, if the code by hand is 1.
    pub fn ratio(&self) -> f64 {
        self.by_hand / self.library
    }

    /// How fast it was, if filling is 1.
    pub fn to_filling(&self) -> f64 {
        self.filling / self.library
    }
}

pub struct Measured {
    /// The length of the input.
    pub bytes: usize,
    pub rows: usize,
    rounds: Vec<Round>,
}

impl Measured {
    /// The lowest, the middle and the highest of what the rounds gave.
    pub fn spread(&self, figure: impl Fn(&Round) -> f64) -> [f64; 3] {
        let mut figures: Vec<f64> = self.rounds.iter().map(figure).collect();
        figures.sort_by(f64::total_cmp);
        [0, figures.len() / 2, figures.len() - 1].map(|index| figures[index])
    }

    pub fn middle(&self, figure: impl Fn(&Round) -> f64) -> f64 {
        self.spread(figure)[1]
    }
}

/// Times two readers of a recording, into room for so many rows.
pub fn reading(bytes: &[u8], room: usize, rounds: usize, ways: [Way<u8, u32>; 2]) -> Measured {
    let (rows, rounds) = measure(bytes, vec![u32::MAX; 10 * room], 10, rounds, ways);
    Measured { bytes: bytes.len(), rows, rounds }
}

/// Times two writers of a list, into room for so many words of a size.
pub fn writing(rows: &[u32], room: usize, size: usize, rounds: usize, ways: [Way<u32, u8>; 2]) -> Measured {
    let (_, rounds) = measure(rows, vec![u8::MAX; size * room], size, rounds, ways);
    Measured { bytes: size_of_val(rows), rows: rows.len() / 10, rounds }
}

/// Times two that look through a recording and put nothing anywhere; they answer how many words they have looked at.
pub fn looking(bytes: &[u8], rounds: usize, ways: [Way<u8, u8>; 2]) -> Measured {
    let (rows, rounds) = measure(bytes, vec![], 0, rounds, ways);
    Measured { bytes: bytes.len(), rows, rounds }
}

/// Times two ways after both have put the same into the buffer: so many rows or words of a size.
fn measure<I, O>(input: &[I], mut buffer: Vec<O>, size: usize, rounds: usize, [by_hand, library]: [Way<I, O>; 2]) -> (usize, Vec<Round>)
where
    O: Copy + PartialEq + From<u8>,
{
    let count = by_hand(input, &mut buffer);
    let expected = buffer[..size * count].to_vec();
    buffer.fill(O::from(u8::MAX));
    assert_eq!(library(input, &mut buffer), count);
    buffer.truncate(size * count);
    assert!(buffer == expected, "the two put different things into the buffer");
    drop(expected);

    let mut seconds = |way: Way<I, O>| seconds(way, input, &mut buffer);
    let round = |_| Round { by_hand: seconds(by_hand), library: seconds(library), filling: seconds(fill) };
    (count, (0..rounds).map(round).collect())
}

/// Fills the buffer, and reads nothing.
fn fill<I, O: Copy + From<u8>>(_: &[I], out: &mut [O]) -> usize {
    out.fill(O::from(1));
    out.len()
}

fn seconds<I, O>(way: Way<I, O>, input: &[I], buffer: &mut [O]) -> f64 {
    let start = Instant::now();
    black_box(way(black_box(input), black_box(buffer)));
    start.elapsed().as_secs_f64()
}
