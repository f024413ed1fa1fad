//! A lent buffer, looked at from its first number to its last and around it.
use std::fmt::Debug;

/// What buffers are made of.
pub trait Number: Copy + PartialEq {
    /// The number that stands at an index before the buffer is lent.
    fn untouched(index: usize) -> Self;
}

impl Number for u32 {
    fn untouched(index: usize) -> u32 {
        (index as u32 + 1).wrapping_mul(0x9e37_79b1)
    }
}

impl Number for u8 {
    fn untouched(index: usize) -> u8 {
        (u32::untouched(index) >> 24) as u8
    }
}

/// Lends the middle part of a buffer to a reader or a writer, and compares the answer and the whole buffer afterwards: `put` is to stand at the
/// start of the lent part, and all else is to be untouched.
pub fn hold<N: Number, A: Debug + PartialEq>(work: impl Fn(&mut [N]) -> A, lent: usize, answer: A, put: &[N], input: impl Fn() -> String) {
    // before and after it, as much as the rows of a vector
    const AROUND: usize = 120;
    let mut buffer: Vec<N> = (0..lent + 2 * AROUND).map(N::untouched).collect();
    assert_eq!(work(&mut buffer[AROUND..AROUND + lent]), answer, "{}", input());

    let should = |index: usize| put.get(index.wrapping_sub(AROUND)).copied().unwrap_or_else(|| N::untouched(index));
    let wrong = buffer.iter().enumerate().position(|(index, &is)| is != should(index));
    assert_eq!(wrong.map(|index| index as isize - AROUND as isize), None, "the first wrong number; {}", input());
}
