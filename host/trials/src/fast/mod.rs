//! Readers and writers made by hand for speed: what a program without proofs would do. They give the same rows, words and refusals as
//! the library.
use fryskelom::{Fault, Refusal, RowFault};

pub mod aedat;
pub mod dat;
pub mod evt2;
pub mod evt3;
pub mod header;

const MOST_BYTES: usize = 1 << 30;
const MOST_ROWS: usize = 1 << 24;
const SIDE: u32 = 2_048;

/// What a reader of words refuses before any word.
fn admit(bytes: &[u8], width: u32, height: u32) -> Result<(), Fault> {
    let fault = |refusal| Err(Fault { refusal, rows: 0, place: 0 });
    if bytes.len() > MOST_BYTES {
        return fault(Refusal::TOO_LONG);
    }
    if !(1..=SIDE).contains(&width) || !(1..=SIDE).contains(&height) {
        return fault(Refusal::BAD_PICTURE);
    }
    Ok(())
}

type Row = [u32; 10];

/// Does what a writer of words of N bytes does. `judge` says how many words a list takes, `spell` writes them into a buffer just as long.
fn write<const N: usize>(
    rows: &[u32],
    out: &mut [u8],
    judge: impl Fn(&[Row]) -> Result<usize, RowFault>,
    spell: impl Fn(&[Row], &mut [[u8; N]]),
) -> Result<usize, RowFault> {
    let (rows, rest) = rows.as_chunks();
    if !rest.is_empty() || rows.len() > MOST_ROWS {
        return Err(RowFault { refusal: Refusal::BAD_LIST, row: 0 });
    }
    let words = judge(rows)?;
    match out.as_chunks_mut().0.get_mut(..words) {
        Some(out) => spell(rows, out),
        None => return Err(RowFault { refusal: Refusal::NO_ROOM, row: 0 }),
    }
    Ok(words)
}

/// The bits that no row of a kind has set in its numbers from the third on, if a format can write it.
type Never = [u32; 8];

/// The upper half of the time, and a number that is not used.
const HIGH: u32 = !3;
const NONE: u32 = !0;

/// A pixel in a format of so many cameras, 1 or 2.
const fn pixel(cameras: u32) -> Never {
    [HIGH, !(SIDE - 1), !(SIDE - 1), !1, !(cameras - 1), NONE, NONE, NONE]
}

/// A trigger in a format of so many channels, which are a power of two.
const fn trigger(channels: u32) -> Never {
    [HIGH, !(channels - 1), !1, NONE, NONE, NONE, NONE, NONE]
}

#[inline(always)]
fn fits(row: &Row, never: &Never) -> bool {
    // all numbers at once: the compiler makes vector instructions of this
    row[2..].iter().zip(never).fold(0, |over, (number, never)| over | number & never) == 0
}

#[inline(always)]
fn time_of(row: &Row) -> u64 {
    u64::from(row[2]) << 32 | u64::from(row[1])
}
