//! The reader and the writer of EVT2 words.
use super::{admit, fits, pixel, time_of, trigger, Never, Row, HIGH, NONE};
use fryskelom::{Fault, Refusal, RowFault};
use std::slice::IterMut;

type Word = [u8; 4];

/// A refusal, and how many words after the first one its place is.
type Stop = (Refusal, usize);

fn at_first(refusal: Refusal) -> Stop {
    (refusal, 0)
}

/// Does what `fryskelom::read_evt2` does.
pub fn read(bytes: &[u8], width: u32, height: u32, rows: &mut [u32]) -> Result<usize, Fault> {
    admit(bytes, width, height)?;
    let (rows, _) = rows.as_chunks_mut();
    let (words, half) = bytes.as_chunks();
    let room = rows.len();
    let mut reader = Reader { width, height, rows: rows.iter_mut(), high: None };
    let mut rest = words;
    let (refusal, after) = loop {
        let Some((&word, next)) = rest.split_first() else {
            match half {
                [] => return Ok(room - reader.rows.len()),
                _ => break at_first(Refusal::CUT),
            }
        };
        match reader.word(u32::from_le_bytes(word), next) {
            Ok(next) => rest = next,
            Err(stop) => break stop,
        }
    };
    Err(Fault { refusal, rows: room - reader.rows.len(), place: 4 * (words.len() - rest.len() + after) })
}

struct Reader<'a> {
    width: u32,
    height: u32,
    /// The rows that are still free.
    rows: IterMut<'a, Row>,
    high: Option<u32>,
}

impl Reader<'_> {
    /// Reads a word and those that belong to it, and hands back what follows.
    #[inline(always)]
    fn word<'w>(&mut self, word: u32, next: &'w [Word]) -> Result<&'w [Word], Stop> {
        match word >> 28 {
            0x0 | 0x1 => self.pixel(word).map_err(at_first)?,
            0x8 => self.time_high(word & 0x0fff_ffff).map_err(at_first)?,
            0xa => self.trigger(word).map_err(at_first)?,
            0xd => return self.imu(word, next),
            0xe | 0xf => {}
            _ => return Err(at_first(Refusal::RESERVED)),
        }
        Ok(next)
    }

    #[inline(always)]
    fn time_high(&mut self, high: u32) -> Result<(), Refusal> {
        if self.high.is_some_and(|previous| high < previous) {
            return Err(Refusal::BAD_TIME);
        }
        self.high = Some(high);
        Ok(())
    }

    /// The time of a word as a row has it: the low 32 bits and the rest.
    #[inline(always)]
    fn time(&self, word: u32) -> Option<[u32; 2]> {
        self.high.map(|high| [high << 6 | word >> 22 & 0x3f, high >> 26])
    }

    #[inline(always)]
    fn pixel(&mut self, word: u32) -> Result<(), Refusal> {
        let Some([low, high]) = self.time(word) else { return Ok(()) };
        let (x, y) = (word >> 11 & 0x7ff, word & 0x7ff);
        if x >= self.width || y >= self.height {
            return Err(Refusal::OUTSIDE);
        }
        *self.rows.next().ok_or(Refusal::NO_ROOM)? = [1, low, high, x, y, word >> 28, 0, 0, 0, 0];
        Ok(())
    }

    #[inline(always)]
    fn trigger(&mut self, word: u32) -> Result<(), Refusal> {
        let Some([low, high]) = self.time(word) else { return Ok(()) };
        *self.rows.next().ok_or(Refusal::NO_ROOM)? = [2, low, high, word >> 8 & 0x1f, word & 1, 0, 0, 0, 0, 0];
        Ok(())
    }

    fn imu<'w>(&mut self, word: u32, next: &'w [Word]) -> Result<&'w [Word], Stop> {
        let Some([low, high]) = self.time(word) else { return Ok(next) };
        let (continued, next) = continued(next)?;
        let [b, c, d, e, f] = continued.map(|word| u32::from_le_bytes(word) >> 1 & 0xffff);
        *self.rows.next().ok_or(at_first(Refusal::NO_ROOM))? = [3, low, high, word >> 1 & 0xffff, b, c, d, e, f, 0];
        Ok(next)
    }
}

/// The next five words, which have to be CONTINUED, and what follows them.
#[inline(always)]
fn continued(words: &[Word]) -> Result<([Word; 5], &[Word]), Stop> {
    let stray = words.iter().take(5).position(|word| word[3] < 0xf0);
    match (stray, words.split_first_chunk()) {
        (Some(index), _) => Err((Refusal::STRAY, 1 + index)),
        (None, Some((&group, next))) => Ok((group, next)),
        (None, None) => Err(at_first(Refusal::CUT)),
    }
}

/// Does what `fryskelom::write_evt2` does. The list is judged whole before the first word is written.
pub fn write(rows: &[u32], out: &mut [u8]) -> Result<usize, RowFault> {
    super::write(rows, out, judge, spell)
}

/// How many words a list takes.
fn judge(rows: &[Row]) -> Result<usize, RowFault> {
    let (mut words, mut previous, mut clock) = (0, 0, None);
    for (index, row) in rows.iter().enumerate() {
        let fault = |refusal| RowFault { refusal, row: index };
        let length = length(row).ok_or(fault(Refusal::BAD_ROW))?;
        let time = time_of(row);
        if time < previous {
            return Err(fault(Refusal::BAD_TIME));
        }
        words += length + usize::from(clock != Some(time >> 6));
        (previous, clock) = (time, Some(time >> 6));
    }
    Ok(words)
}

/// What a writable row of kinds 1 to 3 is, and how many words it takes.
const KINDS: [(Never, usize); 3] = {
    const COUNT: u32 = !0xffff;
    [(pixel(1), 1), (trigger(32), 1), ([HIGH, COUNT, COUNT, COUNT, COUNT, COUNT, COUNT, NONE], 6)]
};

/// How many words an event takes, TIME_HIGH apart; nothing for a row that has none.
#[inline(always)]
fn length(row: &Row) -> Option<usize> {
    let (never, length) = KINDS.get((row[0] as usize).wrapping_sub(1))?;
    fits(row, never).then_some(*length)
}

/// Writes the words of a list that was judged; the buffer is just as long as they are.
fn spell(rows: &[Row], out: &mut [Word]) {
    let mut out = out.iter_mut();
    let mut put = |word: u32| {
        if let Some(out) = out.next() {
            *out = word.to_le_bytes();
        }
    };
    let mut clock = None;
    for &[kind, low, high, a, b, c, d, e, f, _] in rows {
        let time = high << 26 | low >> 6;
        if clock != Some(time) {
            put(0x8 << 28 | time);
            clock = Some(time);
        }
        let low = (low & 0x3f) << 22;
        match kind {
            1 => put(c << 28 | low | a << 11 | b),
            2 => put(0xa << 28 | low | a << 8 | b),
            _ => {
                put(0xd << 28 | low | a << 1);
                [b, c, d, e, f].into_iter().for_each(|count| put(0xf << 28 | low | count << 1));
            }
        }
    }
}
