//! The reader and the writer of EVT3 words.
use super::{admit, fits, pixel, time_of, trigger, Never, Row, SIDE};
use fryskelom::{Fault, Refusal, RowFault};
use std::slice::IterMut;

const MOST_WRAPS: u32 = 1_023;

/// A drop of the high part that is a wrap; a smaller one is refused.
const WRAP: u32 = 2_048;

/// Does what `fryskelom::read_evt3` does.
pub fn read(bytes: &[u8], width: u32, height: u32, rows: &mut [u32]) -> Result<usize, Fault> {
    admit(bytes, width, height)?;
    let fault = |refusal, rows, place| Err(Fault { refusal, rows, place });
    let (rows, _) = rows.as_chunks_mut();
    let (words, half) = bytes.as_chunks();
    let room = rows.len();
    let mut reader = Reader { width, height, rows: rows.iter_mut(), wraps: 0, high: None, time: None, y: None, camera: 0, base: None };
    for (index, &word) in words.iter().enumerate() {
        if let Err(refusal) = reader.word(u16::from_le_bytes(word)) {
            return fault(refusal, room - reader.rows.len(), 2 * index);
        }
    }
    let finished = room - reader.rows.len();
    match half {
        [] => Ok(finished),
        _ => fault(Refusal::CUT, finished, 2 * words.len()),
    }
}

/// Does what `fryskelom::whole_evt3` does, without a branch for any type of word.
pub fn whole(bytes: &[u8]) -> Option<usize> {
    let [mut high, mut low, mut line, mut base] = [false; 4];
    for (index, &word) in bytes.as_chunks().0.iter().enumerate() {
        let kind = u16::from_le_bytes(word) >> 12;
        low |= (kind == 0x6) & high;
        high |= kind == 0x8;
        line |= kind == 0x0;
        base |= kind == 0x3;
        if low & line & base {
            return Some(2 * index + 2);
        }
    }
    None
}

struct Reader<'a> {
    width: u32,
    height: u32,
    /// The rows that are still free.
    rows: IterMut<'a, Row>,
    wraps: u32,
    high: Option<u32>,
    /// The time as a row has it: the low 32 bits and the rest.
    time: Option<[u32; 2]>,
    y: Option<u32>,
    /// The camera that was told with y.
    camera: u32,
    /// The column and the polarity of the next vector's first pixel.
    base: Option<(u32, u32)>,
}

impl Reader<'_> {
    #[inline(always)]
    fn word(&mut self, word: u16) -> Result<(), Refusal> {
        let data = u32::from(word & 0xfff);
        let (top, address) = (data >> 11, data & 0x7ff);
        match word >> 12 {
            0x0 => (self.y, self.camera) = (Some(address), top),
            0x2 => return self.pixel(address, top),
            0x3 => self.base = Some((address, top)),
            0x4 => return self.vector(data, 12),
            0x5 => return self.vector(data & 0xff, 8),
            0x6 => self.time_low(data),
            0x8 => return self.time_high(data),
            0xa => return self.trigger(data >> 8, data & 1),
            0x7 | 0xe | 0xf => {}
            _ => return Err(Refusal::RESERVED),
        }
        Ok(())
    }

    #[inline(always)]
    fn time_low(&mut self, low: u32) {
        if let Some(high) = self.high {
            self.time = Some([self.wraps << 24 | high << 12 | low, self.wraps >> 8]);
        }
    }

    #[inline(always)]
    fn time_high(&mut self, high: u32) -> Result<(), Refusal> {
        if let Some(drop @ 1..) = self.high.map(|previous| previous.saturating_sub(high)) {
            if drop < WRAP || self.wraps == MOST_WRAPS {
                return Err(Refusal::BAD_TIME);
            }
            self.wraps += 1;
        }
        self.high = Some(high);
        Ok(())
    }

    #[inline(always)]
    fn pixel(&mut self, x: u32, polarity: u32) -> Result<(), Refusal> {
        let (Some([low, high]), Some(y)) = (self.time, self.y) else { return Ok(()) };
        if x >= self.width || y >= self.height {
            return Err(Refusal::OUTSIDE);
        }
        *self.rows.next().ok_or(Refusal::NO_ROOM)? = [1, low, high, x, y, polarity, self.camera, 0, 0, 0];
        Ok(())
    }

    #[inline(always)]
    fn vector(&mut self, mut bits: u32, columns: u32) -> Result<(), Refusal> {
        let Some((x, polarity)) = self.base else { return Ok(()) };
        if let (Some([low, high]), Some(y), Some(last)) = (self.time, self.y, bits.checked_ilog2()) {
            if x + last >= self.width || y >= self.height {
                return Err(Refusal::OUTSIDE);
            }
            let pixels = bits.count_ones() as usize;
            if pixels > self.rows.len() {
                return Err(Refusal::NO_ROOM);
            }
            for row in self.rows.by_ref().take(pixels) {
                *row = [1, low, high, x + bits.trailing_zeros(), y, polarity, self.camera, 0, 0, 0];
                bits &= bits - 1;
            }
        }
        self.base = Some((SIDE.min(x + columns), polarity));
        Ok(())
    }

    #[inline(always)]
    fn trigger(&mut self, channel: u32, edge: u32) -> Result<(), Refusal> {
        let Some([low, high]) = self.time else { return Ok(()) };
        *self.rows.next().ok_or(Refusal::NO_ROOM)? = [2, low, high, channel, edge, 0, 0, 0, 0, 0];
        Ok(())
    }
}

/// Does what `fryskelom::write_evt3` does. The list is judged whole before the first word is written.
pub fn write(rows: &[u32], out: &mut [u8]) -> Result<usize, RowFault> {
    super::write(rows, out, judge, spell)
}

/// What a writable row of kinds 1 and 2 is.
const KINDS: [Never; 2] = [pixel(2), trigger(16)];

/// The columns of a vector.
const COLUMNS: u32 = 12;

/// The time and the line before the first event. A line is what ADDR_Y says: y, and the camera above it.
const NO_TIME: i64 = -1;
const NO_LINE: u32 = 2 * SIDE;

#[inline(always)]
fn line_of(row: &Row) -> u32 {
    row[6] << 11 | row[4]
}

/// How many words a list takes.
fn judge(rows: &[Row]) -> Result<usize, RowFault> {
    let (mut words, mut time, mut line, mut last) = (0, NO_TIME, NO_LINE, &[0; 10]);
    let (mut base, mut vector) = (0, false);
    for (index, row) in rows.iter().enumerate() {
        let fault = |refusal| RowFault { refusal, row: index };
        let never = KINDS.get((row[0] as usize).wrapping_sub(1)).ok_or(fault(Refusal::BAD_ROW))?;
        if !fits(row, never) {
            return Err(fault(Refusal::BAD_ROW));
        }
        let &[kind, _, _, x, ..] = row;
        if !joins(last, row) {
            let now = time_of(row) as i64;
            if now < time {
                return Err(fault(Refusal::BAD_TIME));
            }
            words += 1 + time_words(time, now);
            time = now;
            if kind == 1 {
                words += usize::from(line_of(row) != line);
                line = line_of(row);
            }
            (base, vector) = (x, false);
        } else if x - base < COLUMNS {
            // the second pixel makes a base and a vector of the first one's word
            words += usize::from(!vector);
            vector = true;
        } else {
            words += 1;
            vector &= x - base < 2 * COLUMNS;
            base = if vector { base + COLUMNS } else { x };
        }
        last = row;
    }
    Ok(words)
}

/// Whether a row is in the group of the one before it.
#[inline(always)]
fn joins(last: &Row, row: &Row) -> bool {
    // kind and time, then y, polarity and camera: the compiler compares each three at once
    last[..3] == row[..3] && last[4..7] == row[4..7] && row[0] == 1 && row[3] > last[3]
}

/// How many words bring the clock from the last time to the next one.
#[inline(always)]
fn time_words(last: i64, time: i64) -> usize {
    match last ^ time {
        0 => 0,
        0x1..=0xfff => 1,
        0x1000..=0xff_ffff => 2,
        _ => {
            let mut words = 0;
            put_time(last, time, |_| words += 1);
            words
        }
    }
}

/// Puts the words that bring the clock from the last time to a later one.
#[inline(always)]
fn put_time(last: i64, time: i64, mut put: impl FnMut(u32)) {
    let part = |time: i64| (time >> 12 & 0xfff) as u32;
    if last >> 12 != time >> 12 {
        let mut high = (last != NO_TIME).then(|| part(last));
        for _ in last.max(0) >> 24..time >> 24 {
            if high != Some(0xfff) {
                put(0x8 << 12 | 0xfff);
            }
            put(0x8 << 12);
            high = Some(0);
        }
        if high != Some(part(time)) {
            put(0x8 << 12 | part(time));
        }
    }
    put(0x6 << 12 | (time & 0xfff) as u32);
}

/// Writes the words of a list that was judged; the buffer is just as long as they are.
fn spell(rows: &[Row], out: &mut [[u8; 2]]) {
    let mut out = out.iter_mut();
    let mut put = |word: u32| {
        if let Some(out) = out.next() {
            *out = (word as u16).to_le_bytes();
        }
    };
    let (mut time, mut line, mut rest) = (NO_TIME, NO_LINE, rows);
    while let Some((row, next)) = rest.split_first() {
        let now = time_of(row) as i64;
        if now != time {
            put_time(time, now, &mut put);
            time = now;
        }
        let &[kind, _, _, a, b, ..] = row;
        if kind == 2 {
            put(0xa << 12 | a << 8 | b);
            rest = next;
            continue;
        }
        if line_of(row) != line {
            line = line_of(row);
            put(line);
        }
        rest = spell_columns(row, next, &mut put);
    }
}

/// Puts the words for the columns of the group that begins with a row, and hands back the rows after it.
#[inline(always)]
fn spell_columns<'r>(first: &'r Row, mut rest: &'r [Row], mut put: impl FnMut(u32)) -> &'r [Row] {
    let polarity = first[5] << 11;
    // answers whether the pixels were put as a vector
    let mut put_pixels = |base: u32, bits: u32, open: bool| {
        match (open, bits) {
            (false, 1) => {
                put(0x2 << 12 | polarity | base);
                return false;
            }
            (false, _) => put(0x3 << 12 | polarity | base),
            (true, _) => {}
        }
        put(0x4 << 12 | bits);
        true
    };
    let (mut last, mut base, mut bits, mut open) = (first, first[3], 1, false);
    while let Some((row, next)) = rest.split_first().filter(|(row, _)| joins(last, row)) {
        let x = row[3];
        if x - base < COLUMNS {
            bits |= 1 << (x - base);
        } else {
            open = put_pixels(base, bits, open) && x - base < 2 * COLUMNS;
            base = if open { base + COLUMNS } else { x };
            bits = 1 << (x - base);
        }
        (last, rest) = (row, next);
    }
    put_pixels(base, bits, open);
    rest
}
