//! The reader and the writer of EVT2 words. The reader looks ahead: where an IMU group begins, it takes all of its words at once, so that no
//! group is ever half read.
use super::rows::{row, time_of, Row};
use super::words::{self, number, refusal_before_words, Format, Reading, Writing};

const OFF: u32 = 0;
const ON: u32 = 1;
const TIME_HIGH: u32 = 8;
const TRIGGER: u32 = 10;
const IMU: u32 = 13;
const OTHERS: u32 = 14;
const CONTINUED: u32 = 15;
const TYPES: [u32; 7] = [OFF, ON, TIME_HIGH, TRIGGER, IMU, OTHERS, CONTINUED];

#[derive(Clone, Copy)]
struct Word(u32);

impl Word {
    /// The word whose first byte is at a place; nothing where the input ends before its last one.
    fn at(bytes: &[u8], place: usize) -> Option<Word> {
        let bytes = bytes.get(place..place + 4)?;
        Some(Word(number(bytes) as u32))
    }

    /// The bits from `top` down to `bottom`.
    fn bits(self, top: u32, bottom: u32) -> u32 {
        let values = 2u64.pow(top - bottom + 1);
        (u64::from(self.0 / 2u32.pow(bottom)) % values) as u32
    }

    fn kind(self) -> u32 {
        self.bits(31, 28)
    }

    /// How many CONTINUED belong to this word. Before the clock an IMU word stands alone.
    fn continued(self, high: Option<u64>) -> usize {
        if self.kind() == IMU && high.is_some() {
            5
        } else {
            0
        }
    }
}

/// Reads words into at most `room` rows, for a picture of `width` by `height` pixels.
pub fn read(bytes: &[u8], width: u32, height: u32, room: usize) -> Reading {
    let mut reading = Reading { refusal: refusal_before_words(bytes, width, height), ..Reading::default() };
    if reading.refusal != 0 {
        return reading;
    }
    let mut high = None;
    let mut place = 0;
    while place < bytes.len() {
        let group = match group_at(bytes, place, high) {
            Ok(group) => group,
            Err((refusal, place)) => return reading.refused(refusal, place),
        };
        if group[0].kind() == TIME_HIGH {
            high = Some(u64::from(group[0].bits(27, 0)));
        }
        let row = row_of(&group, high);
        if row.is_some_and(|row| row[0] == 1 && (row[3] >= width || row[4] >= height)) {
            return reading.refused(6, place);
        }
        if row.is_some() && reading.rows.len() == room {
            return reading.refused(2, place);
        }
        reading.given.push(row.iter().len());
        reading.given.extend(group[1..].iter().map(|_| 0));
        reading.rows.extend(row);
        place += 4 * group.len();
    }
    reading
}

/// The word at a place with the CONTINUED that belong to it, or the refusal and the place of what is at fault.
fn group_at(bytes: &[u8], place: usize, high: Option<u64>) -> Result<Vec<Word>, (u64, usize)> {
    let first = Word::at(bytes, place).ok_or((4, place))?;
    if !TYPES.contains(&first.kind()) {
        return Err((3, place));
    }
    if first.kind() == TIME_HIGH && high.is_some_and(|previous| u64::from(first.bits(27, 0)) < previous) {
        return Err((5, place));
    }
    let mut group = vec![first];
    for i in 1..=first.continued(high) {
        let next = Word::at(bytes, place + 4 * i).ok_or((4, place))?;
        if next.kind() != CONTINUED {
            return Err((8, place + 4 * i));
        }
        group.push(next);
    }
    Ok(group)
}

/// The row that a word gives with the CONTINUED that belong to it.
fn row_of(group: &[Word], high: Option<u64>) -> Option<Row> {
    let first = group[0];
    let time = 64 * high? + u64::from(first.bits(27, 22));
    match first.kind() {
        OFF | ON => Some(row(1, time, &[first.bits(21, 11), first.bits(10, 0), first.kind()])),
        TRIGGER => Some(row(2, time, &[first.bits(12, 8), first.bits(0, 0)])),
        IMU => Some(row(3, time, &group.iter().map(|word| word.bits(16, 1)).collect::<Vec<_>>())),
        _ => None,
    }
}

/// Writes a list of numbers into a buffer of so many bytes.
pub fn write(numbers: &[u32], lent: usize) -> Writing {
    words::write(&Format { bytes_a_word: 4, can_write, words_of }, numbers, lent)
}

fn can_write(row: &Row) -> bool {
    match row[0] {
        // a word has no place for the camera
        1 => row[3] < words::SIDE && row[4] < words::SIDE && row[6] == 0,
        2 | 3 => true,
        _ => false,
    }
}

/// A list's words: each event's own, and a TIME_HIGH before it where there is none yet or the last one's time is over.
fn words_of(rows: &[Row]) -> Vec<u32> {
    let mut words = vec![];
    let mut last = None;
    for row in rows {
        let high = (time_of(row) / 64) as u32;
        if last != Some(high) {
            words.push(TIME_HIGH * 2u32.pow(28) + high);
            last = Some(high);
        }
        words.extend(event_words(row));
    }
    words
}

/// The words of an event, TIME_HIGH apart.
fn event_words(row: &Row) -> Vec<u32> {
    let low = (time_of(row) % 64) as u32;
    let word = |kind: u32, data: u32| kind * 2u32.pow(28) + low * 2u32.pow(22) + data;
    let &[kind, _, _, a, b, c, d, e, f, _] = row;
    match kind {
        1 => vec![word(c, a * 2u32.pow(11) + b)],
        2 => vec![word(TRIGGER, a * 2u32.pow(8) + b)],
        _ => {
            let kinds = [IMU, CONTINUED, CONTINUED, CONTINUED, CONTINUED, CONTINUED];
            kinds.iter().zip([a, b, c, d, e, f]).map(|(&kind, count)| word(kind, 2 * count)).collect()
        }
    }
}
