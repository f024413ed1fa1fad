//! The reader and the writer of EVT3 words. For the reader, the rows that a word gives and the state that it leaves are two functions of
//! the state before it; a third one says whether it is refused. The writer cuts its list into groups before it spells any of them.
use super::rows::{row, time_of, Row};
use super::words::{self, refusal_before_words, Format, Reading, Writing, SIDE};
use std::collections::BTreeSet;

const ADDR_Y: u32 = 0;
const ADDR_X: u32 = 2;
const BASE_X: u32 = 3;
const VECT_12: u32 = 4;
const VECT_8: u32 = 5;
const TIME_LOW: u32 = 6;
const TIME_HIGH: u32 = 8;
const TRIGGER: u32 = 10;
const RESERVED: [u32; 5] = [1, 9, 11, 12, 13];

const MOST_WRAPS: u64 = 1_023;

/// The clock has wrapped where the high part drops by this much or more; where it drops by less it goes back.
const WRAP: u64 = 2_048;

/// What the words so far have told. A fresh reader knows nothing.
#[derive(Clone, Copy, Default)]
struct State {
    wraps: u64,
    high: Option<u64>,
    time: Option<u64>,
    line: Option<Line>,
    base: Option<Base>,
}

/// A line of the picture, and the camera that sees it: 0 the master, 1 the slave.
#[derive(Clone, Copy, PartialEq)]
struct Line {
    y: u32,
    camera: u32,
}

/// The column and polarity of the next vector's first pixel.
#[derive(Clone, Copy)]
struct Base {
    x: u32,
    polarity: u32,
}

/// A word in its two parts: the top four bits and the twelve others.
#[derive(Clone, Copy)]
struct Word {
    kind: u32,
    data: u32,
}

impl Word {
    fn of_bytes(low: u8, high: u8) -> Word {
        let number = 256 * u32::from(high) + u32::from(low);
        Word { kind: number / 4_096, data: number % 4_096 }
    }

    fn bit(self, i: u32) -> u32 {
        self.data / 2u32.pow(i) % 2
    }

    /// Bits 10 to 0, a column or a line.
    fn address(self) -> u32 {
        self.data % 2_048
    }

    /// How many columns a vector spans; 0 for any other word.
    fn columns(self) -> u32 {
        match self.kind {
            VECT_12 => 12,
            VECT_8 => 8,
            _ => 0,
        }
    }
}

/// Reads words into at most `room` rows, for a picture of `width` by `height` pixels.
pub fn read(bytes: &[u8], width: u32, height: u32, room: usize) -> Reading {
    let mut reading = Reading { refusal: refusal_before_words(bytes, width, height), ..Reading::default() };
    if reading.refusal != 0 {
        return reading;
    }
    let mut state = State::default();
    for (index, word) in bytes.chunks(2).enumerate() {
        let &[low, high] = word else {
            return reading.refused(4, 2 * index);
        };
        let word = Word::of_bytes(low, high);
        let (rows, next) = (rows_of(&state, word), state_after(&state, word));
        let refusal = refusal_of(word, bad_time(&state, word, &next), &rows, width, height, room - reading.rows.len());
        if refusal != 0 {
            return reading.refused(refusal, 2 * index);
        }
        reading.given.push(rows.len());
        reading.rows.extend(rows);
        state = next;
    }
    reading
}

/// The rows that a word gives.
fn rows_of(state: &State, word: Word) -> Vec<Row> {
    let Some(time) = state.time else { return vec![] };
    match (word.kind, state.line, state.base) {
        (ADDR_X, Some(Line { y, camera }), _) => vec![row(1, time, &[word.address(), y, word.bit(11), camera])],
        (VECT_12 | VECT_8, Some(Line { y, camera }), Some(base)) => {
            let set = (0..word.columns()).filter(|&i| word.bit(i) == 1);
            set.map(|i| row(1, time, &[base.x + i, y, base.polarity, camera])).collect()
        }
        (TRIGGER, _, _) => vec![row(2, time, &[word.data / 256, word.bit(0)])],
        _ => vec![],
    }
}

/// The state after a word.
fn state_after(state: &State, word: Word) -> State {
    let mut next = *state;
    let data = u64::from(word.data);
    match word.kind {
        ADDR_Y => next.line = Some(Line { y: word.address(), camera: word.bit(11) }),
        BASE_X => next.base = Some(Base { x: word.address(), polarity: word.bit(11) }),
        // the base stops one past the last column
        VECT_12 | VECT_8 => next.base = state.base.map(|base| Base { x: (base.x + word.columns()).min(SIDE), ..base }),
        TIME_HIGH => {
            if drop_of(state, word) >= WRAP {
                next.wraps += 1;
            }
            next.high = Some(data);
        }
        TIME_LOW => {
            if let Some(high) = state.high {
                next.time = Some(state.wraps * 16_777_216 + high * 4_096 + data);
            }
        }
        _ => {}
    }
    next
}

/// By how much a word lowers the high part. The first high part lowers none, nor does any word that is no TIME_HIGH.
fn drop_of(state: &State, word: Word) -> u64 {
    match (word.kind, state.high) {
        (TIME_HIGH, Some(previous)) => previous.saturating_sub(u64::from(word.data)),
        _ => 0,
    }
}

/// Whether a word leads the clock back, or past its last wrap.
fn bad_time(state: &State, word: Word, next: &State) -> bool {
    (1..WRAP).contains(&drop_of(state, word)) || next.wraps > MOST_WRAPS
}

/// Why a word is refused, or 0: the first reason that holds. `room` is what the rows before it have left.
fn refusal_of(word: Word, bad_time: bool, rows: &[Row], width: u32, height: u32, room: usize) -> u64 {
    if RESERVED.contains(&word.kind) {
        3
    } else if bad_time {
        5
    } else if rows.iter().any(|row| row[0] == 1 && (row[3] >= width || row[4] >= height)) {
        6
    } else if rows.len() > room {
        2
    } else {
        0
    }
}

/// The byte from which on a fresh reader of some bytes misses no row: the one after the first TIME_HIGH, the first TIME_LOW after that, the first ADDR_Y and
/// the first BASE_X, whichever of them comes last.
pub fn whole(bytes: &[u8]) -> Option<usize> {
    let kinds: Vec<u32> = bytes.chunks_exact(2).map(|word| Word::of_bytes(word[0], word[1]).kind).collect();
    let first = |kind: u32, from: usize| (from..kinds.len()).find(|&i| kinds[i] == kind);
    let low = first(TIME_LOW, first(TIME_HIGH, 0)?)?;
    let last = low.max(first(ADDR_Y, 0)?).max(first(BASE_X, 0)?);
    Some(2 * (last + 1))
}

/// Writes a list of numbers into a buffer of so many bytes.
pub fn write(numbers: &[u32], lent: usize) -> Writing {
    let words_of = |rows: &[Row]| spelling(rows).iter().map(|word| 4_096 * word.kind + word.data).collect();
    words::write(&Format { bytes_a_word: 2, can_write, words_of }, numbers, lent)
}

fn can_write(row: &Row) -> bool {
    match row[0] {
        1 => row[3] < SIDE && row[4] < SIDE,
        2 => row[3] < 16,
        _ => false,
    }
}

/// A list cut into its row groups. A trigger stands alone.
pub fn groups(rows: &[Row]) -> Vec<&[Row]> {
    let same_group = |last: &Row, next: &Row| {
        let pixels = last[0] == 1 && next[0] == 1;
        // time, y, polarity and camera
        let equal = time_of(last) == time_of(next) && last[4..=6] == next[4..=6];
        pixels && equal && last[3] < next[3]
    };
    rows.chunk_by(same_group).collect()
}

/// A list's words, of which each event has only what differs from those before it.
fn spelling(rows: &[Row]) -> Vec<Word> {
    let (mut words, mut last_time, mut last_line) = (vec![], None, None);
    for group in groups(rows) {
        let [kind, _, _, a, b, _, camera, ..] = group[0];
        let time = time_of(&group[0]);
        if last_time != Some(time) {
            words.extend(time_words(last_time, time));
            last_time = Some(time);
        }
        if kind == 2 {
            words.push(Word { kind: TRIGGER, data: 256 * a + b });
            continue;
        }
        let line = Line { y: b, camera };
        if last_line != Some(line) {
            words.push(Word { kind: ADDR_Y, data: 2_048 * line.camera + line.y });
            last_line = Some(line);
        }
        words.extend(column_words(group));
    }
    words
}

/// The words that bring the clock from the last event's time to a new one.
fn time_words(last: Option<u64>, time: u64) -> Vec<Word> {
    let wraps = |time: u64| time / 16_777_216;
    let high_part = |time: u64| (time / 4_096 % 4_096) as u32;
    let (mut words, mut high) = (vec![], last.map(high_part));
    for _ in wraps(last.unwrap_or(0))..wraps(time) {
        if high != Some(4_095) {
            words.push(Word { kind: TIME_HIGH, data: 4_095 });
        }
        words.push(Word { kind: TIME_HIGH, data: 0 });
        high = Some(0);
    }
    if high != Some(high_part(time)) {
        words.push(Word { kind: TIME_HIGH, data: high_part(time) });
    }
    words.push(Word { kind: TIME_LOW, data: (time % 4_096) as u32 });
    words
}

/// The words for the columns of a group: the choice for the next unwritten one, until there is none.
fn column_words(group: &[Row]) -> Vec<Word> {
    let columns: BTreeSet<u32> = group.iter().map(|row| row[3]).collect();
    let address = |x: u32| 2_048 * group[0][5] + x;
    let (mut words, mut unwritten, mut base) = (vec![], columns.clone(), None);
    while let Some(&x) = unwritten.first() {
        let vector = match base {
            Some(base) if (base..=base + 11).contains(&x) => Some(base),
            _ if columns.range(x..=x + 11).count() >= 2 => {
                words.push(Word { kind: BASE_X, data: address(x) });
                Some(x)
            }
            _ => None,
        };
        match vector {
            Some(first) => {
                let bits = columns.range(first..=first + 11).map(|x| 2u32.pow(x - first));
                words.push(Word { kind: VECT_12, data: bits.sum() });
                unwritten.retain(|x| !(first..=first + 11).contains(x));
                base = Some(SIDE.min(first + 12));
            }
            None => {
                words.push(Word { kind: ADDR_X, data: address(x) });
                unwritten.remove(&x);
            }
        }
    }
    words
}
