//! A safe wrapper over the C interface of the proved library (`include/fryskelom.h`).
//!
//! Nothing here decides a result: a slice is handed over, and what comes back is given a Rust type. A Rust slice is never
//! null and a `&mut` slice overlaps no other, which is all that the interface asks of its callers.
//!
//! In the `Cargo.toml` of a program, with the path of this folder, after `rt lib` in `crates/fryskelom`:
//!
//! ```toml
//! [dependencies]
//! fryskelom = { path = "fryskelom/host" }
//! ```
//!
//! A reader writes rows of [`ROW_NUMBERS`] numbers into the caller's buffer. A buffer of [`most_rows_evt3`] rows, or of what belongs to
//! another format, is always enough:
//!
//! ```
//! use fryskelom::{event_of, kind, most_rows_evt3, read_evt3, Refusal, ROW_NUMBERS};
//!
//! let words = [0x01, 0x80, 0x02, 0x60, 0x03, 0x00, 0x05, 0x28, 0x00];
//! let mut rows = vec![0; ROW_NUMBERS * most_rows_evt3(words.len())];
//! let fault = read_evt3(&words, 1280, 720, &mut rows).unwrap_err();
//! assert_eq!((fault.refusal, fault.place, fault.rows), (Refusal::CUT, 8, 1));
//! assert_eq!(fault.refusal.text(), "the input ends inside a word, group, event, packet or header");
//! // the row before the fault is there
//! let event = event_of(&rows[..ROW_NUMBERS]).expect("a row that was read is good");
//! assert_eq!((event.kind, event.time, event.data), (kind::PIXEL, 4098, [5, 3, 1, 0, 0, 0, 0]));
//! ```

use std::error::Error;
use std::fmt;

mod sys;

/// The longest input that is read, in bytes; a longer one is refused (1).
pub const MOST_BYTES: usize = 1_073_741_824;

/// The longest list that is written, in rows; a longer one is refused (13).
pub const MOST_ROWS: usize = 16_777_216;

/// The most pixels that a side of a picture of EVT words has, and one of a DAT file.
pub const EVT_SIDE: u32 = 2_048;
pub const DAT_SIDE: u32 = 16_384;

/// The numbers of a row: kind, time mod 2^32, time div 2^32, and seven data numbers.
pub const ROW_NUMBERS: usize = 10;

/// Microseconds from one wrap of the EVT3 clock to the next. The times of rows count every wrap.
pub const EVT3_WRAP: u64 = 16_777_216;

/// The kinds of rows: a row's first number. 5 was that of USB packets, and no other kind ever gets it.
pub mod kind {
    /// Data: x, y, polarity (1 brighter), camera (0 or 1).
    pub const PIXEL: u32 = 1;
    /// Data: channel, edge (1 rising).
    pub const TRIGGER: u32 = 2;
    /// Data: acceleration X, Y, Z and rotation X, Y, Z, as counts.
    pub const IMU_COUNTS: u32 = 3;
    /// Data: the bits of seven singles, as above and then the temperature.
    pub const IMU_SINGLES: u32 = 4;
    /// Data: type, and 24 bits more.
    pub const SPECIAL: u32 = 6;
}

/// Why an input was refused: the number of the README's table.
#[derive(Clone, Copy, Debug, PartialEq, Eq)]
pub struct Refusal(pub u64);

/// The refusals by name; [`Refusal::text`] says what each of them means. 7 was the number of a slave camera's bit, and no other refusal ever gets it.
impl Refusal {
    pub const TOO_LONG: Refusal = Refusal(1);
    pub const NO_ROOM: Refusal = Refusal(2);
    pub const RESERVED: Refusal = Refusal(3);
    pub const CUT: Refusal = Refusal(4);
    pub const BAD_TIME: Refusal = Refusal(5);
    pub const OUTSIDE: Refusal = Refusal(6);
    pub const STRAY: Refusal = Refusal(8);
    pub const BAD_HEADER: Refusal = Refusal(9);
    pub const BAD_PACKET: Refusal = Refusal(10);
    pub const CLOCK_RESET: Refusal = Refusal(11);
    pub const BAD_ROW: Refusal = Refusal(12);
    pub const BAD_LIST: Refusal = Refusal(13);
    pub const BAD_PICTURE: Refusal = Refusal(14);

    /// All refusals, in the order of their numbers.
    pub const ALL: [Refusal; 13] = [
        Refusal::TOO_LONG,
        Refusal::NO_ROOM,
        Refusal::RESERVED,
        Refusal::CUT,
        Refusal::BAD_TIME,
        Refusal::OUTSIDE,
        Refusal::STRAY,
        Refusal::BAD_HEADER,
        Refusal::BAD_PACKET,
        Refusal::CLOCK_RESET,
        Refusal::BAD_ROW,
        Refusal::BAD_LIST,
        Refusal::BAD_PICTURE,
    ];

    /// What was found, in plain words.
    pub const fn text(self) -> &'static str {
        match self {
            Refusal::TOO_LONG => "the input is longer than 1073741824 bytes",
            Refusal::NO_ROOM => "rows or bytes do not fit the buffer",
            Refusal::RESERVED => "a word of a reserved type",
            Refusal::CUT => "the input ends inside a word, group, event, packet or header",
            Refusal::BAD_TIME => "a time goes back, is negative or passes the limit",
            Refusal::OUTSIDE => "a pixel outside the picture, or a polarity over 1",
            Refusal::STRAY => "a word inside an IMU group does not continue it",
            Refusal::BAD_HEADER => "a bad text header, or a bad type or size after it",
            Refusal::BAD_PACKET => "a bad AEDAT packet",
            Refusal::CLOCK_RESET => "the camera's clock was reset",
            Refusal::BAD_ROW => "a bad row, or one that the format cannot write",
            Refusal::BAD_LIST => "a list whose length is no multiple of ten, or over 16777216 rows",
            Refusal::BAD_PICTURE => "a picture width or height of 0 or over 2048",
            _ => "no refusal has this number",
        }
    }
}

/// Why and where a reader stopped. The rows finished before stand in the lent buffer.
#[derive(Clone, Copy, Debug, PartialEq, Eq)]
pub struct Fault {
    /// The rule that was broken.
    pub refusal: Refusal,
    /// How many rows were finished.
    pub rows: usize,
    /// The byte, counted from the input's start, where what is at fault begins.
    pub place: usize,
}

/// Why and at which row a writer refused its list. The lent buffer is as it was.
#[derive(Clone, Copy, Debug, PartialEq, Eq)]
pub struct RowFault {
    /// The rule that was broken.
    pub refusal: Refusal,
    /// The index of the first row at fault; 0 where the buffer is too short (2) or the list has a wrong length (13).
    pub row: usize,
}

impl fmt::Display for Refusal {
    fn fmt(&self, f: &mut fmt::Formatter<'_>) -> fmt::Result {
        write!(f, "refusal {}: {}", self.0, self.text())
    }
}

impl fmt::Display for Fault {
    fn fmt(&self, f: &mut fmt::Formatter<'_>) -> fmt::Result {
        write!(f, "refusal {} at byte {} after {} rows: {}", self.refusal.0, self.place, self.rows, self.refusal.text())
    }
}

impl fmt::Display for RowFault {
    fn fmt(&self, f: &mut fmt::Formatter<'_>) -> fmt::Result {
        match self.refusal {
            // no row is at fault
            Refusal::NO_ROOM | Refusal::BAD_LIST => self.refusal.fmt(f),
            _ => write!(f, "refusal {} at row {}: {}", self.refusal.0, self.row, self.refusal.text()),
        }
    }
}

impl Error for Refusal {}

impl Error for Fault {}

impl Error for RowFault {}

/// The event of a row.
#[derive(Clone, Copy, Debug)]
pub struct Event {
    /// One of those in [`mod@kind`].
    pub kind: u32,
    /// Microseconds.
    pub time: u64,
    /// The row's own seven data numbers. Those of a pixel are x, y, polarity and camera, 0 or 1, and then zeros.
    pub data: [u32; 7],
    /// Acceleration X, Y, Z in g, rotation X, Y, Z in degrees a second, temperature; +0 where the kind has none.
    pub readings: [f32; 7],
}

/// What the text header of a RAW or DAT file says.
#[derive(Clone, Copy, Debug, PartialEq, Eq)]
pub struct Header {
    /// The byte where the data begin.
    pub data: usize,
    /// The picture's width in pixels; the limit where no line says it.
    pub width: u32,
    /// The picture's height likewise.
    pub height: u32,
}

/// The event of a row of ten numbers: refused 13 for any other length, 12 for a row that is not good.
pub fn event_of(row: &[u32]) -> Result<Event, Refusal> {
    // SAFETY: the pointer and the length are those of a slice, which is not null.
    let event = unsafe { sys::fry_event_of(row.as_ptr(), row.len()) };
    if event.refusal != 0 {
        return Err(Refusal(event.refusal));
    }
    Ok(Event {
        // a good row's own first number
        kind: event.kind as u32,
        time: event.time,
        data: event.data,
        readings: event.readings,
    })
}

/// Reads EVT2 words into rows of ten numbers, for a picture of `width` by `height` pixels, and answers how many rows there are.
/// The buffer has room for a tenth of its length, rounded down; what follows the finished rows is left as it was.
pub fn read_evt2(bytes: &[u8], width: u32, height: u32, rows: &mut [u32]) -> Result<usize, Fault> {
    read_words(sys::fry_read_evt2, bytes, width, height, rows)
}

/// Reads EVT3 words, of one camera or of a master (camera 0) and a slave (1) on one clock; all else is as in [`read_evt2`].
pub fn read_evt3(bytes: &[u8], width: u32, height: u32, rows: &mut [u32]) -> Result<usize, Fault> {
    read_words(sys::fry_read_evt3, bytes, width, height, rows)
}

/// From which byte on a reader that begins with these EVT3 words misses no row: the byte after the word by which TIME_HIGH, a later TIME_LOW, ADDR_Y and
/// VECT_BASE_X have all been seen. `None` where they never all are.
///
/// To join a recording part way is to read the rest of its bytes from any word on. Of a recording that [`read_evt3`] finishes, this is proved, with equal
/// room and picture: the reading of the rest finishes too, each word of it gives no row, or the rows that it gives in the reading of all, with all times less
/// by one and the same multiple of [`EVT3_WRAP`], and from this byte on every word gives them all:
///
/// ```
/// use fryskelom::{kind, most_rows_evt3, read_evt3, whole_evt3, EVT3_WRAP, ROW_NUMBERS};
///
/// // TIME_HIGH 4095, TIME_LOW 9; TIME_HIGH 0, a wrap; EXT_TRIGGER; TIME_LOW 7, ADDR_Y 3, VECT_BASE_X 4, VECT_8 with bit 1
/// let words: Vec<u8> = [0x8FFF, 0x6009, 0x8000, 0xA000, 0x6007, 0x0003, 0x3004, 0x5002_u16].into_iter().flat_map(u16::to_le_bytes).collect();
/// let read = |bytes: &[u8]| {
///     let mut rows = vec![0; ROW_NUMBERS * most_rows_evt3(bytes.len())];
///     let count = read_evt3(bytes, 8, 8, &mut rows).expect("words that are read");
///     rows.truncate(ROW_NUMBERS * count);
///     rows
/// };
/// let (full, joined) = (read(&words), read(&words[4..]));
/// // the trigger's time is not known there; the pixel is the same but for the wrap before it
/// assert_eq!((full[0], full[10], joined.len(), joined[0]), (kind::TRIGGER, kind::PIXEL, 10, kind::PIXEL));
/// assert_eq!(u64::from(full[11]), u64::from(joined[1]) + EVT3_WRAP);
/// assert_eq!(whole_evt3(&words[4..]), Some(10));
/// ```
pub fn whole_evt3(bytes: &[u8]) -> Option<usize> {
    // SAFETY: as in `event_of`.
    let sys::FryWhole { seen, place } = unsafe { sys::fry_whole_evt3(bytes.as_ptr(), bytes.len()) };
    (seen == 1).then_some(place as usize)
}

/// Reads the text header of a file whose format allows widths and heights from 1 to `limit`, which may be any number. A fault has no rows, and its place is the
/// first byte of the line at fault.
pub fn read_header(bytes: &[u8], limit: u32) -> Result<Header, Fault> {
    // SAFETY: as in `event_of`.
    let sys::FryHeader { refusal, place, width, height } = unsafe { sys::fry_read_header(bytes.as_ptr(), bytes.len(), limit) };
    let place = place as usize;
    match refusal {
        0 => Ok(Header { data: place, width, height }),
        _ => Err(Fault { refusal: Refusal(refusal), rows: 0, place }),
    }
}

/// Reads a RAW file of EVT2 words. Its header says how large the picture is, and a side that it leaves out has 2048 pixels. Places count
/// from the file's first byte; all else is as in [`read_evt2`].
pub fn read_raw_evt2(bytes: &[u8], rows: &mut [u32]) -> Result<usize, Fault> {
    read_file(sys::fry_read_raw_evt2, bytes, rows)
}

/// Reads a RAW file of EVT3 words; all else is as in [`read_raw_evt2`].
pub fn read_raw_evt3(bytes: &[u8], rows: &mut [u32]) -> Result<usize, Fault> {
    read_file(sys::fry_read_raw_evt3, bytes, rows)
}

/// Reads a DAT file. A side of its picture has at most 16384 pixels, and so many where the header leaves it out; all else is as in
/// [`read_raw_evt2`].
pub fn read_dat(bytes: &[u8], rows: &mut [u32]) -> Result<usize, Fault> {
    read_file(sys::fry_read_dat, bytes, rows)
}

/// Reads an AEDAT 3.1 file. It says nothing of a picture, so that x and y are any of 15 bits. Packets of frames, of nine-axis IMUs, of spikes
/// and of private types are jumped. Places count from the file's first byte; rows are as in [`read_evt2`].
pub fn read_aedat(bytes: &[u8], rows: &mut [u32]) -> Result<usize, Fault> {
    read_file(sys::fry_read_aedat, bytes, rows)
}

/// Writes a list of rows, ten numbers each, as EVT2 words of four bytes from the buffer's first byte on, and answers how many words
/// there are: at most seven for a row. What follows them is left as it was, and all of the buffer where the list is refused. EVT2 has no
/// words for pixels of camera 1 (12).
pub fn write_evt2(rows: &[u32], out: &mut [u8]) -> Result<usize, RowFault> {
    write_words(sys::fry_write_evt2, rows, out)
}

/// Writes a list of rows, of either camera, as EVT3 words of two bytes: at most four for a row, and two more for each wrap of the clock
/// ([`EVT3_WRAP`]) up to the last row's time. All else is as in [`write_evt2`].
pub fn write_evt3(rows: &[u32], out: &mut [u8]) -> Result<usize, RowFault> {
    write_words(sys::fry_write_evt3, rows, out)
}

/// As many rows as so many bytes of EVT2 words can give, and a RAW file of them. A buffer of ten times as many numbers is always enough.
pub const fn most_rows_evt2(bytes: usize) -> usize {
    bytes / 4
}

/// As many rows as so many bytes of EVT3 words can give, and a RAW file of them: twelve a word.
pub const fn most_rows_evt3(bytes: usize) -> usize {
    (bytes / 2).saturating_mul(12)
}

/// As many rows as a DAT file of so many bytes can give.
pub const fn most_rows_dat(bytes: usize) -> usize {
    bytes / 8
}

/// As many rows as an AEDAT file of so many bytes can give.
pub const fn most_rows_aedat(bytes: usize) -> usize {
    bytes / 8
}

/// As many EVT2 words, of four bytes each, as are always enough for so many rows.
pub const fn most_words_evt2(rows: usize) -> usize {
    rows.saturating_mul(7)
}

/// As many EVT3 words, of two bytes each, as are always enough for so many rows, the last of them at this time.
pub const fn most_words_evt3(rows: usize, last_time: u64) -> usize {
    rows.saturating_mul(4).saturating_add(2 * (last_time / EVT3_WRAP) as usize)
}

fn read_words(reader: sys::WordReader, bytes: &[u8], width: u32, height: u32, rows: &mut [u32]) -> Result<usize, Fault> {
    // SAFETY: pointers and lengths are those of two slices, which are not null and do not overlap.
    reading(unsafe { reader(bytes.as_ptr(), bytes.len(), width, height, rows.as_mut_ptr(), rows.len()) })
}

fn read_file(reader: sys::FileReader, bytes: &[u8], rows: &mut [u32]) -> Result<usize, Fault> {
    // SAFETY: as in `read_words`.
    reading(unsafe { reader(bytes.as_ptr(), bytes.len(), rows.as_mut_ptr(), rows.len()) })
}

fn reading(sys::FryReading { refusal, rows, place }: sys::FryReading) -> Result<usize, Fault> {
    let (rows, place) = (rows as usize, place as usize);
    match refusal {
        0 => Ok(rows),
        _ => Err(Fault { refusal: Refusal(refusal), rows, place }),
    }
}

fn write_words(writer: sys::WordWriter, rows: &[u32], out: &mut [u8]) -> Result<usize, RowFault> {
    // SAFETY: as in `read_words`.
    let sys::FryWriting { refusal, count } = unsafe { writer(rows.as_ptr(), rows.len(), out.as_mut_ptr(), out.len()) };
    let count = count as usize;
    match refusal {
        0 => Ok(count),
        _ => Err(RowFault { refusal: Refusal(refusal), row: count }),
    }
}
