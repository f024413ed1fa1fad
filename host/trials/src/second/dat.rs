//! DAT files: a text header, a type and a size, then events of eight bytes.
use super::header;
use super::rows::row;
use super::words::{number, Reading};

/// The most columns or lines of a picture.
const SIDE: u32 = 16_384;

/// The only type and size that there are.
const TYPE_AND_SIZE: [u8; 2] = [0, 8];

/// An event's numbers, as wide as they come.
struct Event {
    time: u64,
    x: u64,
    y: u64,
    polarity: u64,
}

impl Event {
    fn of_bytes(bytes: &[u8; 8]) -> Event {
        let (time, word) = (number(&bytes[..4]), number(&bytes[4..]));
        Event { time, x: word % 16_384, y: word / 16_384 % 16_384, polarity: word / 268_435_456 }
    }
}

/// Reads a file into at most `room` rows. What it gives is counted event by event.
pub fn read(bytes: &[u8], room: usize) -> Reading {
    let mut reading = Reading::default();
    let header = match header::read(bytes, SIDE) {
        Ok(header) => header,
        Err((refusal, place)) => return reading.refused(refusal, place),
    };
    let data = &bytes[header.data..];
    match data.get(..2) {
        None => return reading.refused(4, header.data),
        Some(bytes) if bytes != TYPE_AND_SIZE => return reading.refused(9, header.data),
        Some(_) => {}
    }
    let mut last = 0;
    for (index, bytes) in data[2..].chunks(8).enumerate() {
        let place = header.data + 2 + 8 * index;
        let Ok(bytes) = bytes.try_into() else { return reading.refused(4, place) };
        let Event { time, x, y, polarity } = Event::of_bytes(bytes);
        let outside = x >= header.width.into() || y >= header.height.into() || polarity > 1;
        let reasons = [(5, time < last), (6, outside), (2, reading.rows.len() == room)];
        if let Some((refusal, _)) = reasons.iter().find(|(_, holds)| *holds) {
            return reading.refused(*refusal, place);
        }
        reading.rows.push(row(1, time, &[x, y, polarity].map(|number| number as u32)));
        reading.given.push(1);
        last = time;
    }
    reading
}
