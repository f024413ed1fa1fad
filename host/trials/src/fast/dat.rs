//! The reader of DAT files.
use super::{header, Row};
use fryskelom::{Fault, Header, Refusal};

const SIDE: u32 = 16_384;

const TYPE_AND_SIZE: [u8; 2] = [0, 8];

/// Does what `fryskelom::read_dat` does.
pub fn read(bytes: &[u8], rows: &mut [u32]) -> Result<usize, Fault> {
    let Header { data, width, height } = header::read(bytes, SIDE)?;
    let fault = |refusal, rows, place| Err(Fault { refusal, rows, place });
    let events = match bytes[data..].split_first_chunk() {
        Some((&TYPE_AND_SIZE, events)) => events,
        Some(_) => return fault(Refusal::BAD_HEADER, 0, data),
        None => return fault(Refusal::CUT, 0, data),
    };
    let (events, part) = events.as_chunks();
    let (rows, _): (&mut [Row], _) = rows.as_chunks_mut();
    let mut rows = rows.iter_mut();
    let mut last = 0;
    // every event is a row, so that the rows before it are as many as the events
    for (index, &event) in events.iter().enumerate() {
        let event = u64::from_le_bytes(event);
        let (time, word) = (event as u32, (event >> 32) as u32);
        let (x, y, polarity) = (word & 0x3fff, word >> 14 & 0x3fff, word >> 28);
        let refusal = if time < last {
            Refusal::BAD_TIME
        } else if x >= width || y >= height || polarity > 1 {
            Refusal::OUTSIDE
        } else if let Some(row) = rows.next() {
            *row = [1, time, 0, x, y, polarity, 0, 0, 0, 0];
            last = time;
            continue;
        } else {
            Refusal::NO_ROOM
        };
        return fault(refusal, index, data + 2 + 8 * index);
    }
    match part {
        [] => Ok(events.len()),
        _ => fault(Refusal::CUT, events.len(), data + 2 + 8 * events.len()),
    }
}
