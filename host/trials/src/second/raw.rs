//! RAW files: a text header, then words, which are read as if they stood alone.
use super::words::{Reading, SIDE};
use super::{evt2, evt3, header};

/// Reads a file of EVT2 words into at most `room` rows.
pub fn read_evt2(bytes: &[u8], room: usize) -> Reading {
    read(evt2::read, bytes, room)
}

/// Reads a file of EVT3 words into at most `room` rows.
pub fn read_evt3(bytes: &[u8], room: usize) -> Reading {
    read(evt3::read, bytes, room)
}

fn read(words: fn(&[u8], u32, u32, usize) -> Reading, bytes: &[u8], room: usize) -> Reading {
    let header = match header::read(bytes, SIDE) {
        Ok(header) => header,
        Err((refusal, place)) => return Reading::default().refused(refusal, place),
    };
    let reading = words(&bytes[header.data..], header.width, header.height, room);
    match reading.refusal {
        0 => reading,
        refusal => {
            let place = header.data + reading.place;
            reading.refused(refusal, place)
        }
    }
}
