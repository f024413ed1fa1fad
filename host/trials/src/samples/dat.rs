//! DAT recordings.
use super::header::header;
use super::{Numbers, Picture};

/// What stands between the header and the first event.
pub const TYPE_AND_SIZE: [u8; 2] = [0, 8];

/// The bytes of an event.
pub const fn event(time: u32, x: u32, y: u32, polarity: u32) -> [u8; 8] {
    (time as u64 | ((polarity << 28 | y << 14 | x) as u64) << 32).to_le_bytes()
}

/// At least so many events, and what stands before them. Time starts at `start` or a little later and stops at the last of 32 bits.
pub fn data((width, height): Picture, start: u32, events: usize, numbers: &mut Numbers) -> Vec<u8> {
    let (mut bytes, mut time) = (TYPE_AND_SIZE.to_vec(), start);
    while bytes.len() < 2 + 8 * events {
        time = time.saturating_add(numbers.pause() as u32);
        for _ in 0..=numbers.below(24) {
            bytes.extend(event(time, numbers.below(width), numbers.below(height), numbers.below(2)));
        }
    }
    bytes
}

/// A recording of at least so many events.
pub fn recording(picture: Picture, events: usize, numbers: &mut Numbers) -> Vec<u8> {
    let mut bytes = header(Some(picture.0), Some(picture.1), numbers);
    bytes.extend(data(picture, 0, events, numbers));
    bytes
}
