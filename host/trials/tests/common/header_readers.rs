//! The readers of text headers: the library's, the hand-written one and the second implementation, by what they answer in numbers.
#[path = "headers.rs"]
pub mod headers;

use fryskelom::Header;
use headers::Expected;
use trials::{fast, numbers, second};

/// The refusal, the place, the width and the height.
pub type Answer = (u64, u64, u32, u32);

pub type Reader = fn(&[u8], u32) -> Answer;

pub fn answer(header: Expected) -> Answer {
    match header {
        Ok(Header { data, width, height }) => (0, data as u64, width, height),
        Err((refusal, place)) => (refusal, place as u64, 0, 0),
    }
}

pub fn hand_written(bytes: &[u8], limit: u32) -> Answer {
    answer(fast::header::read(bytes, limit).map_err(|fault| (fault.refusal.0, fault.place)))
}

pub fn by_second(bytes: &[u8], limit: u32) -> Answer {
    let header = second::header::read(bytes, limit);
    answer(header.map(|second::header::Header { data, width, height }| Header { data, width, height }))
}

pub const READERS: [Reader; 3] = [numbers::read_header, hand_written, by_second];

/// The most pixels of a side: EVT2 and EVT3, then DAT.
pub const LIMITS: [u32; 2] = [2_048, 16_384];
