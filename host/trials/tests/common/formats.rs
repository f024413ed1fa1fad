//! Every format that is read: the library is held to the second implementation on the bytes of a recording.
#[path = "lent.rs"]
pub mod lent;

use std::path::Path;
use trials::second::words::{Reading, SIDE};
use trials::{numbers, second};

/// A word of EVT3 gives at most so many rows, and all others fewer.
const MOST_OF_A_WORD: usize = 12;

/// Answers the refusal, the finished rows and the place.
type Reader = fn(&[u8], &mut [u32]) -> (u64, u64, u64);

pub struct Format {
    pub name: &'static str,
    library: Reader,
    second: fn(&[u8], usize) -> Reading,
}

pub const EVT2: Format = Format {
    name: "evt2",
    library: |bytes, rows| numbers::read_evt2(bytes, SIDE, SIDE, rows),
    second: |bytes, room| second::evt2::read(bytes, SIDE, SIDE, room),
};

pub const EVT3: Format = Format {
    name: "evt3",
    library: |bytes, rows| numbers::read_evt3(bytes, SIDE, SIDE, rows),
    second: |bytes, room| second::evt3::read(bytes, SIDE, SIDE, room),
};

pub const RAW_EVT2: Format = Format { name: "raw-evt2", library: numbers::read_raw_evt2, second: second::raw::read_evt2 };
pub const RAW_EVT3: Format = Format { name: "raw-evt3", library: numbers::read_raw_evt3, second: second::raw::read_evt3 };
pub const DAT: Format = Format { name: "dat", library: numbers::read_dat, second: second::dat::read };
pub const AEDAT: Format = Format { name: "aedat", library: numbers::read_aedat, second: second::aedat::read };

impl Format {
    /// Reads with room for so many rows, compares all that comes back, and answers it. A recording that has no use for all the room is lent less.
    pub fn compare(&self, path: &Path, bytes: &[u8], room: usize) -> Reading {
        let expected = (self.second)(bytes, room);
        let lent = 10 * room.min(expected.rows.len() + MOST_OF_A_WORD) + 9;
        let input = || format!("{} as {}, {lent} numbers lent", path.display(), self.name);
        lent::hold(|rows| (self.library)(bytes, rows), lent, expected.answer(), expected.rows.as_flattened(), input);
        expected
    }
}
