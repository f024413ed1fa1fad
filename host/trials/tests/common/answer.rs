//! What a hand-written reader answers, in the numbers of the library.
use fryskelom::Fault;

/// The refusal, the finished rows and the place.
pub fn answer(reading: Result<usize, Fault>) -> (u64, u64, u64) {
    match reading {
        Ok(rows) => (0, rows as u64, 0),
        Err(fault) => (fault.refusal.0, fault.rows as u64, fault.place as u64),
    }
}
