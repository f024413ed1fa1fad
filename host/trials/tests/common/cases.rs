//! What computed cases of files share.
use trials::second::words::Reading;
use fryskelom::{Fault, Refusal};

/// The second implementation as a reader into a buffer.
pub fn into_buffer(second: fn(&[u8], usize) -> Reading) -> impl Fn(&[u8], &mut [u32]) -> Result<usize, Fault> {
    move |bytes, buffer| {
        let Reading { refusal, rows, place, .. } = second(bytes, buffer.len() / 10);
        buffer[..10 * rows.len()].copy_from_slice(rows.as_flattened());
        match refusal {
            0 => Ok(rows.len()),
            _ => Err(Fault { refusal: Refusal(refusal), rows: rows.len(), place }),
        }
    }
}
