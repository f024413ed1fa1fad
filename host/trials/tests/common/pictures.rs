//! Headers of every rule, each before pixels that show the picture which it says, and where its data begin.
#[path = "headers.rs"]
mod headers;

use fryskelom::{Fault, Header, Refusal};
use headers::{pairs, short_headers};
use trials::samples::pixel;

/// Data of pixels at these columns and lines, all of polarity 0 and at `TIME`, and the place in them of the last one.
pub type Pixels = fn(&[(u32, u32)]) -> (Vec<u8>, usize);

pub const TIME: u64 = 64;

/// Reads each header before a pixel in the last column of the last line, and before one past either in its turn.
pub fn check(side: u32, pixels: Pixels, reader: impl Fn(&[u8], &mut [u32]) -> Result<usize, Fault>) {
    let headers = short_headers(side).into_iter().chain(pairs(side));
    for (text, expected) in headers {
        match expected {
            // what would follow a cut line would be a part of it
            Err((refusal, place)) => {
                let after = if refusal == 4 { vec![] } else { pixels(&[(0, 0)]).0 };
                read(&[text, after].concat(), &[], Err((refusal, place)), &reader);
            }
            Ok(header) if header.data == text.len() => {
                let Header { data, width, height } = header;
                let last = (width - 1, height - 1);
                let row = pixel(TIME, last.0, last.1, 0);
                read(&[&text[..], &pixels(&[last]).0].concat(), &[row], Ok(()), &reader);
                for past in [(width, height - 1), (width - 1, height)] {
                    if past.0 < side && past.1 < side {
                        let (bytes, place) = pixels(&[last, past]);
                        read(&[&text[..], &bytes].concat(), &[row], Err((6, data + place)), &reader);
                    }
                }
            }
            // its data have begun already
            Ok(_) => {}
        }
    }
}

fn read(bytes: &[u8], rows: &[[u32; 10]], ends: Result<(), (u64, usize)>, reader: impl Fn(&[u8], &mut [u32]) -> Result<usize, Fault>) {
    let mut buffer = [7; 29];
    let mut after = buffer;
    after[..10 * rows.len()].copy_from_slice(rows.as_flattened());
    let fault = |(refusal, place)| Fault { refusal: Refusal(refusal), rows: rows.len(), place };
    assert_eq!(reader(bytes, &mut buffer), ends.map(|()| rows.len()).map_err(fault), "{}", bytes.escape_ascii());
    assert_eq!(buffer, after, "{}", bytes.escape_ascii());
}
