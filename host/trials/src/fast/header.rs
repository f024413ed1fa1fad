//! The text header of RAW and DAT files.
use super::MOST_BYTES;
use fryskelom::{Fault, Header, Refusal};

/// The bytes of a line after its first two.
const MOST_TEXT: usize = 254;

/// Does what `fryskelom::read_header` does.
pub fn read(bytes: &[u8], limit: u32) -> Result<Header, Fault> {
    if bytes.len() > MOST_BYTES {
        return Err(Fault { refusal: Refusal::TOO_LONG, rows: 0, place: 0 });
    }
    let (mut data, mut width, mut height) = (0, None, None);
    while let [b'%', b' ', text @ ..] = &bytes[data..] {
        let fault = |refusal| Fault { refusal, rows: 0, place: data };
        let text = &text[..text.len().min(MOST_TEXT)];
        let Some(end) = text.iter().position(|&byte| byte == b'\n') else {
            return Err(fault(if text.len() < MOST_TEXT { Refusal::CUT } else { Refusal::BAD_HEADER }));
        };
        let text = &text[..end];
        for (keyword, side) in [(&b"width"[..], &mut width), (b"height", &mut height)] {
            if let Some(value) = value_of(text, keyword) {
                let number = number(value).filter(|&number| side.is_none() && number != 0 && number <= limit);
                *side = Some(number.ok_or(fault(Refusal::BAD_HEADER))?);
            }
        }
        data += 3 + end;
    }
    Ok(Header { data, width: width.unwrap_or(limit), height: height.unwrap_or(limit) })
}

/// What follows a keyword in a line that has it.
fn value_of<'t>(text: &'t [u8], keyword: &[u8]) -> Option<&'t [u8]> {
    let (word, value) = text.split_at_checked(keyword.len())?;
    let ends = matches!(value, [] | [b' ' | b':', ..]);
    (ends && word.eq_ignore_ascii_case(keyword)).then_some(value)
}

fn number(value: &[u8]) -> Option<u32> {
    let digits = match value {
        [b':', b' ', digits @ ..] | [b' ', digits @ ..] => digits,
        _ => return None,
    };
    let good = matches!(digits.len(), 1..=5) && digits.iter().all(u8::is_ascii_digit);
    good.then(|| digits.iter().fold(0, |number, digit| 10 * number + u32::from(digit - b'0')))
}
