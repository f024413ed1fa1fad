//! The text header of RAW and DAT files. The input is cut at its newlines first; a line then says nothing of the picture, or a side of it,
//! or is refused.
use super::words::MOST_BYTES;

const MOST_LINE: usize = 256;
const MOST_DIGITS: usize = 5;

/// What a header says.
#[derive(Debug, PartialEq, Eq)]
pub struct Header {
    /// Where the data begin.
    pub data: usize,
    pub width: u32,
    pub height: u32,
}

/// Reads a header in which a side is at most `limit`; else the refusal, and the first byte of the line at fault.
pub fn read(bytes: &[u8], limit: u32) -> Result<Header, (u64, usize)> {
    if bytes.len() > MOST_BYTES {
        return Err((1, 0));
    }
    let mut data = 0;
    let mut sides = [None; 2];
    for line in bytes.split_inclusive(|&byte| byte == b'\n').take_while(|line| line.starts_with(b"% ")) {
        let bad = (9, data);
        match line.iter().take(MOST_LINE).position(|&byte| byte == b'\n') {
            Some(_) => {}
            None if line.len() < MOST_LINE => return Err((4, data)),
            None => return Err(bad),
        }
        let (keyword, value) = keyword_of(&line[2..]);
        if let Some(side) = ["width", "height"].iter().position(|name| name.as_bytes().eq_ignore_ascii_case(keyword)) {
            let number = number_of(value).filter(|&number| 1 <= number && number <= limit).ok_or(bad)?;
            if sides[side].replace(number).is_some() {
                return Err(bad);
            }
        }
        data += line.len();
    }
    let [width, height] = sides.map(|said| said.unwrap_or(limit));
    Ok(Header { data, width, height })
}

/// A line's text cut before the first space, colon or newline.
fn keyword_of(text: &[u8]) -> (&[u8], &[u8]) {
    let end = text.iter().position(|byte| b" :\n".contains(byte)).expect("the newline of a whole line");
    text.split_at(end)
}

/// The number that the rest of a line says after its keyword; nothing where it is malformed.
fn number_of(value: &[u8]) -> Option<u32> {
    let value = value.strip_prefix(b":").unwrap_or(value);
    let digits = value.strip_prefix(b" ")?.strip_suffix(b"\n")?;
    if !(1..=MOST_DIGITS).contains(&digits.len()) {
        return None;
    }
    let worth = |&byte: &u8| (b'0'..=b'9').position(|digit| digit == byte);
    digits.iter().map(worth).try_fold(0, |number, digit| Some(10 * number + digit? as u32))
}
