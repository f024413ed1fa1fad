//! Text headers with what each is to be, worked out from the requirement line by line. The library, the second implementation and the hand-written reader
//! each have to answer so.
#[path = "common/header_readers.rs"]
mod readers;

use fryskelom::Header;
use readers::headers::{pairs, short_headers, Expected};
use readers::{answer, LIMITS, READERS};

const fn says(data: usize, width: u32, height: u32) -> Expected {
    Ok(Header { data, width, height })
}

#[test]
fn lines_alone_and_in_pairs() {
    for limit in LIMITS {
        let headers = [short_headers(limit), pairs(limit)].concat();
        println!("limit {limit}: {} headers", headers.len());
        for (text, expected) in headers {
            for reader in READERS {
                assert_eq!(reader(&text, limit), answer(expected), "limit {limit}, {}", text.escape_ascii());
            }
        }
    }
}

#[test]
fn every_letter_case() {
    for (keyword, expected) in [("width", says(11, 64, 2_048)), ("height", says(12, 2_048, 64))] {
        for capitals in 0..1 << keyword.len() {
            let letter = |(i, letter): (usize, char)| if capitals >> i & 1 == 1 { letter.to_ascii_uppercase() } else { letter };
            let text = format!("% {} 64\n", keyword.chars().enumerate().map(letter).collect::<String>());
            READERS.iter().for_each(|reader| assert_eq!(reader(text.as_bytes(), 2_048), answer(expected), "{text:?}"));
        }
    }
}
