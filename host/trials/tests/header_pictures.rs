//! Headers of every rule before pixels, in RAW and DAT files: where the data begin, and how large the picture is. The library, the second implementation and, of
//! DAT, the hand-written reader each have to read them.
#[path = "common/cases.rs"]
mod cases;
#[path = "common/pictures.rs"]
mod pictures;

use cases::into_buffer;
use trials::samples::{dat, evt2, evt3};
use fryskelom::{read_dat, read_raw_evt2, read_raw_evt3};
use trials::{fast, second};

#[test]
fn raw_evt2() {
    let pixels = |pixels: &[(u32, u32)]| {
        let words: Vec<u32> = pixels.iter().map(|(x, y)| x << 11 | y).collect();
        (evt2::bytes_of(&[&[0x8000_0001], &words[..]].concat()), 4 * words.len())
    };
    pictures::check(2_048, pixels, read_raw_evt2);
    pictures::check(2_048, pixels, into_buffer(second::raw::read_evt2));
}

#[test]
fn raw_evt3() {
    let pixels = |pixels: &[(u32, u32)]| {
        let words: Vec<u16> = pixels.iter().flat_map(|&(x, y)| [y as u16, 0x2000 | x as u16]).collect();
        (evt3::bytes_of(&[&[0x8000, 0x6040], &words[..]].concat()), 2 + 2 * words.len())
    };
    pictures::check(2_048, pixels, read_raw_evt3);
    pictures::check(2_048, pixels, into_buffer(second::raw::read_evt3));
}

#[test]
fn dat_files() {
    let pixels = |pixels: &[(u32, u32)]| {
        let events: Vec<_> = pixels.iter().map(|&(x, y)| dat::event(pictures::TIME as u32, x, y, 0)).collect();
        ([&dat::TYPE_AND_SIZE[..], events.as_flattened()].concat(), 8 * pixels.len() - 6)
    };
    pictures::check(16_384, pixels, read_dat);
    pictures::check(16_384, pixels, fast::dat::read);
    pictures::check(16_384, pixels, into_buffer(second::dat::read));
}
