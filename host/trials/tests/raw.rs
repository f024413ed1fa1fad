//! The RAW readers of the library against the second implementation: headers of every rule before words of every fault, and files that are
//! made up, damaged, cut and short of room.
#[path = "common/text_header_files.rs"]
mod text_header_files;

use text_header_files::{compare_all, compare_longest, often, Reached};
use trials::samples::{evt2, evt3, Numbers, Picture};
use trials::second::header::Header;
use trials::second::words::Reading;
use trials::{numbers, second};

#[derive(Default)]
struct Evt2;

impl Reached for Evt2 {
    const SIDE: u32 = 2_048;

    const REFUSED: &'static [usize] = &[2, 3, 4, 5, 6, 8];

    fn second(bytes: &[u8], room: usize) -> Reading {
        second::raw::read_evt2(bytes, room)
    }

    fn data(picture: Picture, most_events: u32, numbers: &mut Numbers) -> Vec<u8> {
        use evt2::Scene::{Mixed, Motion, Packets, Pixels, Triggers};
        let scene = numbers.one_of(&[Pixels, Packets, Triggers, Motion, Mixed]);
        evt2::recording(scene, picture, evt2::a_start(numbers), 1 + numbers.below(most_events) as usize, numbers)
    }

    fn faults() -> Vec<Vec<u8>> {
        const PIXEL: [u32; 2] = [0x8000_0001, 0x1080_2803];
        // room alone; 3; 5; 6 by x and by y; 8, a cut group, 8 at a USB packet; 3 after USB packets, whole and cut; a group that may lack room
        let words: [&[u32]; 10] = [
            &[0x1080_2803, 0xa000_0601],
            &[0x2000_0000],
            &[0x8000_0000],
            &[0x0002_0003],
            &[0x0000_2830],
            &[0xd080_0002, 0xf080_0004, 0x1080_2803],
            &[0xd080_0002, 0xf080_0004],
            &[0xd080_0002, 0xf080_0004, 0xe000_00fe, 0xf000_8000, 0xf000_0003, 0xf000_0000, 0xf000_0004],
            &[0xe000_00fe, 0xf000_8000, 0xf000_0003, 0xf000_0000, 0xf000_0004, 0xe000_00fe, 0x2000_0000],
            &[0xd080_0002, 0xf080_0004, 0xf080_0006, 0xf080_0008, 0xf080_000a, 0xf080_000c],
        ];
        with_parts(words.map(|words| evt2::bytes_of(&[&PIXEL, words].concat())))
    }
}

#[derive(Default)]
struct Evt3 {
    /// Pixels by camera.
    cameras: [usize; 2],
}

impl Reached for Evt3 {
    const SIDE: u32 = 2_048;

    const REFUSED: &'static [usize] = &[2, 3, 4, 5, 6];

    fn second(bytes: &[u8], room: usize) -> Reading {
        second::raw::read_evt3(bytes, room)
    }

    fn data(picture: Picture, most_events: u32, numbers: &mut Numbers) -> Vec<u8> {
        use evt3::Scene::{Dense, Mixed, Pixels, Sparse, TwoCameras};
        let scene = numbers.one_of(&[Pixels, Dense, Sparse, Mixed, TwoCameras]);
        evt3::recording(scene, picture, evt3::a_start(numbers), 1 + numbers.below(most_events) as usize, numbers)
    }

    fn faults() -> Vec<Vec<u8>> {
        const PIXEL: [u16; 4] = [0x8000, 0x6040, 0x0003, 0x2805];
        let a_wrap_too_many = [evt3::ALL_WRAPS, &[0x8fff, 0x8000]].concat();
        // room alone; 3; 5 by a wrap and by a smaller drop; 6 by x, by y, by the slave's x and y, by a vector; a vector that may lack room; 3 after
        // another time
        let words: [&[u16]; 11] = [
            &[0x2006, 0xa001],
            &[0x9000],
            &a_wrap_too_many,
            &[0x8800, 0x8001],
            &[0x2040],
            &[0x0030, 0x2005],
            &[0x0803, 0x2005, 0x2040],
            &[0x0830, 0x2005],
            &[0x3038, 0x4fff],
            &[0x3000, 0x5003],
            &[0x6041, 0x1000],
        ];
        with_parts(words.map(|words| evt3::bytes_of(&[&PIXEL, words].concat())))
    }

    fn count(&mut self, _: &Header, _: &[u8], reading: &Reading) {
        reading.rows.iter().filter(|row| row[0] == 1).for_each(|row| self.cameras[row[6] as usize] += 1);
    }

    fn check(&self) {
        self.cameras.iter().enumerate().for_each(|(camera, &count)| often("pixels of camera", camera, count));
    }
}

/// Data, and the first of them with a part of a word after them.
fn with_parts<const N: usize>(data: [Vec<u8>; N]) -> Vec<Vec<u8>> {
    let part = [&data[0][..], &[5]].concat();
    data.into_iter().chain([part]).collect()
}

#[test]
fn evt2_words() {
    compare_all::<Evt2>(numbers::read_raw_evt2, &[]);
}

#[test]
fn evt3_words() {
    compare_all::<Evt3>(numbers::read_raw_evt3, &[]);
}

#[test]
fn longest_input() {
    compare_longest::<Evt2>(&[numbers::read_raw_evt2], 3);
    compare_longest::<Evt3>(&[numbers::read_raw_evt3], 3);
}
