//! The EVT3 reader of the library, and the hand-written one of the benchmark, against the second implementation: every word after
//! every sort of state, every high part that falls by about as much as a wrap does, every vector at the edge of a picture, and
//! recordings that are made up, damaged, cut and short of room.
#[path = "common/readers.rs"]
mod readers;

use readers::{a_picture, answer, compare_all, compare_longest, often, Answer, Family, Reader, LARGEST};
use trials::samples::evt3::{bytes_of, recording, Scene};
use trials::samples::{Numbers, Picture};
use trials::second::words::Reading;
use trials::{fast, numbers, second};

fn hand_written(bytes: &[u8], width: u32, height: u32, rows: &mut [u32]) -> Answer {
    answer(fast::evt3::read(bytes, width, height, rows))
}

/// What the inputs have reached.
#[derive(Default)]
struct Reached {
    words: [usize; 16],
    /// ADDR_Y after another one, by whether they change the line and whether they change the camera.
    lines: [[usize; 2]; 2],
    /// Vectors by the number of pixels they gave.
    vectors: [usize; 13],
    /// Pixels by camera and by polarity.
    pixels: [[usize; 2]; 2],
    edges: [usize; 2],
    /// Rows after the clock has wrapped.
    wrapped: usize,
    clock: Clock,
}

/// What the high parts of the inputs did.
#[derive(Default)]
struct Clock {
    wraps: usize,
    wraps_by_2048: usize,
    wraps_too_many: usize,
    drops: usize,
    drops_by_2047: usize,
    /// Drops that come after a wrap.
    later_drops: usize,
}

impl Clock {
    /// Counts what each high part did, and the last one where the reading was refused 5.
    fn count(&mut self, high_parts: &[u16], refused: bool) {
        let falls: Vec<u16> = high_parts.windows(2).map(|pair| pair[0].saturating_sub(pair[1])).filter(|&fall| fall > 0).collect();
        let (&last, before) = match falls.split_last() {
            Some(split) if refused => split,
            _ => (&0, &falls[..]),
        };
        self.wraps += before.len();
        self.wraps_by_2048 += before.iter().filter(|&&fall| fall == 2_048).count();
        self.wraps_too_many += usize::from(last >= 2_048);
        self.drops += usize::from((1..2_048).contains(&last));
        self.drops_by_2047 += usize::from(last == 2_047);
        self.later_drops += usize::from((1..2_048).contains(&last) && !before.is_empty());
    }

    fn check(&self) {
        often("wraps of the clock, at least", 1, self.wraps);
        often("wraps by a fall of", 2_048, self.wraps_by_2048);
        often("wraps past", 1_023, self.wraps_too_many);
        often("falls that are no wrap, at least by", 1, self.drops);
        often("falls by", 2_047, self.drops_by_2047);
        often("falls that are no wrap after wraps, at least", 1, self.later_drops);
    }
}

type Comparer = readers::Comparer<Reached>;

impl readers::Reached for Reached {
    const SIZE: usize = 2;

    const REFUSED: &'static [(usize, &'static [usize])] = &[(2, &[2, 4, 5, 10]), (3, &[1, 9, 11, 12, 13]), (5, &[8]), (6, &[2, 4, 5])];

    fn second(bytes: &[u8], width: u32, height: u32, room: usize) -> Reading {
        second::evt3::read(bytes, width, height, room)
    }

    fn a_recording(picture: Picture, most_events: u32, numbers: &mut Numbers) -> Vec<u8> {
        let scene = numbers.one_of(&[Scene::Pixels, Scene::Dense, Scene::Sparse, Scene::Mixed, Scene::TwoCameras, Scene::TwoCameras]);
        // any time, or one from which the clock soon wraps
        let start = if numbers.once_in(2) { u64::from(numbers.any()) } else { (1 << 24) - 1 - u64::from(numbers.below(64)) };
        let events = 1 + numbers.below(most_events) as usize;
        recording(scene, picture, start, events, numbers)
    }

    fn count(&mut self, bytes: &[u8], reading: &Reading, kind: impl Fn(usize) -> usize) {
        let refused = reading.refusal == 5;
        let read = reading.given.len() + usize::from(refused);
        let words = || bytes.chunks_exact(2).take(read).map(|word| u16::from_le_bytes([word[0], word[1]]));
        let data_of = |kind: u16| words().filter(|word| word >> 12 == kind).map(|word| word & 0xfff).collect::<Vec<u16>>();
        self.clock.count(&data_of(8), refused);
        for pair in data_of(0).windows(2) {
            let changed = pair[0] ^ pair[1];
            self.lines[usize::from(changed & 0x7ff != 0)][usize::from(changed >> 11)] += 1;
        }
        for (index, &given) in reading.given.iter().enumerate() {
            self.words[kind(index)] += 1;
            if let 4 | 5 = kind(index) {
                self.vectors[given] += 1;
            }
        }
        for row in &reading.rows {
            self.wrapped += usize::from(row[1] >= 1 << 24 || row[2] > 0);
            match row[0] {
                1 => self.pixels[row[6] as usize][row[5] as usize] += 1,
                _ => self.edges[row[4] as usize] += 1,
            }
        }
    }

    fn check(&self) {
        for kind in [0, 2, 3, 4, 5, 6, 7, 8, 10, 14, 15] {
            often("words of type", kind, self.words[kind]);
        }
        let sorts = [
            ("line and camera changed or not", self.lines.as_flattened()),
            ("vectors with pixels", &self.vectors),
            ("camera and polarity", self.pixels.as_flattened()),
            ("edge", &self.edges),
        ];
        for (what, counts) in sorts {
            counts.iter().enumerate().for_each(|(which, &count)| often(what, which, count));
        }
        often("rows after wraps, at least", 1, self.wrapped);
        self.clock.check();
    }
}

/// Every word, after words that make each part of the state known or leave it unknown, and before words that show the state.
fn every_word(comparer: &mut Comparer) {
    const CLOCKS: [&[u16]; 3] = [&[], &[0x8800], &[0x8800, 0x6123]];
    const LINES: [&[u16]; 3] = [&[], &[0x0009], &[0x0809]];
    const BASES: [&[u16]; 2] = [&[], &[0x3ff4]];
    const SHOWN_BY: [u16; 6] = [0xa500, 0x2007, 0x6456, 0xa501, 0x4001, 0x5fff];
    for clock in CLOCKS {
        for line in LINES {
            for base in BASES {
                for word in 0..=u16::MAX {
                    comparer.compare(&bytes_of(&[clock, line, base, &[word], &SHOWN_BY].concat()), LARGEST);
                }
            }
        }
    }
}

/// Every vector, from bases that lead up to, over and past the last column, of the one camera and of the other.
fn vectors_at_the_edge(comparer: &mut Comparer) {
    for width in [1u16, 12, 13, 2_048] {
        for base in width.saturating_sub(13)..=(width + 1).min(2_047) {
            for vector in (0x4000..=0x4fff).chain(0x5300..=0x53ff) {
                let line = 0x0001 | (base % 2) << 11;
                let words = [0x8000, 0x6000, line, 0x3000 | base, vector, 0x2000];
                comparer.compare(&bytes_of(&words), (width.into(), 2));
            }
        }
    }
}

/// Words of any sixteen bits.
fn any_words(comparer: &mut Comparer) {
    let mut numbers = Numbers::new(0x0a02_bdbf_7bb3_c0a7);
    for _ in 0..100_000 {
        let length = numbers.below(48) as usize;
        let words: Vec<u16> = (0..length).map(|_| numbers.any() as u16).collect();
        comparer.compare(&bytes_of(&words), a_picture(&mut numbers));
    }
}

/// Words of the types that are read, in any order, with wrong ones now and then, into buffers that are often too short.
fn likely_words(comparer: &mut Comparer) {
    let mut numbers = Numbers::new(0x28bd_8aa4_f2b0_91d3);
    for _ in 0..200_000 {
        let picture = a_picture(&mut numbers);
        let length = numbers.below(64) as usize;
        let words: Vec<u16> = (0..length).map(|_| likely_word(picture, &mut numbers)).collect();
        let bytes = bytes_of(&words);
        match numbers.below(2) {
            0 => comparer.compare(&bytes, picture),
            _ => comparer.compare_lent(&bytes, picture, numbers.below(400) as usize),
        }
    }
}

fn likely_word((width, height): Picture, numbers: &mut Numbers) -> u16 {
    const KINDS: [u16; 32] = [0, 0, 0, 2, 2, 2, 2, 2, 2, 3, 3, 3, 4, 4, 4, 4, 5, 5, 5, 5, 6, 6, 6, 6, 7, 8, 8, 8, 10, 10, 14, 15];
    let wrong = numbers.once_in(100);
    let kind = if wrong { numbers.below(16) as u16 } else { numbers.one_of(&KINDS) };
    let data = match kind {
        _ if wrong => numbers.any(),
        0 => numbers.below(height) | numbers.below(2) << 11,
        2 | 3 => numbers.below(width) | numbers.below(2) << 11,
        4 | 5 if numbers.once_in(2) => numbers.any() & numbers.any() & numbers.any(),
        // a few high parts, so that some are equal, some wrap and some fall by less
        8 => numbers.one_of(&[0, 0, 0, 0, 1, 2_047, 2_048, 4_094, 4_095, 4_095, 4_095, 4_095]),
        _ => numbers.any(),
    };
    kind << 12 | data as u16 & 0xfff
}

/// After every high part those that lie about as far below it as a drop or a wrap begins, and as far above it; each with a trigger.
fn high_parts(comparer: &mut Comparer) {
    const STEPS: [i32; 14] = [-4_095, -2_050, -2_049, -2_048, -2_047, -2_046, -2, -1, 0, 1, 2, 2_047, 2_048, 4_095];
    for first in 0..4_096 {
        for second in STEPS.map(|step| first + step).into_iter().filter(|high| (0..4_096).contains(high)) {
            for third in STEPS.map(|step| second + step).into_iter().filter(|high| (0..4_096).contains(high)) {
                let under = |high: i32, low: u16| [0x8000 | high as u16, 0x6000 | low, 0xa000];
                comparer.compare(&bytes_of(&[under(first, 0x123), under(second, 0x456), under(third, 0x789)].concat()), LARGEST);
            }
        }
    }
}

/// Clocks that wrap about 1,023 times, which is the most that is read, and may go back at their end.
fn long_clocks(comparer: &mut Comparer) {
    let mut numbers = Numbers::new(0x1f3d_85b1_9c0e_6a55);
    for _ in 0..8_000 {
        let (mut words, mut high) = (vec![], 0);
        for _ in 0..2_030 + numbers.below(30) {
            // a rise to where a wrap can follow, and a wrap
            high = if high < 2_048 { 2_048 + numbers.below(2_048) } else { numbers.below(high - 2_047) };
            words.push(0x8000 | high as u16);
            if numbers.once_in(64) {
                words.extend([0x6000 | numbers.below(4_096) as u16, 0xa000 | numbers.below(4_096) as u16]);
            }
        }
        words.push(0x8000 | numbers.below(4_096) as u16);
        comparer.compare(&bytes_of(&words), LARGEST);
    }
}

const FAMILIES: [Family<Reached>; 6] = [
    ("every word", every_word),
    ("high parts", high_parts),
    ("vectors at the edge", vectors_at_the_edge),
    ("any words", any_words),
    ("likely words", likely_words),
    ("long clocks", long_clocks),
];

#[test]
fn library() {
    compare_all(numbers::read_evt3, &FAMILIES);
}

#[test]
fn hand_written_reader() {
    compare_all(hand_written, &FAMILIES);
}

/// A base of 16 bits that went on past 2,048 would come round to column 8 and give a pixel there.
#[test]
fn base_stops_for_good() {
    let vectors = (1usize << 16).div_ceil(12);
    let mut words = vec![0x8000, 0x6000, 0x0003, 0x3000];
    words.resize(4 + vectors, 0x4000);
    words.push(0x4001);
    let bytes = bytes_of(&words);
    for reader in [numbers::read_evt3 as Reader, hand_written] {
        assert_eq!(reader(&bytes, 2_048, 2_048, &mut [0; 10]), (6, 0, bytes.len() as u64 - 2));
    }
}

#[test]
fn longest_input() {
    compare_longest::<Reached>([numbers::read_evt3, hand_written]);
}
