//! The DAT reader of the library, and the hand-written one of the benchmark, against the second implementation: events at the edges of a
//! picture, of every polarity and before or after the last time, headers of every rule, and files that are made up, damaged, cut and short
//! of room.
#[path = "common/answer.rs"]
mod answer;
#[path = "common/text_header_files.rs"]
mod text_header_files;

use answer::answer;
use text_header_files::{compare_all, compare_longest, often, Family};
use trials::samples::dat::{data, event, TYPE_AND_SIZE};
use trials::samples::{Numbers, Picture};
use trials::second::header::Header;
use trials::second::words::Reading;
use trials::{fast, numbers, second};

fn hand_written(bytes: &[u8], rows: &mut [u32]) -> (u64, u64, u64) {
    answer(fast::dat::read(bytes, rows))
}

/// What the inputs have reached.
#[derive(Default)]
struct Reached {
    /// Files that end before the type, and before the size.
    ended: [usize; 2],
    /// By whether the type and the size are right.
    starts: [[usize; 2]; 2],
    /// Cut events by the bytes that are there.
    cut: [usize; 8],
    /// Events refused 6, by whether x, y and the polarity are outside.
    outside: [[[usize; 2]; 2]; 2],
    /// Events refused 5, by whether they are outside too.
    back: [usize; 2],
    /// Events refused 2.
    full: usize,
    polarities: [usize; 2],
    /// Rows of the last row's time.
    equal_times: usize,
    /// Rows of a time of 2^31 or more.
    late: usize,
}

impl Reached {
    fn count_fault(&mut self, header: &Header, event: &[u8], refusal: u64) {
        let word = |bytes: &[u8]| u32::from_le_bytes([bytes[0], bytes[1], bytes[2], bytes[3]]);
        if event.len() < 8 {
            self.cut[event.len()] += 1;
            return;
        }
        let place = word(&event[4..]);
        let outside = [place % 16_384 >= header.width, place / 16_384 % 16_384 >= header.height, place >> 28 > 1].map(usize::from);
        match refusal {
            5 => self.back[usize::from(outside != [0; 3])] += 1,
            6 => self.outside[outside[0]][outside[1]][outside[2]] += 1,
            _ => self.full += 1,
        }
    }
}

impl text_header_files::Reached for Reached {
    const SIDE: u32 = 16_384;

    const REFUSED: &'static [usize] = &[2, 4, 5, 6, 9];

    fn second(bytes: &[u8], room: usize) -> Reading {
        second::dat::read(bytes, room)
    }

    fn data(picture: Picture, most_events: u32, numbers: &mut Numbers) -> Vec<u8> {
        let start = numbers.any();
        let start = numbers.one_of(&[0, start, u32::MAX - 4]);
        data(picture, start, 1 + numbers.below(most_events) as usize, numbers)
    }

    fn faults() -> Vec<Vec<u8>> {
        let events = |events: &[[u8; 8]]| [&TYPE_AND_SIZE[..], &event(66, 5, 3, 1), events.as_flattened()].concat();
        let cut = (1..8).map(|length| [&events(&[])[..], &event(65, 64, 48, 2)[..length]].concat());
        let wrong = [[0, 0], [1, 8], [8, 0], [0, 9], [0x25, 0x21]].iter().map(|start| [&start[..], &event(66, 5, 3, 1)].concat());
        let faults = [
            events(&[event(66, 5, 3, 0), event(67, 5, 3, 0)]),
            events(&[event(65, 5, 3, 1)]),
            events(&[event(65, 64, 48, 15)]),
            events(&[event(66, 64, 3, 1)]),
            events(&[event(66, 5, 48, 1)]),
            events(&[event(66, 5, 3, 2)]),
            events(&[event(66, 5, 3, 15)]),
            vec![],
            vec![0],
        ];
        faults.into_iter().chain(cut).chain(wrong).collect()
    }

    fn count(&mut self, header: &Header, data: &[u8], reading: &Reading) {
        let &[first, second, ref events @ ..] = data else {
            self.ended[data.len()] += 1;
            return;
        };
        self.starts[usize::from(first == 0)][usize::from(second == 8)] += 1;
        if reading.refusal != 0 && [first, second] == TYPE_AND_SIZE {
            self.count_fault(header, &events[8 * reading.rows.len()..], reading.refusal);
        }
        for row in &reading.rows {
            self.polarities[row[5] as usize] += 1;
            self.late += usize::from(row[1] >= 1 << 31);
        }
        self.equal_times += reading.rows.windows(2).filter(|pair| pair[0][1] == pair[1][1]).count();
    }

    fn check(&self) {
        let sorts = [
            ("ends before the type or the size", &self.ended[..]),
            ("type and size", self.starts.as_flattened()),
            ("bytes of a cut event", &self.cut[1..]),
            ("outside, x, y, polarity", &self.outside.as_flattened().as_flattened()[1..]),
            ("time goes back", &self.back),
            ("polarity", &self.polarities),
            ("rows of an equal time, late rows, no room", &[self.equal_times, self.late, self.full]),
        ];
        for (what, counts) in sorts {
            counts.iter().enumerate().for_each(|(which, &count)| often(what, which, count));
        }
    }
}

type Comparer = text_header_files::Comparer<Reached>;

/// An event at, before or past each edge, of every polarity, earlier than the last one, with it or later, with and without room.
fn edges(comparer: &mut Comparer) {
    const SIDES: [Option<u32>; 7] = [Some(1), Some(2), Some(64), Some(8_192), Some(16_383), Some(16_384), None];
    let near = |side: Option<u32>| side.map_or([0, 1, 8_191, 16_383], |side| [0, side - 1, side.min(16_383), 16_383]);
    for (width, height) in SIDES.iter().flat_map(|&width| SIDES.map(|height| (width, height))) {
        let line = |keyword: &str, side: Option<u32>| side.map_or(String::new(), |side| format!("% {keyword} {side}\n"));
        let text = line("Width", width) + &line("Height", height);
        let events = |time, x, y, polarity| [text.as_bytes(), &TYPE_AND_SIZE, &event(66, 0, 0, 1), &event(time, x, y, polarity)].concat();
        for (x, y) in near(width).iter().flat_map(|&x| near(height).map(|y| (x, y))) {
            for (time, polarity) in [65, 66, 67].iter().flat_map(|&time| (0..16).map(move |polarity| (time, polarity))) {
                let bytes = events(time, x, y, polarity);
                [0, 9, 10, 19, 20, 29].iter().for_each(|&lent| comparer.compare_lent(&bytes, lent));
            }
        }
    }
}

/// Three events of which one bit or two are flipped, in a picture that is large in one direction.
fn flipped_bits(comparer: &mut Comparer) {
    let events = [event(0x0102_0304, 63, 16_383, 0), event(0x0102_0304, 0, 0, 1), event(0x8102_0305, 32, 8_192, 1)];
    for (one, other) in (0..192).flat_map(|one| (0..=one).map(move |other| (one, other))) {
        let mut events = events.as_flattened().to_vec();
        events[one / 8] ^= 1 << (one % 8);
        if other != one {
            events[other / 8] ^= 1 << (other % 8);
        }
        comparer.compare(&[&b"% width 64\n"[..], &TYPE_AND_SIZE, &events].concat());
    }
}

/// Events of any bits, with times that rise at first.
fn any_events(comparer: &mut Comparer) {
    let mut numbers = Numbers::new(0x0a02_bdbf_7bb3_c0a7);
    for _ in 0..200_000 {
        let mut bytes = TYPE_AND_SIZE.to_vec();
        for index in 0..numbers.below(12) {
            let time = if numbers.once_in(8) { numbers.any() } else { index << 28 | numbers.any() >> 4 };
            let polarity = if numbers.once_in(8) { numbers.below(16) } else { numbers.below(2) };
            bytes.extend(event(time, numbers.below(16_384), numbers.below(16_384), polarity));
        }
        comparer.compare_lent(&bytes, numbers.below(120) as usize);
    }
}

/// Times at their limits, mostly not falling.
fn times(comparer: &mut Comparer) {
    const TIMES: [u32; 8] = [0, 1, 0x7fff_ffff, 0x8000_0000, 0x8000_0001, 0xffff_fffe, 0xffff_ffff, 0xffff_ffff];
    let mut numbers = Numbers::new(0x1f3d_85b1_9c0e_6a55);
    for _ in 0..60_000 {
        let mut bytes = TYPE_AND_SIZE.to_vec();
        for time in TIMES {
            let time = if numbers.once_in(12) { numbers.one_of(&TIMES) } else { time };
            (0..numbers.below(3)).for_each(|_| bytes.extend(event(time, 5, 3, 1)));
        }
        comparer.compare(&bytes);
    }
}

const FAMILIES: [Family<Reached>; 4] = [("edges", edges), ("flipped bits", flipped_bits), ("any events", any_events), ("times", times)];

#[test]
fn library() {
    compare_all(numbers::read_dat, &FAMILIES);
}

#[test]
fn hand_written_reader() {
    compare_all(hand_written, &FAMILIES);
}

#[test]
fn longest_input() {
    compare_longest::<Reached>(&[numbers::read_dat, hand_written], 9);
}
