//! The EVT2 reader of the library, and the hand-written one of the benchmark, against the second implementation: words with any bits
//! flipped, IMU groups and USB packets with a stray word and an end at every place, USB packets between the words of any recording, and
//! recordings that are made up, damaged, cut and short of room.
#[path = "common/readers.rs"]
mod readers;

use readers::{a_picture, answer, compare_all, compare_longest, damage, often, Answer, Family, Reached as _, LARGEST};
use trials::samples::evt2::{a_start, bytes_of, recording, Scene};
use trials::samples::{Numbers, Picture};
use trials::second::rows::time_of;
use trials::second::words::Reading;
use trials::{fast, numbers, second, LAST_REFUSAL};

fn hand_written(bytes: &[u8], width: u32, height: u32, rows: &mut [u32]) -> Answer {
    answer(fast::evt2::read(bytes, width, height, rows))
}

/// What the inputs have reached. An IMU group counts by its first word.
#[derive(Default)]
struct Reached {
    /// Words that gave no row, and those that gave one, by type.
    words: [[usize; 16]; 2],
    /// Cut words and, from four bytes on, cut IMU groups, by the bytes that are there.
    cut: [usize; 24],
    /// Words that do not continue an IMU group, by their place in it and by their type.
    strays: [[usize; 16]; 6],
    /// Those of them that begin a USB packet, by their place.
    packets_inside: [usize; 6],
    /// USB packets that were passed over, without a clock and with one, by how many of their four CONTINUED are there and by the type of the
    /// word after these, `END` where there is none.
    packets: [[[usize; 17]; 5]; 2],
    edges: [usize; 2],
    /// Rows of a time that takes more than 32 bits.
    late: usize,
    /// Rows earlier than the one before.
    back: usize,
}

/// What follows where no word does.
const END: usize = 16;

type Comparer = readers::Comparer<Reached>;

impl readers::Reached for Reached {
    const SIZE: usize = 4;

    const REFUSED: &'static [(usize, &'static [usize])] = &[(2, &[0, 1, 10, 13]), (3, &[2, 3, 4, 5, 6, 7, 9, 11, 12]), (5, &[8]), (6, &[0, 1])];

    fn second(bytes: &[u8], width: u32, height: u32, room: usize) -> Reading {
        second::evt2::read(bytes, width, height, room)
    }

    fn a_recording(picture: Picture, most_events: u32, numbers: &mut Numbers) -> Vec<u8> {
        let scene = numbers.one_of(&[Scene::Pixels, Scene::Packets, Scene::Triggers, Scene::Motion, Scene::Mixed]);
        recording(scene, picture, a_start(numbers), 1 + numbers.below(most_events) as usize, numbers)
    }

    fn count(&mut self, bytes: &[u8], reading: &Reading, kind: impl Fn(usize) -> usize) {
        let read = reading.given.len();
        let begins_packet = |index: usize| kind(index) == 14 && bytes[4 * index..].starts_with(&[0xfe, 0]);
        match reading.refusal {
            4 => self.cut[bytes.len() - 4 * read] += 1,
            8 => {
                let stray = reading.place / 4;
                self.strays[stray - read][kind(stray)] += 1;
                self.packets_inside[stray - read] += usize::from(begins_packet(stray));
            }
            _ => {}
        }
        let (mut index, mut clock) = (0, false);
        while index < read {
            let given = reading.given[index];
            self.words[given][kind(index)] += 1;
            clock |= kind(index) == 8;
            if begins_packet(index) {
                let next = |index: usize| if index < bytes.len() / 4 { kind(index) } else { END };
                let continued = (0..4).take_while(|i| next(index + 1 + i) == 15).count();
                self.packets[usize::from(clock)][continued][next(index + 1 + continued)] += 1;
            }
            index += if kind(index) == 13 && given == 1 { 6 } else { 1 };
        }
        for row in &reading.rows {
            self.late += usize::from(row[2] > 0);
            if row[0] == 2 {
                self.edges[row[4] as usize] += 1;
            }
        }
        self.back += reading.rows.windows(2).filter(|pair| time_of(&pair[1]) < time_of(&pair[0])).count();
    }

    fn check(&self) {
        for kind in [0, 1, 8, 10, 13, 14, 15] {
            often("words without row of type", kind, self.words[0][kind]);
        }
        for kind in [0, 1, 10, 13] {
            often("rows of type", kind, self.words[1][kind]);
        }
        (1..24).for_each(|length| often("cut, bytes", length, self.cut[length]));
        for place in 1..=5 {
            (0..15).for_each(|stray| often(&format!("word {place} of an IMU group a stray of type"), stray, self.strays[place][stray]));
            often("USB packets inside an IMU group, at word", place, self.packets_inside[place]);
        }
        for (clock, continued) in [0, 1].into_iter().flat_map(|clock| (0..5).map(move |continued| (clock, continued))) {
            let what = format!("clock {clock}, USB packets with {continued} CONTINUED before type");
            // one CONTINUED more is another one of the packet, unless that has all four
            let next = (0..=END).filter(|&next| next != 15 || continued == 4);
            next.for_each(|next| often(&what, next, self.packets[clock][continued][next]));
        }
        self.edges.iter().enumerate().for_each(|(which, &count)| often("edge", which, count));
        for (what, count) in [("rows past 32 bits", self.late), ("rows that go back", self.back)] {
            often(what, 1, count);
        }
    }
}

const CLOCK: u32 = 0x8000_0001;
const IMU: u32 = 0xd000_0000;
const USB_PACKET: u32 = 0xe000_00fe;
const CONTINUED: u32 = 0xf000_0000;

/// 28 bits of data.
fn data(numbers: &mut Numbers) -> u32 {
    numbers.below(1 << 28)
}

/// An IMU group with any data.
fn an_imu_group(numbers: &mut Numbers) -> Vec<u32> {
    continued(IMU | data(numbers), 5, numbers)
}

/// A USB packet with any bits.
fn a_packet(numbers: &mut Numbers) -> Vec<u32> {
    continued(USB_PACKET | data(numbers) & !0xffff, 4, numbers)
}

/// A word and so many CONTINUED with any data.
fn continued(first: u32, count: usize, numbers: &mut Numbers) -> Vec<u32> {
    let mut words = vec![first];
    words.extend((0..count).map(|_| CONTINUED | data(numbers)));
    words
}

/// A word of each sort, an IMU group and a USB packet, with and without a clock, in which one bit or two are flipped; then words that show the clock.
fn flipped_bits(comparer: &mut Comparer) {
    let mut numbers = Numbers::new(0x0d4f_9a31_c2b7_6e85);
    let words = [0x0000_0000, 0x1000_0000, CLOCK, 0xa000_0000, 0xe000_0019, CONTINUED];
    let mut items: Vec<Vec<u32>> = words.iter().map(|word| vec![word | data(&mut numbers) & 0x0fff_ff00]).collect();
    items.extend([an_imu_group(&mut numbers), a_packet(&mut numbers)]);
    for (clock, item) in [&[][..], &[CLOCK]].iter().flat_map(|clock| items.iter().map(move |item| (clock, item))) {
        let words = [clock, &item[..], &[0x1080_2803, 0x8fff_ffff, 0xa000_0601]].concat();
        let bits = 32 * (clock.len() + item.len());
        for (one, other) in (0..bits).flat_map(|one| (0..=one).map(move |other| (one, other))) {
            let mut flipped = words.clone();
            flipped[one / 32] ^= 1 << (one % 32);
            if other != one {
                flipped[other / 32] ^= 1 << (other % 32);
            }
            comparer.compare(&bytes_of(&flipped), LARGEST);
        }
    }
}

/// An IMU group and a USB packet, with and without a clock, then a pixel and a trigger; each word between the first and the trigger is once of
/// every type and once a whole USB packet; the input ends at every byte.
fn strays_and_ends(comparer: &mut Comparer) {
    let mut numbers = Numbers::new(0x5b1d_07e6_93fa_c248);
    for round in 0..150 {
        for (group, clock) in [an_imu_group, a_packet].into_iter().flat_map(|group| [true, false].map(|clock| (group, clock))) {
            let group = group(&mut numbers);
            for (place, kind) in (1..=group.len()).flat_map(|place| (0..=16).map(move |kind| (place, kind))) {
                let stray = if kind < 16 { vec![kind << 28 | data(&mut numbers)] } else { a_packet(&mut numbers) };
                let mut words = [&group[..], &[0x1000_0000 | data(&mut numbers), 0xa000_0000 | data(&mut numbers)]].concat();
                words.splice(place..=place, stray);
                if clock {
                    words.insert(0, CLOCK);
                }
                let bytes = bytes_of(&words);
                for end in 0..=bytes.len() {
                    match round % 4 {
                        0 => comparer.compare_lent(&bytes[..end], LARGEST, numbers.below(25) as usize),
                        _ => comparer.compare(&bytes[..end], LARGEST),
                    }
                }
            }
        }
    }
}

/// Words of any 32 bits.
fn any_words(comparer: &mut Comparer) {
    let mut numbers = Numbers::new(0x0a02_bdbf_7bb3_c0a7);
    for _ in 0..100_000 {
        let length = numbers.below(16) as usize;
        let words: Vec<u32> = (0..length).map(|_| numbers.any()).collect();
        comparer.compare(&bytes_of(&words), a_picture(&mut numbers));
    }
}

/// Words and groups that are read, in any order, with wrong ones now and then, into buffers that are often too short.
fn likely_words(comparer: &mut Comparer) {
    let mut numbers = Numbers::new(0x28bd_8aa4_f2b0_91d3);
    for _ in 0..200_000 {
        let picture = a_picture(&mut numbers);
        let bytes = likely(picture, &mut numbers);
        match numbers.below(2) {
            0 => comparer.compare(&bytes, picture),
            _ => comparer.compare_lent(&bytes, picture, numbers.below(300) as usize),
        }
    }
}

fn likely(picture: Picture, numbers: &mut Numbers) -> Vec<u8> {
    let mut words = vec![];
    for _ in 0..numbers.below(48) {
        push_likely(&mut words, picture, numbers);
    }
    bytes_of(&words)
}

fn push_likely(words: &mut Vec<u32>, (width, height): Picture, numbers: &mut Numbers) {
    match numbers.below(20) {
        // a high part that grows with the input
        0 | 1 => words.push(0x8000_0000 | (words.len() / 8) as u32),
        2 | 3 => words.push(0xa000_0000 | data(numbers)),
        4 | 5 => words.extend(an_imu_group(numbers)),
        6 | 7 => words.extend(a_packet(numbers)),
        8 => words.push(0xe000_0000 | data(numbers)),
        9 => words.push(CONTINUED | data(numbers)),
        10 if numbers.once_in(4) => words.push(numbers.any()),
        11 if numbers.once_in(4) => words.truncate(words.len().saturating_sub(1)),
        _ => words.push(numbers.below(2) << 28 | numbers.below(64) << 22 | numbers.below(width) << 11 | numbers.below(height)),
    }
}

/// High parts at their limits, which mostly rise, each with events of any low part.
fn clocks(comparer: &mut Comparer) {
    const HIGHS: [u32; 8] = [0, 1, (1 << 26) - 1, 1 << 26, (1 << 27) + 5, (1 << 28) - 3, (1 << 28) - 2, (1 << 28) - 1];
    let mut numbers = Numbers::new(0x1f3d_85b1_9c0e_6a55);
    for _ in 0..60_000 {
        let mut words = vec![];
        for high in HIGHS {
            let high = if numbers.once_in(16) { numbers.one_of(&HIGHS) } else { high };
            // the same one again, or not at all
            (0..numbers.below(3)).for_each(|_| words.push(0x8000_0000 | high));
            for _ in 0..numbers.below(4) {
                words.push(numbers.one_of(&[0x0000_0000, 0x1000_0000, 0xa000_0000]) | data(&mut numbers));
            }
            if numbers.once_in(8) {
                words.extend(an_imu_group(&mut numbers));
            }
        }
        comparer.compare(&bytes_of(&words), LARGEST);
    }
}

/// USB packets between the words of any recording change no row. Where it is refused, it still is, by the same number and at the same word.
fn packets_between_words(comparer: &mut Comparer) {
    let mut numbers = Numbers::new(0x7a1c_e03b_5d94_68f7);
    let mut refused = [0; LAST_REFUSAL + 1];
    for _ in 0..100_000 {
        let picture = a_picture(&mut numbers);
        let bytes = any_recording(picture, &mut numbers);
        let (with_packets, places) = put_packets(&bytes, &mut numbers);
        let lent = numbers.one_of(&[10 * bytes.len(), 300]);
        let [without, with] = [&bytes, &with_packets].map(|bytes| {
            comparer.compare_lent(bytes, picture, lent);
            Reached::second(bytes, picture.0, picture.1, lent / 10)
        });
        let (place, packets_read) = match without.refusal {
            0 => (0, with_packets.len() > bytes.len()),
            _ => (places[without.place / 4], places[without.place / 4] > without.place),
        };
        assert_eq!((with.refusal, with.place, with.rows), (without.refusal, place, without.rows), "{with_packets:02x?} for {bytes:02x?}");
        refused[with.refusal as usize] += usize::from(packets_read);
    }
    [0, 2, 3, 4, 5, 6, 8].iter().for_each(|&refusal| often("after USB packets, refusal", refusal, refused[refusal]));
}

/// A recording as a camera sends it, or damaged, or cut, or words in any order.
fn any_recording(picture: Picture, numbers: &mut Numbers) -> Vec<u8> {
    let mut bytes = Reached::a_recording(picture, 60, numbers);
    match numbers.below(4) {
        0 => damage(&mut bytes, numbers),
        1 => bytes.truncate(numbers.below(bytes.len() as u32) as usize),
        2 => bytes = likely(picture, numbers),
        _ => {}
    }
    bytes
}

/// A recording with USB packets before some of its words and after the last, though none inside an IMU group; and where each word stands then.
fn put_packets(bytes: &[u8], numbers: &mut Numbers) -> (Vec<u8>, Vec<usize>) {
    let seldom = numbers.one_of(&[1, 2, 8, 64]);
    let (words, rest) = bytes.as_chunks::<4>();
    let (mut with_packets, mut places) = (vec![], vec![]);
    // how many words of an IMU group are still to come
    let (mut clock, mut to_come) = (false, 0);
    for word in words.iter().map(|word| &word[..]).chain([rest]) {
        if to_come == 0 && numbers.once_in(seldom) {
            with_packets.extend(bytes_of(&a_packet(numbers)));
        }
        places.push(with_packets.len());
        with_packets.extend(word);
        let kind = word.get(3).map(|top| top >> 4);
        clock |= kind == Some(8);
        to_come = match kind {
            _ if to_come > 0 => to_come - 1,
            Some(13) if clock => 5,
            _ => 0,
        };
    }
    (with_packets, places)
}

const FAMILIES: [Family<Reached>; 6] = [
    ("flipped bits", flipped_bits),
    ("strays and ends", strays_and_ends),
    ("any words", any_words),
    ("likely words", likely_words),
    ("clocks", clocks),
    ("USB packets between words", packets_between_words),
];

#[test]
fn library() {
    compare_all(numbers::read_evt2, &FAMILIES);
}

#[test]
fn hand_written_reader() {
    compare_all(hand_written, &FAMILIES);
}

#[test]
fn longest_input() {
    compare_longest::<Reached>([numbers::read_evt2, hand_written]);
}
