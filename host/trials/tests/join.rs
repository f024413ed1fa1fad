//! A reader that joins EVT3 words part way, against the reading of all of them, word by word: from every word of the samples and of recordings that are made up,
//! in pictures of all sizes and with equal room. And the byte from which on nothing is missing, against the second implementation's and the code made by hand.
#[path = "common/often.rs"]
mod often;

use fryskelom::{read_evt3, whole_evt3};
use often::often;
use std::ops::Range;
use trials::samples::evt3::{bytes_of, recording, Scene, ALL_WRAPS};
use trials::samples::recordings::RECORDINGS;
use trials::samples::{Numbers, Picture};
use trials::second::rows::{time_of, Row};
use trials::second::words::Reading;
use trials::{fast, second};

const WRAP: u64 = 16_777_216;

/// What the joinings have reached.
#[derive(Default)]
struct Reached {
    recordings: usize,
    joinings: usize,
    /// By how many wraps a joined reader was behind, three standing for three and more.
    behind: [usize; 4],
    /// Words that gave nothing to the joined reader and rows to the full one, by type.
    missing: [usize; 16],
    /// Words that gave rows to both, by type.
    same: [usize; 16],
    /// Joinings that came to the byte from which on nothing is missing, and that did not.
    whole: [usize; 2],
    /// Joinings by which of the four words came last.
    last: [usize; 16],
    /// Joined readers that gave fewer rows than there was room for.
    left: usize,
}

/// The type of word i.
fn kind(bytes: &[u8], i: usize) -> usize {
    usize::from(bytes[2 * i + 1] >> 4)
}

/// A reading of words that is not refused: by the second implementation, and by the library in the same room.
fn read(bytes: &[u8], (width, height): Picture, room: usize) -> Result<Reading, u64> {
    let reading = second::evt3::read(bytes, width, height, room);
    let mut rows = vec![7; 10 * room];
    let answer = read_evt3(bytes, width, height, &mut rows).map_err(|fault| (fault.refusal.0, fault.rows as u64, fault.place as u64));
    assert_eq!(answer.map_or_else(|fault| fault, |rows| (0, rows as u64, 0)), reading.answer());
    assert_eq!(rows[..10 * reading.rows.len()], *reading.rows.as_flattened());
    match reading.refusal {
        0 => Ok(reading),
        refusal => Err(refusal),
    }
}

/// The rows of each word.
fn by_word(reading: &Reading) -> Vec<&[Row]> {
    let mut rest = &reading.rows[..];
    let words = reading.given.iter().map(|&count| rest.split_off(..count).expect("as many rows as its words gave"));
    words.collect()
}

/// A row with its time so many wraps later.
fn later(row: &Row, wraps: u64) -> Row {
    let time = time_of(row) + wraps * WRAP;
    let mut later = *row;
    (later[1], later[2]) = (time as u32, (time >> 32) as u32);
    later
}

impl Reached {
    /// Joins a recording at some of its words, and at its end. A recording that is refused is not joined.
    fn join(&mut self, bytes: &[u8], picture: Picture, room: usize, starts: Range<usize>) {
        let Ok(full) = read(bytes, picture, room) else { return };
        let full = by_word(&full);
        assert_eq!(2 * full.len(), bytes.len());
        self.recordings += 1;
        for k in starts.start..=starts.end.min(full.len()) {
            self.join_at(k, &bytes[2 * k..], picture, room, &full[k..]);
        }
    }

    /// Joins at word k, whose bytes follow, and what each word gave to the full reader.
    fn join_at(&mut self, k: usize, bytes: &[u8], picture: Picture, room: usize, full: &[&[Row]]) {
        let joined = read(bytes, picture, room).unwrap_or_else(|refusal| panic!("refused {refusal}, joined at word {k} of {bytes:x?}"));
        self.left += usize::from(joined.rows.len() < room);
        let joined = by_word(&joined);
        assert_eq!(joined.len(), full.len());
        let whole = whole_of(bytes);
        let mut wraps = None;
        for (i, (joined, full)) in joined.into_iter().zip(full).enumerate() {
            let kind = kind(bytes, i);
            let sure = whole.is_some_and(|whole| whole <= 2 * i);
            if joined.is_empty() {
                assert!(!sure || full.is_empty(), "a row is missing at word {i} after {k}, in {bytes:x?}");
                self.missing[kind] += usize::from(!full.is_empty());
                continue;
            }
            // the first row says by how much, and all others have to say the same
            let wraps = *wraps.get_or_insert_with(|| (time_of(&full[0]) - time_of(&joined[0])) / WRAP);
            let joined: Vec<Row> = joined.iter().map(|row| later(row, wraps)).collect();
            assert_eq!(joined, *full, "word {i} after {k} in {bytes:x?}");
            self.same[kind] += 1;
        }
        self.joinings += 1;
        self.behind[wraps.unwrap_or(0).min(3) as usize] += usize::from(wraps.is_some());
        self.whole[usize::from(whole.is_none())] += 1;
        if let Some(whole) = whole {
            self.last[kind(bytes, whole / 2 - 1)] += 1;
        }
    }

    fn check(&self) {
        println!("{} recordings, joined at {} words", self.recordings, self.joinings);
        for (wraps, &count) in self.behind.iter().enumerate() {
            often("joined readers behind by wraps", wraps, count);
        }
        for kind in [2, 4, 5, 10] {
            often("rows missing of type", kind, self.missing[kind]);
            often("rows that are there of type", kind, self.same[kind]);
        }
        for (index, &count) in self.whole.iter().enumerate() {
            often("joined readers that miss nothing from some byte on, or throughout", index, count);
        }
        for kind in [0, 3, 6] {
            often("the last of the four to be seen, of type", kind, self.last[kind]);
        }
        // a TIME_HIGH never is, since a later TIME_LOW is asked for
        assert_eq!(self.last.iter().enumerate().filter(|(_, &count)| count > 0).map(|(kind, _)| kind).collect::<Vec<_>>(), [0, 3, 6]);
        often("joined readers with room left, at least", 1, self.left);
    }
}

/// The byte from which on nothing is missing, by everyone who says it.
fn whole_of(bytes: &[u8]) -> Option<usize> {
    let whole = second::evt3::whole(bytes);
    assert_eq!([whole_evt3(bytes), fast::evt3::whole(bytes)], [whole; 2], "{bytes:x?}");
    whole
}

/// A recording as a camera sends it, from any time or from just before the clock's next wraps, with wraps among its words.
fn a_recording(picture: Picture, events: usize, numbers: &mut Numbers) -> Vec<u8> {
    let scenes = [Scene::Pixels, Scene::Dense, Scene::Sparse, Scene::Mixed, Scene::TwoCameras];
    let start = |numbers: &mut Numbers| (1 << 24) - 1 - u64::from(numbers.below(64));
    let mut bytes = vec![];
    for _ in 0..=numbers.below(6) {
        let (scene, start) = (numbers.one_of(&scenes), start(numbers));
        bytes.extend(recording(scene, picture, start, 1 + numbers.below(events as u32) as usize, numbers));
        // where the high part is not 0 yet, the next part, which begins at 4,095, comes after one wrap more
        if numbers.once_in(2) {
            bytes.extend(bytes_of(&[0x8000]));
        }
    }
    bytes
}

#[test]
fn every_word_of_the_samples() {
    let mut reached = Reached::default();
    for (name, make) in RECORDINGS.iter().filter(|(name, _)| name.contains("evt3")) {
        let bytes = make();
        let (words, picture) = match second::header::read(&bytes, 2_048) {
            Ok(header) => (&bytes[header.data..], (header.width, header.height)),
            Err(_) => panic!("{name} has a good header, or none"),
        };
        let room = second::evt3::read(words, picture.0, picture.1, usize::MAX).rows.len();
        let before = reached.joinings;
        reached.join(words, picture, room, 0..words.len());
        println!("{name}: joined at {} words", reached.joinings - before);
    }
    assert_eq!(reached.recordings, 3, "samples that are read without refusal");
    assert!(reached.joinings > 10_000);
}

#[test]
fn every_word_of_recordings() {
    let mut numbers = Numbers::new(0x1d0f_83c2_5e97_b46b);
    let mut reached = Reached::default();
    for _ in 0..6_000 {
        let sides = [1, 2, 3, 12, 13, 32, 100, 2_048];
        let picture = (numbers.one_of(&sides), numbers.one_of(&sides));
        let bytes = a_recording(picture, 20, &mut numbers);
        let rows = second::evt3::read(&bytes, picture.0, picture.1, usize::MAX).rows.len();
        reached.join(&bytes, picture, rows + numbers.below(3) as usize, 0..bytes.len());
    }
    reached.check();
}

/// Words of all types at random, reserved ones seldom: many are refused, and those that are not are joined at every word.
#[test]
fn every_word_of_words_at_random() {
    let mut numbers = Numbers::new(0x7b31_09ad_f6c4_e825);
    let mut reached = Reached::default();
    for _ in 0..60_000 {
        let kinds = [0, 0, 2, 2, 3, 3, 4, 4, 5, 5, 6, 6, 7, 8, 8, 8, 8, 10, 10, 14, 15];
        let mut high = 0;
        let mut word = || match numbers.one_of(&kinds) {
            // it goes on, stays or wraps
            8 => {
                high = numbers.one_of(&[high, high + 1, 0, 0xfff, 0xfff]) & 0xfff;
                0x8000 | high
            }
            kind => kind << 12 | numbers.any() as u16 & 0xfff,
        };
        let words: Vec<u16> = (0..40).map(|_| word()).collect();
        let picture = numbers.one_of(&[(2_048, 2_048), (2_048, 1_024), (1_500, 2_048)]);
        reached.join(&bytes_of(&words), picture, 400, 0..words.len());
    }
    reached.check();
}

/// A clock that wraps as often as it may, joined at its first words and at its last.
#[test]
fn all_wraps() {
    let mut reached = Reached::default();
    let shown = [0x6001, 0x0002, 0x3003, 0x2004, 0x4fff, 0x5fff, 0xa001];
    let words: Vec<u16> = ALL_WRAPS.chunks(2).flat_map(|wrap| [wrap, &shown].concat()).collect();
    reached.join(&bytes_of(&words), (64, 64), 1_023 * 22, 0..40);
    reached.join(&bytes_of(&words), (64, 64), 1_023 * 22, words.len() - 40..words.len());
    assert_eq!((reached.recordings, reached.joinings), (2, 82));
    assert!(reached.behind[3] > 20, "{:?}", reached.behind);
}

/// The byte from which on nothing is missing, of any bytes: of short words of the four types and one other in every order, and of damaged recordings.
#[test]
fn places() {
    let kinds = [0x0000, 0x3000, 0x6000, 0x8000, 0x2000];
    for length in 0..=7 {
        for number in 0..kinds.len().pow(length) {
            let words: Vec<u16> = (0..length).map(|i| kinds[number / kinds.len().pow(i) % kinds.len()]).collect();
            whole_of(&bytes_of(&words));
        }
    }
    let mut numbers = Numbers::new(0x2f6e_94d1_c03b_78a5);
    let mut found = [0, 0];
    for _ in 0..200_000 {
        let length = numbers.below(40) as usize;
        let bytes: Vec<u8> = (0..length).map(|_| numbers.any() as u8).collect();
        found[usize::from(whole_of(&bytes).is_some())] += 1;
    }
    (0..2).for_each(|index| often("without such a byte or with one", index, found[index]));
}
