//! The EVT2 writer of the library, and the hand-written one of the benchmark, against the second implementation: lists that can be
//! written, into buffers of every length, lists of two cameras, and lists in which any number of any row breaks any rule. What was written is
//! read back.
#[path = "common/writers.rs"]
mod writers;

use fryskelom::{read_evt2, Refusal, RowFault};
use trials::samples::evt2::{a_start, list, Scene};
use trials::samples::{evt3, imu, Numbers};
use trials::second::rows::{limits, time_of, Row, MOST_ROWS};
use trials::second::words::Writing;
use trials::{fast, numbers, second};
use writers::{answer, compare_all, compare_longest, often, write_longest, Answer, Family, Reached as _};

fn hand_written(rows: &[u32], out: &mut [u8]) -> Answer {
    answer(fast::evt2::write(rows, out))
}

/// What the lists have reached.
#[derive(Default)]
struct Reached {
    /// Rows that were written, by kind and by the number of their words.
    rows: [[usize; 8]; 4],
}

impl writers::Reached for Reached {
    const SIZE: usize = 4;

    const KINDS: &'static [u32] = &[1, 2, 3];

    const CLOCK: &'static [u64] = &[64];

    fn second(numbers: &[u32], lent: usize) -> Writing {
        second::evt2::write(numbers, lent)
    }

    fn most_words(rows: &[Row]) -> usize {
        7 * rows.len()
    }

    fn limits(kind: u32) -> Option<[u64; 7]> {
        match kind {
            // x, y, polarity, and no camera but 0
            1 => Some([2_048, 2_048, 2, 1, 1, 1, 1]),
            _ => limits(kind),
        }
    }

    fn a_list(most_events: u32, numbers: &mut Numbers) -> Vec<Row> {
        let scene = numbers.one_of(&[Scene::Pixels, Scene::Triggers, Scene::Motion, Scene::Mixed]);
        list(scene, (2_048, 2_048), a_start(numbers), 1 + numbers.below(most_events) as usize, numbers)
    }

    fn count(&mut self, rows: &[Row], _: &[u8]) {
        for (index, row) in rows.iter().enumerate() {
            let new = index == 0 || time_of(row) / 64 != time_of(&rows[index - 1]) / 64;
            self.rows[row[0] as usize][if row[0] == 3 { 6 } else { 1 } + usize::from(new)] += 1;
        }
    }

    fn check(&self) {
        for (kind, lengths) in [(1, [1, 2]), (2, [1, 2]), (3, [6, 7])] {
            lengths.iter().for_each(|&length| often(&format!("rows of kind {kind}, words"), length, self.rows[kind][length]));
        }
    }
}

type Comparer = writers::Comparer<Reached>;

/// Lists of two cameras, which EVT3 can write, are refused at the first pixel of camera 1; of camera 0 alone they can be written.
fn two_cameras(comparer: &mut Comparer) {
    let mut numbers = Numbers::new(0x38c1_6f0e_b7d5_2a94);
    let mut refused = [0; 4];
    for _ in 0..20_000 {
        let mut rows = evt3::list(evt3::Scene::TwoCameras, (2_048, 2_048), evt3::a_start(&mut numbers), 1 + numbers.below(20) as usize, &mut numbers);
        let of_slave = |row: &Row| row[0] == 1 && row[6] == 1;
        if let Some(first) = rows.iter().position(of_slave) {
            assert_eq!(Reached::second(rows.as_flattened(), usize::MAX).answer(), (12, first as u64), "{rows:?}");
            comparer.compare(rows.as_flattened());
            refused[first.min(3)] += 1;
        }
        rows.iter_mut().filter(|row| of_slave(row)).for_each(|row| row[6] = 0);
        assert_eq!(Reached::second(rows.as_flattened(), usize::MAX).refusal, 0, "{rows:?}");
        comparer.compare(rows.as_flattened());
    }
    refused.iter().enumerate().for_each(|(index, &count)| often("camera 1 at row", index, count));
}

const FAMILIES: [Family<Reached>; 1] = [("two cameras", two_cameras)];

#[test]
fn library() {
    compare_all(numbers::write_evt2, read_evt2, &FAMILIES);
}

#[test]
fn hand_written_writer() {
    compare_all(hand_written, fast::evt2::read, &FAMILIES);
}

#[test]
fn longest_list() {
    compare_longest::<Reached>([numbers::write_evt2, hand_written]);
}

/// As many rows as a list may have, each of as many words as a row may have.
#[test]
fn most_words() {
    const fn time(i: usize) -> u64 {
        1_023 * i as u64
    }
    let words = |i: usize| {
        let data = (time(i) % 64) as u32 * (1 << 22) + 2 * (i as u32 & 0xffff);
        let [first, next] = [0xd000_0000 | data, 0xf000_0000 | data];
        [0x8000_0000 | (time(i) / 64) as u32, first, next, next, next, next, next].map(u32::to_le_bytes)
    };
    write_longest([numbers::write_evt2, hand_written], |i| imu(time(i), [i as u32 & 0xffff; 6]), || (0..MOST_ROWS).flat_map(words));
}

#[test]
fn faults_as_text() {
    let fault = |refusal, row| RowFault { refusal: Refusal(refusal), row }.to_string();
    let texts = [
        "refusal 12 at row 3: a bad row, or one that the format cannot write",
        "refusal 5 at row 0: a time goes back, is negative or passes the limit",
        "refusal 13: a list whose length is no multiple of ten, or over 16777216 rows",
    ];
    assert_eq!([fault(12, 3), fault(5, 0), fault(13, 0)], texts);
}
