//! The EVT3 writer of the library, and the hand-written one of the benchmark, against the second implementation: every set of columns at
//! both ends of a line, groups of every sort broken off in every way, every line of either camera, every number of wraps, and lists as they
//! are for every writer. What was written is read back, and its words are counted.
#[path = "common/writers.rs"]
mod writers;

use fryskelom::read_evt3;
use trials::samples::evt3::{a_start, list, Scene};
use trials::samples::{pixel, row, trigger, Numbers, LAST_TIME};
use trials::second::evt3::groups;
use trials::second::rows::{limits, time_of, Row, MOST_ROWS};
use trials::second::words::Writing;
use trials::{fast, numbers, second};
use writers::{answer, compare_all, compare_longest, often, write_longest, Answer, Family, Reached as _, Writer};

const WRAP: u64 = 16_777_216;

fn hand_written(rows: &[u32], out: &mut [u8]) -> Answer {
    answer(fast::evt3::write(rows, out))
}

/// What the lists have reached.
#[derive(Default)]
struct Reached {
    words: [usize; 16],
    /// ADDR_Y after another one, by whether only the line is new, only the camera, or both.
    lines: [usize; 3],
    /// Vectors by the number of their pixels: those after BASE_X, and those after another vector.
    vectors: [[usize; 13]; 2],
    /// Neighbours in a group by the columns between them, 0 to 24 or more.
    gaps: [usize; 26],
    /// Groups that begin in the first column, and such that end in the last.
    sides: [usize; 2],
    /// Groups with as many words as they have events, and with as many as their columns allow.
    bounds: [usize; 2],
    /// Groups by what alone ends them: a trigger, a new time, line, polarity or camera, the same column, one to the left.
    ended: [usize; 7],
    /// Wraps, those from the high part 4,095 apart, by how many are crossed at once: one, two, more, all.
    wraps: [[usize; 4]; 2],
    /// Events with a new time but the same low part.
    same_low: usize,
}

type Comparer = writers::Comparer<Reached>;

impl writers::Reached for Reached {
    const SIZE: usize = 2;

    const KINDS: &'static [u32] = &[1, 2];

    const CLOCK: &'static [u64] = &[4_096, WRAP];

    fn second(numbers: &[u32], lent: usize) -> Writing {
        second::evt3::write(numbers, lent)
    }

    fn most_words(rows: &[Row]) -> usize {
        let last = rows.last().map_or(0, |row| time_of(row).min(LAST_TIME));
        4 * rows.len() + 2 * (last / WRAP) as usize
    }

    fn limits(kind: u32) -> Option<[u64; 7]> {
        let limits = limits(kind)?.map(|limit| match limit {
            32_768 => 2_048,
            32 => 16,
            _ => limit,
        });
        Some(limits)
    }

    fn a_list(most_events: u32, numbers: &mut Numbers) -> Vec<Row> {
        let scene = numbers.one_of(&[Scene::Pixels, Scene::Dense, Scene::Sparse, Scene::Mixed, Scene::TwoCameras]);
        list(scene, (2_048, 2_048), a_start(numbers), 1 + numbers.below(most_events) as usize, numbers)
    }

    fn count(&mut self, rows: &[Row], bytes: &[u8]) {
        let given = second::evt3::read(bytes, 2_048, 2_048, rows.len()).given;
        let words: Vec<(u8, usize)> = bytes.chunks(2).map(|word| word[1] >> 4).zip(given).collect();
        for (index, &(kind, given)) in words.iter().enumerate() {
            self.words[usize::from(kind)] += 1;
            if kind == 4 {
                self.vectors[usize::from(words[index - 1].0 == 4)][given] += 1;
            }
        }
        self.count_lines(bytes);
        let groups = groups(rows);
        self.count_groups(&groups, &words);
        self.count_ends(&groups);
        self.count_times(rows);
    }

    fn check(&self) {
        [0, 2, 3, 4, 6, 8, 10].iter().for_each(|&kind| often("words of type", kind, self.words[kind]));
        let all = |what: &str, counts: &[usize]| counts.iter().enumerate().for_each(|(which, &count)| often(what, which, count));
        all("lines, only the line new, only the camera, or both", &self.lines);
        all("vectors after a base, with pixels less two", &self.vectors[0][2..]);
        all("vectors after a vector, with pixels less one", &self.vectors[1][1..]);
        all("gaps of columns", &self.gaps[..25]);
        all("groups at a side", &self.sides);
        all("groups as long as they may be", &self.bounds);
        all("groups that end otherwise", &self.ended);
        all("wraps", &self.wraps[0]);
        all("wraps from 4,095", &self.wraps[1][..3]);
        assert!(self.wraps[1][3] > 0, "all wraps from 4,095");
        often("low parts again", 1, self.same_low);
    }
}

impl Reached {
    /// No ADDR_Y says again what the last one said.
    fn count_lines(&mut self, bytes: &[u8]) {
        let words = bytes.chunks(2).map(|word| u16::from_le_bytes([word[0], word[1]]));
        let lines: Vec<(u16, u16)> = words.filter(|word| word >> 12 == 0).map(|line| (line % 2_048, line / 2_048)).collect();
        for pair in lines.windows(2) {
            let which = match (pair[0].0 != pair[1].0, pair[0].1 != pair[1].1) {
                (true, false) => 0,
                (false, true) => 1,
                (true, true) => 2,
                (false, false) => panic!("the same line twice: {lines:?}"),
            };
            self.lines[which] += 1;
        }
    }

    /// Holds the words for each group's columns to their bound. Words are given as their types and how many rows each gives.
    fn count_groups(&mut self, groups: &[&[Row]], words: &[(u8, usize)]) {
        let mut words = words.iter().filter(|(kind, _)| [2, 3, 4, 10].contains(kind));
        for group in groups {
            let (mut count, mut events) = (0, 0);
            while events < group.len() {
                let (_, given) = words.next().expect("words of every event");
                (count, events) = (count + 1, events + given);
            }
            assert_eq!(events, group.len(), "a vector with pixels of two groups: {group:?}");
            let (first, last) = (group[0], group[group.len() - 1]);
            if first[0] == 2 {
                continue;
            }
            let by_columns = 1 + (last[3] - first[3] + 1).div_ceil(12) as usize;
            assert!(count <= group.len().min(by_columns), "{count} words for the columns of {group:?}");
            self.bounds[0] += usize::from(count == group.len());
            self.bounds[1] += usize::from(count == by_columns);
            self.sides[0] += usize::from(first[3] == 0);
            self.sides[1] += usize::from(last[3] == 2_047);
            group.windows(2).for_each(|pair| self.gaps[25.min(pair[1][3] - pair[0][3] - 1) as usize] += 1);
        }
    }

    fn count_ends(&mut self, groups: &[&[Row]]) {
        for pair in groups.windows(2) {
            let (last, next) = (pair[0][pair[0].len() - 1], pair[1][0]);
            let time = time_of(&last) != time_of(&next);
            let ends = match next[0] {
                2 => [true, time, false, false, false, false, false],
                _ => [false, time, last[4] != next[4], last[5] != next[5], last[6] != next[6], last[3] == next[3], last[3] > next[3]],
            };
            if last[0] == 1 && ends.iter().filter(|&&end| end).count() == 1 {
                ends.iter().zip(&mut self.ended).for_each(|(&end, count)| *count += usize::from(end));
            }
        }
    }

    fn count_times(&mut self, rows: &[Row]) {
        let mut last = None;
        for time in rows.iter().map(time_of) {
            let wraps = time / WRAP - last.unwrap_or(0) / WRAP;
            let from_last = last.is_some_and(|last: u64| last / 4_096 % 4_096 == 4_095);
            if wraps > 0 {
                let which = if wraps == 1_023 { 3 } else { wraps.min(3) as usize - 1 };
                self.wraps[usize::from(from_last)][which] += 1;
            }
            self.same_low += usize::from(last.is_some_and(|last| last != time && last % 4_096 == time % 4_096));
            last = Some(time);
        }
    }
}

/// Pixels of one group in columns from `first` on, each by a step to the right of the one before.
fn line(first: u32, steps: &[u32]) -> Vec<Row> {
    let (mut x, mut rows) = (first, vec![pixel(4_098, first, 3, 1)]);
    for step in steps {
        x += step;
        rows.push(pixel(4_098, x, 3, 1));
    }
    rows
}

/// Compares with a buffer that is always long enough.
fn compare_enough(comparer: &mut Comparer, rows: &[Row]) {
    comparer.compare_lent(rows.as_flattened(), 2 * Reached::most_words(rows), 0);
}

/// Every set of 17 columns, at the left and at the right end of a line.
fn every_set_of_columns(comparer: &mut Comparer) {
    for (first, set) in [0, 2_031].into_iter().flat_map(|first| (0..1u32 << 17).map(move |set| (first, set))) {
        let rows: Vec<Row> = (0..17).filter(|i| set >> i & 1 == 1).map(|i| pixel(4_098, first + i, 3, 1)).collect();
        compare_enough(comparer, &rows);
    }
}

/// Every four steps from pixel to pixel among those around the length of one vector and of two.
fn every_step(comparer: &mut Comparer) {
    const STEPS: [u32; 14] = [1, 2, 5, 10, 11, 12, 13, 14, 22, 23, 24, 25, 26, 36];
    for i in 0..STEPS.len().pow(4) {
        let steps = [0, 1, 2, 3].map(|place| STEPS[i / STEPS.len().pow(place) % STEPS.len()]);
        let columns = steps.iter().sum::<u32>();
        comparer.compare(line([0, 7, 2_047 - columns][i % 3], &steps).as_flattened());
    }
}

/// Lines of any steps up to 30 columns from the first column on or up to the last one, every pixel of a line among them.
fn long_lines(comparer: &mut Comparer) {
    let mut numbers = Numbers::new(0x9d2c_5680_62f1_3a4d);
    for most in (1..=30).cycle().take(600) {
        let (mut steps, mut columns) = (vec![], 0);
        loop {
            let step = 1 + numbers.below(most);
            if columns + step > 2_047 {
                break;
            }
            steps.push(step);
            columns += step;
        }
        comparer.compare(line(numbers.one_of(&[0, 2_047 - columns]), &steps).as_flattened());
    }
}

/// A line that ends at every place in every way, and goes on after it.
fn broken_lines(comparer: &mut Comparer) {
    let mut numbers = Numbers::new(0x1f3d_85b1_9c0e_6a55);
    for _ in 0..500 {
        let steps: Vec<u32> = (0..12).map(|_| 1 + numbers.below(24)).collect();
        let whole = line(numbers.below(1_700), &steps);
        for (place, way) in (0..whole.len()).flat_map(|place| (0..10).map(move |way| (place, way))) {
            let mut rows = whole.clone();
            let [_, low, _, x, y, polarity, ..] = rows[place];
            match way {
                0 => rows.insert(place, trigger(4_098, 15, 1)),
                1 => rows[place..].iter_mut().for_each(|row| row[1] = low + 1),
                2 => rows[place..].iter_mut().for_each(|row| row[1] = low + 4_096),
                3 => rows[place..].iter_mut().for_each(|row| row[1] = low + 3 * WRAP as u32),
                4 => rows[place..].iter_mut().for_each(|row| row[4] = y + 1),
                5 => rows[place..].iter_mut().for_each(|row| row[5] = 1 - polarity),
                6 => rows[place..].iter_mut().for_each(|row| row[6] = 1),
                // one pixel of the other camera, and of the same line
                7 => rows[place][6] = 1,
                8 => rows.insert(place, rows[place]),
                _ => rows[place][3] = numbers.below(x + 1),
            }
            comparer.compare(rows.as_flattened());
        }
    }
}

/// A pixel of every line of either camera, and after it one of the same, the first and the last line of either camera.
fn every_line(comparer: &mut Comparer) {
    let of_both = |y: u32| [(y, 0), (y, 1)];
    for (y, camera) in (0..2_048).flat_map(of_both) {
        for (next_y, next_camera) in [y, 0, 2_047].into_iter().flat_map(of_both) {
            let rows = [row(1, 4_098, [5, y, 1, camera, 0, 0, 0]), row(1, 4_098, [6, next_y, 1, next_camera, 0, 0, 0])];
            comparer.compare(rows.as_flattened());
        }
    }
}

/// Every number of wraps, at once, from no time and from times with the high part 4,095 and others, to such times.
fn every_wrap(comparer: &mut Comparer) {
    const PARTS: [u64; 5] = [0, 0x000_456, 0x123_456, 0xfff_000, 0xfff_fff];
    for wraps in 0..1_024 {
        for to in PARTS.map(|part| WRAP * wraps + part) {
            for from in PARTS.map(Some).into_iter().chain([None]).filter(|&from| from <= Some(to)) {
                let rows: Vec<Row> = from.into_iter().chain([to]).map(|time| pixel(time, 5, 3, 1)).collect();
                compare_enough(comparer, &rows);
            }
        }
    }
}

const FAMILIES: [Family<Reached>; 6] = [
    ("every set of columns", every_set_of_columns),
    ("every step", every_step),
    ("long lines", long_lines),
    ("broken lines", broken_lines),
    ("every line", every_line),
    ("every wrap", every_wrap),
];

#[test]
fn library() {
    compare_all(numbers::write_evt3, read_evt3, &FAMILIES);
}

#[test]
fn hand_written_writer() {
    compare_all(hand_written, fast::evt3::read, &FAMILIES);
}

#[test]
fn longest_list() {
    compare_longest::<Reached>([numbers::write_evt3, hand_written]);
}

/// As many rows as a list may have, each with a new time and of the other camera, every other with a new line, and every fourth with a new
/// high part.
fn single_pixel(i: usize) -> Row {
    let [x, y, camera] = [i % 2_047, i / 2 % 2_048, i % 2].map(|number| number as u32);
    row(1, 1_024 * i as u64, [x, y, 1, camera, 0, 0, 0])
}

fn words_of_single_pixel(i: usize) -> impl Iterator<Item = usize> {
    let words = [0x8000 + i / 4 % 4_096, 0x6000 + 1_024 * (i % 4), 2_048 * (i % 2) + i / 2 % 2_048, 0x2800 + i % 2_047];
    words.into_iter().skip((i % 4).min(1))
}

/// As many, which are all pixels of a picture four times, line by line.
fn pixel_of_picture(i: usize) -> Row {
    pixel(i as u64 / 4_194_304, i as u32 % 2_048, i as u32 / 2_048 % 2_048, 1)
}

fn words_of_line(i: usize) -> impl Iterator<Item = usize> {
    let time = match (i % 2_048, i / 2_048) {
        (0, 0) => vec![0x8000, 0x6000],
        (0, time) => vec![0x6000 + time],
        _ => vec![],
    };
    time.into_iter().chain([i % 2_048, 0x3800]).chain([0x4fff; 170]).chain([0x40ff])
}

#[test]
fn longest_lists_written() {
    let bytes = |word: usize| (word as u16).to_le_bytes();
    let writers = [numbers::write_evt3 as Writer, hand_written];
    write_longest(writers, single_pixel, || (0..MOST_ROWS).flat_map(words_of_single_pixel).map(bytes));
    write_longest(writers, pixel_of_picture, || (0..MOST_ROWS / 2_048).flat_map(words_of_line).map(bytes));
}
