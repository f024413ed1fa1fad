//! EVT3 recordings as a camera sends them, and lists of rows that can be written.
use super::{pixel, trigger, Numbers, Picture, LAST_TIME};

/// What a camera sees.
#[derive(Clone, Copy, Debug)]
pub enum Scene {
    /// A few moving points: nearly every event is a word of its own. In a list each has a time of its own, too.
    Pixels,
    /// Light that changes everywhere: vectors with most bits set.
    Dense,
    /// Thin lines: vectors with one to three bits set. In a list gaps of up to 30 columns.
    Sparse,
    /// All of these in turn, with triggers; in a recording words that carry no event, in a list long pauses.
    Mixed,
    /// The same, seen by a master and a slave on one clock. In all other scenes the camera is 0.
    TwoCameras,
}

/// Words whose high part falls 1,023 times, which is as often as it may.
pub const ALL_WRAPS: &[u16] = &{
    let mut words = [0x8fff; 2 * 1_023];
    let mut i = 1;
    while i < words.len() {
        words[i] = 0x8000;
        i += 2;
    }
    words
};

/// Any time before the first wrap, or one from which a wrap, 2^32 or the last time is soon reached.
pub fn a_start(numbers: &mut Numbers) -> u64 {
    let (any, wraps) = (u64::from(numbers.below(1 << 24)), numbers.one_of(&[1, 1, 1, 1, 1, 1, 1, 2, 2, 2, 3, 3, 3, 4, 256, 1_024]));
    let soon = (wraps << 24) - 1 - u64::from(numbers.below(64));
    numbers.one_of(&[any, soon])
}

/// At least so many rows that can be written. The first is later than `start`, and time does not go on past the last one.
pub fn list(scene: Scene, picture: Picture, start: u64, events: usize, numbers: &mut Numbers) -> Vec<[u32; 10]> {
    let (mut rows, mut time) = (vec![], start);
    while rows.len() < events {
        let pause = match scene {
            // about one wrap on the average
            Scene::Mixed | Scene::TwoCameras if numbers.once_in(1_000) => u64::from(numbers.below(1 << 25)),
            _ => numbers.pause(),
        };
        time = LAST_TIME.min(time + pause);
        see(scene, picture, time, &mut rows, numbers);
    }
    rows
}

fn see(scene: Scene, picture: Picture, time: u64, rows: &mut Vec<[u32; 10]>, numbers: &mut Numbers) {
    match scene {
        Scene::Pixels => rows.push(pixel(time, numbers.below(picture.0), numbers.below(picture.1), numbers.below(2))),
        Scene::Dense => lines(picture, time, |numbers| if numbers.once_in(16) { 2 + numbers.below(20) } else { 1 }, rows, numbers),
        Scene::Sparse => lines(picture, time, |numbers| 1 + numbers.below(30), rows, numbers),
        Scene::Mixed => match numbers.below(32) {
            0..=3 => rows.push(trigger(time, numbers.below(16), numbers.below(2))),
            4..=6 => see(Scene::Dense, picture, time, rows, numbers),
            7..=11 => see(Scene::Sparse, picture, time, rows, numbers),
            _ => see(Scene::Pixels, picture, time, rows, numbers),
        },
        Scene::TwoCameras => {
            for _ in 0..=numbers.below(2) {
                let (camera, first) = (numbers.below(2), rows.len());
                see(Scene::Mixed, picture, time, rows, numbers);
                rows[first..].iter_mut().filter(|row| row[0] == 1).for_each(|row| row[6] = camera);
            }
        }
    }
}

/// One to three times, up to 40 pixels of a line, each by some `step` to the right of the one before.
fn lines((width, height): Picture, time: u64, step: fn(&mut Numbers) -> u32, rows: &mut Vec<[u32; 10]>, numbers: &mut Numbers) {
    for _ in 0..=numbers.below(3) {
        let (mut x, y, polarity) = (numbers.below(width), numbers.below(height), numbers.below(2));
        for _ in 0..=numbers.below(40) {
            if x < width {
                rows.push(pixel(time, x, y, polarity));
            }
            x += step(numbers);
        }
    }
}

/// A recording of at least so many events, whose clock starts at a time in microseconds.
pub fn recording(scene: Scene, picture: Picture, start: u64, events: usize, numbers: &mut Numbers) -> Vec<u8> {
    let mut camera = Camera::new(start);
    while camera.events < events {
        camera.wait(numbers.pause());
        camera.see(scene, picture, numbers);
    }
    camera.bytes()
}

/// The bytes of words.
pub fn bytes_of(words: &[u16]) -> Vec<u8> {
    words.iter().flat_map(|word| word.to_le_bytes()).collect()
}

/// A camera, or two that send as one. It sends only what has changed, and its time base again and again.
struct Camera {
    words: Vec<u16>,
    time: u64,
    /// Which of the two sees the next scene: 0 the master, 1 the slave.
    camera: u32,
    /// The data of the last ADDR_Y: the line, and the camera above it.
    line: Option<u32>,
    events: usize,
}

impl Camera {
    fn new(time: u64) -> Camera {
        let mut camera = Camera { words: vec![], time, camera: 0, line: None, events: 0 };
        camera.time_high(time);
        camera.time_low(time);
        camera
    }

    fn bytes(self) -> Vec<u8> {
        bytes_of(&self.words)
    }

    /// Lets time pass. The high part comes every 16 us, changed or not.
    fn wait(&mut self, microseconds: u64) {
        let until = self.time + microseconds;
        for tick in self.time / 16 + 1..=until / 16 {
            self.time_high(16 * tick);
        }
        self.time_low(until);
        self.time = until;
    }

    fn see(&mut self, scene: Scene, picture: Picture, numbers: &mut Numbers) {
        match scene {
            Scene::Pixels => self.points(picture, numbers),
            Scene::Dense => self.line(picture, |numbers| numbers.any() | numbers.any() | numbers.any(), numbers),
            Scene::Sparse => self.line(picture, sparse_bits, numbers),
            Scene::Mixed => match numbers.below(32) {
                0 => self.trigger(numbers.below(16), numbers.below(2)),
                1 => self.others(numbers),
                2..=4 => self.see(Scene::Dense, picture, numbers),
                5..=12 => self.see(Scene::Sparse, picture, numbers),
                _ => self.see(Scene::Pixels, picture, numbers),
            },
            Scene::TwoCameras => {
                for _ in 0..=numbers.below(2) {
                    self.camera = numbers.below(2);
                    self.see(Scene::Mixed, picture, numbers);
                }
            }
        }
    }

    /// One to three times, one to eight single pixels of a line.
    fn points(&mut self, (width, height): Picture, numbers: &mut Numbers) {
        for _ in 0..=numbers.below(3) {
            self.addr_y(numbers.below(height));
            for _ in 0..=numbers.below(8) {
                self.word(0x2, numbers.below(2) << 11 | numbers.below(width));
                self.events += 1;
            }
        }
    }

    /// One to four stretches of 32 columns of a line, each as a base, two vectors of 12 and one of 8.
    fn line(&mut self, (width, height): Picture, bits: fn(&mut Numbers) -> u32, numbers: &mut Numbers) {
        self.addr_y(numbers.below(height));
        for _ in 0..=numbers.below(4) {
            let x = 32 * numbers.below(width.div_ceil(32));
            let inside = u32::MAX >> 32u32.saturating_sub(width - x);
            let bits = bits(numbers) & inside;
            self.word(0x3, numbers.below(2) << 11 | x);
            self.word(0x4, bits & 0xfff);
            self.word(0x4, bits >> 12 & 0xfff);
            self.word(0x5, bits >> 24);
            self.events += bits.count_ones() as usize;
        }
    }

    fn trigger(&mut self, channel: u32, edge: u32) {
        self.word(0xa, channel << 8 | edge);
        self.events += 1;
    }

    /// A word of another sort, continued by up to three more.
    fn others(&mut self, numbers: &mut Numbers) {
        self.word(0xe, numbers.below(4_096));
        for _ in 0..numbers.below(4) {
            let kind = numbers.one_of(&[0x7, 0xf]);
            self.word(kind, numbers.below(4_096));
        }
    }

    fn addr_y(&mut self, y: u32) {
        let line = self.camera << 11 | y;
        if self.line != Some(line) {
            self.word(0x0, line);
            self.line = Some(line);
        }
    }

    fn time_high(&mut self, time: u64) {
        self.word(0x8, (time / 4_096 % 4_096) as u32);
    }

    fn time_low(&mut self, time: u64) {
        self.word(0x6, (time % 4_096) as u32);
    }

    fn word(&mut self, kind: u16, data: u32) {
        self.words.push(kind << 12 | data as u16);
    }
}

/// One to three set bits in each of the three vectors of 32 columns.
fn sparse_bits(numbers: &mut Numbers) -> u32 {
    let vector =
        |first: u32, columns: u32, numbers: &mut Numbers| (0..=numbers.below(3)).fold(0, |bits, _| bits | 1 << (first + numbers.below(columns)));
    vector(0, 12, numbers) | vector(12, 12, numbers) | vector(24, 8, numbers)
}
