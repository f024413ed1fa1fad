//! EVT2 recordings as a camera and its driver send them, and lists of rows that can be written.
use super::{imu, pixel, trigger, Numbers, Picture, LAST_TIME};

/// What a camera sees.
#[derive(Clone, Copy, Debug)]
pub enum Scene {
    /// Moving points: nothing but pixels.
    Pixels,
    /// The same; in a recording the driver has put USB packets between them, which give no row, the first before the clock.
    Packets,
    /// A relay: triggers among few pixels.
    Triggers,
    /// A camera that is carried about: a sample of its IMU after every few pixels.
    Motion,
    /// All of these in turn; in a recording also words that carry no event.
    Mixed,
}

/// Any time of 32 bits, or one from which 2^32 or the last time is soon reached.
pub fn a_start(numbers: &mut Numbers) -> u64 {
    let (any, before) = (u64::from(numbers.any()), u64::from(numbers.below(64)));
    numbers.one_of(&[any, (1 << 32) - before, LAST_TIME - before])
}

/// At least so many rows that can be written. The first is at `start` or a little later, and time does not go on past the last one.
pub fn list(scene: Scene, picture: Picture, start: u64, events: usize, numbers: &mut Numbers) -> Vec<[u32; 10]> {
    let (mut rows, mut time) = (vec![], start);
    while rows.len() < events {
        time = LAST_TIME.min(time + numbers.pause());
        see(scene, picture, time, &mut rows, numbers);
    }
    rows
}

fn see(scene: Scene, picture: Picture, time: u64, rows: &mut Vec<[u32; 10]>, numbers: &mut Numbers) {
    let points = match scene {
        Scene::Pixels | Scene::Packets => 1 + numbers.below(24),
        Scene::Triggers | Scene::Motion => numbers.below(4),
        Scene::Mixed => {
            let scene = numbers.one_of(&[Scene::Pixels, Scene::Pixels, Scene::Pixels, Scene::Triggers, Scene::Motion]);
            return see(scene, picture, time, rows, numbers);
        }
    };
    for _ in 0..points {
        rows.push(pixel(time, numbers.below(picture.0), numbers.below(picture.1), numbers.below(2)));
    }
    match scene {
        Scene::Triggers => rows.push(trigger(time, numbers.below(32), numbers.below(2))),
        Scene::Motion => rows.push(imu(time, [(); 6].map(|()| numbers.below(65_536)))),
        _ => {}
    }
}

/// A recording of at least so many events, whose clock starts at a time in microseconds.
pub fn recording(scene: Scene, picture: Picture, start: u64, events: usize, numbers: &mut Numbers) -> Vec<u8> {
    let mut camera = Camera { words: vec![], ticks: start / 16 };
    if let Scene::Packets = scene {
        camera.usb_packet(numbers);
    }
    camera.time_high();
    for row in list(scene, picture, start, events, numbers) {
        match scene {
            Scene::Packets | Scene::Mixed if numbers.once_in(32) => camera.usb_packet(numbers),
            Scene::Mixed if numbers.once_in(32) => camera.others(numbers),
            _ => {}
        }
        camera.send(&row);
    }
    bytes_of(&camera.words)
}

/// The bytes of words.
pub fn bytes_of(words: &[u32]) -> Vec<u8> {
    words.iter().flat_map(|word| word.to_le_bytes()).collect()
}

/// A camera that sends its time base every 16 us, changed or not.
struct Camera {
    words: Vec<u32>,
    /// How often the time base was due.
    ticks: u64,
}

impl Camera {
    fn send(&mut self, &[kind, low, high, a, b, c, d, e, f, _]: &[u32; 10]) {
        let time = u64::from(high) << 32 | u64::from(low);
        while self.ticks < time / 16 {
            self.ticks += 1;
            self.time_high();
        }
        let low = (low % 64) << 22;
        match kind {
            1 => self.word(c, low | a << 11 | b),
            2 => self.word(0xa, low | a << 8 | b),
            _ => {
                self.word(0xd, low | a << 1);
                [b, c, d, e, f].into_iter().for_each(|count| self.word(0xf, low | count << 1));
            }
        }
    }

    fn usb_packet(&mut self, numbers: &mut Numbers) {
        self.word(0xe, 0xfe);
        self.continued(4, numbers);
    }

    /// A word of another sort, continued by up to three more.
    fn others(&mut self, numbers: &mut Numbers) {
        self.word(0xe, numbers.below(1 << 28) & !0xfe);
        self.continued(numbers.below(4), numbers);
    }

    fn continued(&mut self, words: u32, numbers: &mut Numbers) {
        for _ in 0..words {
            self.word(0xf, numbers.below(1 << 28));
        }
    }

    fn time_high(&mut self) {
        self.word(0x8, (self.ticks / 4) as u32);
    }

    fn word(&mut self, kind: u32, data: u32) {
        self.words.push(kind << 28 | data);
    }
}
