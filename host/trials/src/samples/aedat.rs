//! AEDAT 3.1 recordings as a camera and its driver write them.
use super::{Numbers, Picture, LAST_TIME};

/// The first two lines of a header.
pub const START: &[u8] = b"#!AER-DAT3.1\r\n#Format: RAW\r\n";
/// Its last line.
pub const END: &[u8] = b"#!END-HEADER\r\n";

/// Packet types.
pub const SPECIAL: i16 = 0;
pub const POLARITY: i16 = 1;
pub const FRAME: i16 = 2;
pub const IMU6: i16 = 3;
pub const IMU9: i16 = 4;

/// The fields of a packet's header.
#[derive(Clone, Copy, Debug)]
pub struct Packet {
    pub kind: i16,
    pub source: i16,
    pub size: i32,
    pub offset: i32,
    pub overflow: i32,
    pub capacity: i32,
    pub number: i32,
    pub valid: i32,
}

impl Packet {
    /// A packet of so many events of a size, all of them valid.
    pub const fn new(kind: i16, size: i32, number: i32) -> Packet {
        Packet { kind, source: 0, size, offset: 4, overflow: 0, capacity: number, number, valid: number }
    }

    /// The packet of some events.
    pub fn of<const N: usize>(kind: i16, events: &[[u8; N]]) -> Packet {
        let valid = events.iter().filter(|event| event[0] & 1 == 1).count() as i32;
        Packet { valid, ..Packet::new(kind, N as i32, events.len() as i32) }
    }

    /// The bytes of the header.
    pub const fn bytes(&self) -> [u8; 28] {
        let types = self.kind as u16 as u32 | (self.source as u16 as u32) << 16;
        let words = [types as i32, self.size, self.offset, self.overflow, self.capacity, self.number, self.valid];
        let mut bytes = [0; 28];
        let mut i = 0;
        while i < 28 {
            bytes[i] = words[i / 4].to_le_bytes()[i % 4];
            i += 1;
        }
        bytes
    }

    /// The bytes of the header, and what follows it.
    pub fn before(&self, data: &[u8]) -> Vec<u8> {
        [&self.bytes(), data].concat()
    }
}

/// The bytes of a packet of some events.
pub fn packet<const N: usize>(kind: i16, overflow: i32, events: &[[u8; N]]) -> Vec<u8> {
    Packet { overflow, ..Packet::of(kind, events) }.before(events.as_flattened())
}

/// The bytes of a valid event of eight bytes: what its first word holds above the mark, and its time.
const fn event(bits: u32, time: i32) -> [u8; 8] {
    ((bits | 1) as u64 | (time as u32 as u64) << 32).to_le_bytes()
}

/// A valid special event.
pub const fn special(time: i32, kind: u32, data: u32) -> [u8; 8] {
    event(data << 8 | kind << 1, time)
}

/// A valid polarity event.
pub const fn polarity(time: i32, x: u32, y: u32, polarity: u32) -> [u8; 8] {
    event(x << 17 | y << 2 | polarity << 1, time)
}

/// A valid IMU6 event of seven singles, given by their bits.
pub const fn imu6(time: i32, readings: [u32; 7]) -> [u8; 36] {
    let start = event(0, time);
    let mut bytes = [0; 36];
    let mut i = 0;
    while i < 36 {
        bytes[i] = if i < 8 { start[i] } else { readings[i / 4 - 2].to_le_bytes()[i % 4] };
        i += 1;
    }
    bytes
}

/// An event without its mark.
pub const fn invalid<const N: usize>(mut event: [u8; N]) -> [u8; N] {
    event[0] &= !1;
    event
}

/// What stands in other header lines after their first byte.
const OTHERS: [&str; 8] = [
    "Source 0: DAVIS240C",
    "-Source 0: DVS128",
    "Start-Time: 2021-07-14 09:05:41 (TZ+0200)",
    "Format: RAW",
    "!AER-DAT3.1",
    "!END-HEADER, but not yet",
    "",
    "\r# 1,024 bytes",
];

/// A header with up to four lines between those that every file has.
pub fn header(numbers: &mut Numbers) -> Vec<u8> {
    let others: String = (0..numbers.below(5)).map(|_| format!("#{}\r\n", numbers.one_of(&OTHERS))).collect();
    [START, others.as_bytes(), END].concat()
}

/// What a camera sees.
#[derive(Clone, Copy, Debug)]
pub enum Scene {
    /// Moving points: nothing but polarity events, all of them valid.
    Pixels,
    /// Also special events, readings of the IMU and packets that are jumped; a filter has taken the mark from some events.
    Mixed,
}

/// Any time of 31 bits, or one from which the next overflow, 2^32 or the last time is soon reached.
pub fn a_start(numbers: &mut Numbers) -> u64 {
    let (any, before) = (u64::from(numbers.any() >> 1), u64::from(numbers.below(64)));
    let overflows = u64::from(1 + numbers.below(8));
    numbers.one_of(&[any, (1 << 32) - before, (overflows << 31) - 1 - before])
}

/// A recording of at least so many valid events. The first is later than `start`, and time does not go on past the last one. A packet
/// holds at most about a quarter of the events.
pub fn recording(scene: Scene, picture: Picture, start: u64, events: usize, numbers: &mut Numbers) -> Vec<u8> {
    let mut camera = Camera { bytes: header(numbers), time: start, source: numbers.one_of(&[0, 0, 1, 300]), valid: 0 };
    let most = (events / 4).clamp(1, 4_096) as u32;
    while camera.valid < events {
        camera.pixels(scene, picture, most, numbers);
        if let Scene::Mixed = scene {
            match numbers.below(4) {
                0 => camera.specials(1 + most / 8, numbers),
                1 => camera.readings(1 + most / 8, numbers),
                2 => camera.jumped(numbers),
                _ => {}
            }
        }
    }
    camera.bytes
}

struct Camera {
    bytes: Vec<u8>,
    time: u64,
    source: i16,
    /// How many events were valid.
    valid: usize,
}

impl Camera {
    fn pixels(&mut self, scene: Scene, (width, height): Picture, most: u32, numbers: &mut Numbers) {
        let filtered = matches!(scene, Scene::Mixed) && numbers.once_in(2);
        self.packet(POLARITY, most, numbers, |time, numbers| {
            let event = polarity(time, numbers.below(width), numbers.below(height), numbers.below(2));
            if filtered && numbers.once_in(16) {
                invalid(event)
            } else {
                event
            }
        });
    }

    /// Any special events but resets, half of them edges.
    fn specials(&mut self, most: u32, numbers: &mut Numbers) {
        self.packet(SPECIAL, most, numbers, |time, numbers| {
            let kind = numbers.one_of(&[2, 3, 6, 7, 9, 10, 12, 13, 0, 4, 5, 8, 11, 14, 17, 127]);
            special(time, kind, numbers.one_of(&[0, 179, 0xff_ffff]))
        });
    }

    fn readings(&mut self, most: u32, numbers: &mut Numbers) {
        self.packet(IMU6, most, numbers, |time, numbers| imu6(time, [(); 7].map(|()| numbers.any())));
    }

    /// A packet of a type that is not read, whose events are any bytes.
    fn jumped(&mut self, numbers: &mut Numbers) {
        let packet = Packet::new(numbers.one_of(&[FRAME, IMU9, 12, 100, i16::MAX]), numbers.one_of(&[0, 1, 8, 48]), numbers.below(4) as i32);
        let data: Vec<u8> = (0..packet.size * packet.number).map(|_| numbers.any() as u8).collect();
        let overflow = (self.time >> 31) as i32;
        self.bytes.extend(Packet { overflow, source: self.source, offset: numbers.any() as i32, ..packet }.before(&data));
    }

    /// A packet of one event or more. Its events have one overflow, so that its times stop where the next begins.
    fn packet<const N: usize>(&mut self, kind: i16, most: u32, numbers: &mut Numbers, event: impl Fn(i32, &mut Numbers) -> [u8; N]) {
        self.time = LAST_TIME.min(self.time + numbers.pause());
        let last = self.time | 0x7fff_ffff;
        let mut events = vec![];
        for _ in 0..=numbers.below(most) {
            if numbers.once_in(12) {
                self.time = last.min(self.time + numbers.pause());
            }
            events.push(event((self.time & 0x7fff_ffff) as i32, numbers));
        }
        let packet = Packet { source: self.source, overflow: (self.time >> 31) as i32, ..Packet::of(kind, &events) };
        self.valid += packet.valid as usize;
        self.bytes.extend(packet.before(events.as_flattened()));
    }
}
