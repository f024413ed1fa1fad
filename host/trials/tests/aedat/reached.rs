//! What AEDAT inputs have reached: where and why each was refused, and what was read.
use crate::files::{self, often};
use trials::samples::aedat::{a_start, header, imu6, invalid, packet, polarity, recording, special, Scene, IMU6, POLARITY, SPECIAL};
use trials::samples::Numbers;
use trials::second;
use trials::second::aedat::Packet;
use trials::second::words::Reading;

/// Counts by packet type; types that are jumped have none.
type Types = [usize; 4];

#[derive(Default)]
pub struct Reached {
    finished: usize,
    /// Inputs that end in a header line, by whether a byte of it is there.
    cut_lines: [usize; 2],
    /// Bad lines: the first, the second and later ones.
    bad_lines: [usize; 3],
    /// Cut packet headers by the bytes that are there.
    cut_headers: [usize; Packet::HEADER],
    /// Cut data of packets that are jumped, and of those that are read.
    cut_data: [usize; 2],
    /// Bad packets by their only reason; the marks are the ninth.
    bad: [usize; 9],
    /// Bad packets of several reasons.
    bad_by_several: usize,
    /// Events refused 5 for a time below 0.
    negative: Types,
    /// Events refused 5 for a time before the last one, which is in the same packet or in an earlier one.
    back: [Types; 2],
    /// Resets by whether their time is before the last one.
    resets: [usize; 2],
    /// Events refused 2.
    full: Types,
    whole: Whole,
    /// Rows by kind.
    kinds: [usize; 7],
    /// Triggers by channel and edge.
    edges: [[usize; 2]; 4],
    /// Rows by the overflow of their packet.
    overflows: [usize; 8],
}

/// What the packets of a type before the present one had.
#[derive(Clone, Copy, Default)]
struct Before {
    highest_overflow: i64,
    /// The whole time of the last valid event.
    last: i64,
}

/// The whole time of an event.
fn time_of(packet: &Packet, event: &[u8]) -> i64 {
    let time = i32::from_le_bytes([event[4], event[5], event[6], event[7]]);
    packet.overflow * (1 << 31) + i64::from(time)
}

/// The last valid event of some.
fn last_valid<'e>(packet: &Packet, events: &'e [u8]) -> Option<&'e [u8]> {
    events.chunks(packet.size as usize).rfind(|event| event[0] & 1 == 1)
}

/// What packets have reached that were read or jumped whole.
#[derive(Default)]
struct Whole {
    /// Packets without events, by type.
    empty: Types,
    /// Packets with valid events whose overflow is below that of an earlier packet, by type.
    lower: Types,
    /// Jumped packets of types 2, 4, 12 and from 100 on.
    jumped: [usize; 4],
    /// Jumped packets of no bytes: some events of size 0, and no events of some size.
    nothing: [usize; 2],
    /// Invalid events by type: all, and those of a negative time.
    invalid: Types,
    invalid_negative: Types,
    /// Special events by mark and special type.
    specials: [Vec<usize>; 2],
}

impl Whole {
    fn count(&mut self, packet: &Packet, data: &[u8], before: &mut [Before; 4]) {
        if !packet.is_read() {
            let kind = [2, 4, 12].iter().position(|&kind| kind == packet.kind).unwrap_or(3);
            self.jumped[kind] += 1;
            self.nothing[0] += usize::from(packet.size == 0 && packet.number > 0);
            self.nothing[1] += usize::from(packet.number == 0 && packet.size > 0);
            return;
        }
        let kind = packet.kind as usize;
        self.empty[kind] += usize::from(packet.number == 0);
        let Before { highest_overflow, last } = &mut before[kind];
        self.lower[kind] += usize::from(packet.valid > 0 && packet.overflow < *highest_overflow);
        *highest_overflow = packet.overflow.max(*highest_overflow);
        *last = last_valid(packet, data).map_or(*last, |event| time_of(packet, event));
        for event in data.chunks(packet.size as usize) {
            let valid = event[0] & 1;
            self.invalid[kind] += usize::from(valid == 0);
            self.invalid_negative[kind] += usize::from(valid == 0 && event[7] >= 0x80);
            if kind == 0 {
                let specials = &mut self.specials[usize::from(valid)];
                specials.resize(128, 0);
                specials[usize::from(event[0] >> 1)] += 1;
            }
        }
    }
}

impl Reached {
    fn count_line(&mut self, bytes: &[u8], (refusal, place): (u64, usize)) {
        match refusal {
            4 => self.cut_lines[usize::from(bytes.len() > place)] += 1,
            9 => self.bad_lines[bytes[..place].iter().filter(|&&byte| byte == b'\n').count().min(2)] += 1,
            _ => {}
        }
    }

    fn count_packets(&mut self, bytes: &[u8], mut place: usize, reading: &Reading) {
        let mut source = None;
        let mut before = [Before::default(); 4];
        while let Some(packet) = Packet::at(bytes, place) {
            let source = *source.get_or_insert(packet.source);
            if (reading.refusal, reading.place) == (4, place) {
                self.cut_data[usize::from(packet.is_read())] += 1;
                return;
            }
            if (reading.refusal, reading.place) == (10, place) {
                self.count_bad(packet.reasons(source));
                return;
            }
            let data = &bytes[place + Packet::HEADER..][..packet.data()];
            place += Packet::HEADER + data.len();
            if reading.refusal != 0 && reading.place < place {
                let (events, rest) = data.split_at(data.len() - (place - reading.place));
                self.count_event(&packet, events, rest, before[packet.kind as usize].last, reading.refusal);
                return;
            }
            self.whole.count(&packet, data, &mut before);
        }
        if place < bytes.len() {
            self.cut_headers[bytes.len() - place] += 1;
        }
    }

    fn count_bad(&mut self, mut reasons: [bool; 8]) {
        // where the number is negative, no number of valid events is good
        reasons[7] &= !reasons[6];
        let mut holding = (0..8).filter(|&reason| reasons[reason]);
        match (holding.next(), holding.next()) {
            (_, Some(_)) => self.bad_by_several += 1,
            (reason, None) => self.bad[reason.unwrap_or(8)] += 1,
        }
    }

    /// Counts the event that `rest` begins with. `events` are those before it in its packet, `last` is the last time in earlier ones.
    fn count_event(&mut self, packet: &Packet, events: &[u8], rest: &[u8], last: i64, refusal: u64) {
        let kind = packet.kind as usize;
        let last_here = last_valid(packet, events).map(|event| time_of(packet, event));
        match refusal {
            2 => self.full[kind] += 1,
            5 if rest[7] >= 0x80 => self.negative[kind] += 1,
            5 => self.back[usize::from(last_here.is_none())][kind] += 1,
            _ => self.resets[usize::from(time_of(packet, rest) < last_here.unwrap_or(last))] += 1,
        }
    }
}

impl files::Reached for Reached {
    fn second(bytes: &[u8], room: usize) -> Reading {
        second::aedat::read(bytes, room)
    }

    fn a_file(most_events: u32, numbers: &mut Numbers) -> Vec<u8> {
        let scene = numbers.one_of(&[Scene::Pixels, Scene::Mixed, Scene::Mixed]);
        let picture = numbers.one_of(&[(32_768, 32_768), (240, 180)]);
        recording(scene, picture, a_start(numbers), 1 + numbers.below(most_events) as usize, numbers)
    }

    fn a_short_file(numbers: &mut Numbers) -> Vec<u8> {
        let first = match numbers.below(3) {
            0 => packet(SPECIAL, 0, &[special(100, 2, 7), special(100, 5, 7)]),
            1 => packet(POLARITY, 0, &[polarity(100, 5, 3, 1), invalid(polarity(1, 5, 3, 1))]),
            _ => packet(IMU6, 0, &[imu6(100, [0x3f80_0000; 7])]),
        };
        [header(numbers), first, packet(POLARITY, 0, &[polarity(101, 5, 3, 0)])].concat()
    }

    fn count(&mut self, bytes: &[u8], reading: &Reading) {
        match second::aedat::header(bytes) {
            Err(fault) => self.count_line(bytes, fault),
            Ok(place) => self.count_packets(bytes, place, reading),
        }
        self.finished += usize::from(reading.refusal == 0);
        for row in &reading.rows {
            self.kinds[row[0] as usize] += 1;
            self.overflows[(row[2] << 1 | row[1] >> 31) as usize] += 1;
            if row[0] == 2 {
                self.edges[row[3] as usize][row[4] as usize] += 1;
            }
        }
    }

    fn check(&self) {
        let read = |types: &Types| [types[0], types[1], types[3]];
        let Whole { empty, lower, jumped, nothing, invalid, invalid_negative, specials } = &self.whole;
        let sorts: [(&str, &[usize]); 22] = [
            ("finished", &[self.finished]),
            ("cut lines", &self.cut_lines),
            ("bad lines", &self.bad_lines),
            ("bytes of a cut packet header", &self.cut_headers[1..]),
            ("cut data", &self.cut_data),
            ("reasons of bad packets", &self.bad),
            ("several reasons", &[self.bad_by_several]),
            ("negative times", &read(&self.negative)),
            ("times that go back in a packet", &read(&self.back[0])),
            ("times that go back after a packet", &read(&self.back[1])),
            ("resets", &self.resets),
            ("no room", &read(&self.full)),
            ("packets without events", &read(empty)),
            ("lower overflows", &read(lower)),
            ("jumped packets", jumped),
            ("jumped packets of no bytes", nothing),
            ("invalid events", &read(invalid)),
            ("invalid events of negative times", &read(invalid_negative)),
            ("invalid special events of type", &specials[0]),
            ("rows of kind", &[self.kinds[1], self.kinds[2], self.kinds[4], self.kinds[6]]),
            ("edges", self.edges.as_flattened()),
            ("overflows of rows", &self.overflows),
        ];
        for (what, counts) in sorts {
            counts.iter().enumerate().for_each(|(which, &count)| often(what, which, count));
        }
        // a valid reset is refused
        (0..128).filter(|&kind| kind != 1).for_each(|kind| often("valid special events of type", kind, specials[1][kind]));
        assert_eq!(specials[1][1], 0);
    }
}
