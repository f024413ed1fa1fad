//! Packets: every field at its limits, every type and source, sizes and numbers of a large product, marks that do not add up.
use crate::{file, Comparer};
use std::collections::BTreeSet;
use trials::samples::aedat::{imu6, invalid, packet, polarity, special, Packet, FRAME, IMU6, IMU9, POLARITY, SPECIAL};
use trials::samples::Numbers;

/// A packet of each sort with its data; events that are read have time 100.
fn some_packets() -> Vec<(Packet, Vec<u8>)> {
    let specials = [special(100, 2, 0), special(100, 5, 9)];
    let pixels = [polarity(100, 5, 3, 1), invalid(polarity(-1, 0, 0, 0))];
    let readings = [imu6(100, [0x3f80_0000; 7])];
    let read = [
        (Packet::of(SPECIAL, &specials), specials.concat()),
        (Packet::of(POLARITY, &pixels), pixels.concat()),
        (Packet::of(IMU6, &readings), readings.concat()),
    ];
    let jumped = [FRAME, IMU9, 12, 100, i16::MAX].map(|kind| (Packet { offset: -1, ..Packet::new(kind, 6, 3) }, vec![0xff; 18]));
    read.into_iter().chain(jumped).collect()
}

/// A packet of one pixel.
fn pixel(time: i32) -> Vec<u8> {
    packet(POLARITY, 0, &[polarity(time, 6, 4, 0)])
}

/// Sets the field of an index in the header. One of 16 bits takes the lower half.
fn set(packet: &mut Packet, field: usize, value: i32) {
    match field {
        0 => packet.kind = value as i16,
        1 => packet.source = value as i16,
        2 => packet.size = value,
        3 => packet.offset = value,
        4 => packet.overflow = value,
        5 => packet.capacity = value,
        6 => packet.number = value,
        _ => packet.valid = value,
    }
}

/// Any two fields at any of their limits, in a packet of each sort that is the first or comes after one; another follows.
pub fn fields(comparer: &mut Comparer) {
    const VALUES: [i32; 18] = [0, 1, 2, 3, 4, 5, 7, 8, 9, 36, 99, 100, 0x7fff, 0x8000, 0x1_0000, 0x7fff_ffff, i32::MIN, -1];
    for (one, other) in (0..8).flat_map(|one| (0..=one).map(move |other| (one, other))) {
        for (first, second) in VALUES.iter().flat_map(|&first| VALUES.map(|second| (first, second))) {
            for (mut packet, data) in some_packets() {
                set(&mut packet, other, second);
                set(&mut packet, one, first);
                let packet = packet.before(&data);
                comparer.compare(&file(&[packet.clone(), pixel(101)]));
                comparer.compare(&file(&[pixel(99), packet, pixel(101)]));
            }
        }
    }
}

/// Every type, with data of each size that is read and with none.
pub fn types(comparer: &mut Comparer) {
    let data = [polarity(100, 5, 3, 1).to_vec(), imu6(100, [1; 7]).to_vec(), vec![]];
    for (kind, data) in (i16::MIN..=i16::MAX).flat_map(|kind| data.iter().map(move |data| (kind, data))) {
        comparer.compare(&file(&[Packet::new(kind, data.len() as i32, 1).before(data), pixel(101)]));
    }
}

/// Every source of a first packet, and the same or another one of the next.
pub fn sources(comparer: &mut Comparer) {
    let pixels = [polarity(100, 5, 3, 1)];
    for source in i16::MIN..=i16::MAX {
        for (kind, next) in [(POLARITY, source), (FRAME, source), (FRAME, !source), (IMU9, source ^ 0x100)] {
            let first = Packet { source, ..Packet::of(kind, &pixels) };
            let second = Packet { source: next, ..Packet::of(POLARITY, &pixels) };
            comparer.compare(&file(&[first.before(pixels.as_flattened()), second.before(pixels.as_flattened())]));
        }
    }
}

/// Sizes and numbers around every power of two and below 0. As many bytes follow as their product says, or its low 32 bits, where that is
/// few, or one byte fewer or more, or none.
pub fn products(comparer: &mut Comparer) {
    let near: BTreeSet<i32> = (0..32).flat_map(|bit| [-1, 0, 1].map(|more| (1i32 << bit).wrapping_add(more))).collect();
    let jumped = near.iter().flat_map(|&size| near.iter().map(move |&number| (FRAME, size, number)));
    let read = [(SPECIAL, 8), (POLARITY, 8), (IMU6, 36)].into_iter().flat_map(|(kind, size)| near.iter().map(move |&number| (kind, size, number)));
    for (kind, size, number) in jumped.chain(read) {
        let packet = Packet { valid: 0, ..Packet::new(kind, size, number) };
        let product = i64::from(size) * i64::from(number);
        let small = [product, product & 0xffff_ffff].into_iter().filter(|length| (0..300).contains(length));
        let lengths: BTreeSet<i64> = small.flat_map(|length| [0.max(length - 1), length, length + 1]).chain([0, 40]).collect();
        for length in lengths {
            let bytes = file(&[packet.before(&vec![0; length as usize])]);
            comparer.compare(&bytes);
            comparer.compare(&[bytes, pixel(101)].concat());
        }
    }
}

/// Numbers of events on both sides of 0, and numbers of valid ones around them, in packets of each sort whose events are all invalid.
pub fn counts(comparer: &mut Comparer) {
    for number in (-150..40).chain([i32::MIN, i32::MIN + 1, -65_536, -65_535]) {
        for (packet, _) in some_packets() {
            let data = vec![0; (packet.size * number.max(0)) as usize];
            for valid in [0, 1, -1, number, number.wrapping_add(1), number.wrapping_sub(1), i32::MAX, i32::MIN] {
                comparer.compare(&file(&[Packet { capacity: number, number, valid, ..packet }.before(&data), pixel(101)]));
            }
        }
    }
}

/// Overflows inside and outside of their range, in packets of each sort, with times at their limits.
pub fn overflows(comparer: &mut Comparer) {
    for overflow in (-300..300).chain([0x7fff, 0x8000, 0x1_0000, 0x1_0007, i32::MAX, i32::MIN, i32::MIN + 7]) {
        for (packet, data) in some_packets() {
            comparer.compare(&file(&[Packet { overflow, ..packet }.before(&data), pixel(101)]));
        }
        for time in [-1, 0, 1, i32::MAX - 1, i32::MAX, i32::MIN] {
            comparer.compare(&file(&[packet(POLARITY, overflow, &[polarity(time, 5, 3, 1)])]));
        }
    }
}

/// Which events have their mark.
type Marks = fn(usize) -> bool;

/// A packet of so many events, each with its mark or without, of which `valid` are said to have it.
fn marked<const N: usize>(kind: i16, event: [u8; N], number: usize, mark: impl Fn(usize) -> bool, valid: i32) -> Vec<u8> {
    let events: Vec<_> = (0..number).map(|index| if mark(index) { event } else { invalid(event) }).collect();
    Packet { valid, ..Packet::of(kind, &events) }.before(events.as_flattened())
}

/// Up to six events with any marks, and every number of valid ones around those that there are.
pub fn marks(comparer: &mut Comparer) {
    for (number, marks) in (0..=6).flat_map(|number| (0..1 << number).map(move |marks| (number, marks))) {
        let mark = |index: usize| marks >> index & 1 == 1;
        for valid in -1..=number as i32 + 1 {
            let packets = [
                marked(SPECIAL, special(100, 3, 7), number, mark, valid),
                marked(POLARITY, polarity(100, 5, 3, 1), number, mark, valid),
                marked(IMU6, imu6(100, [1; 7]), number, mark, valid),
                marked(FRAME, special(100, 3, 7), number, mark, valid),
            ];
            packets.into_iter().for_each(|packet| comparer.compare(&file(&[packet, pixel(101)])));
        }
    }
}

/// Numbers of events around those that a byte or two can hold, and numbers of valid ones that differ by as much.
pub fn many_marks(comparer: &mut Comparer) {
    for number in [127, 128, 129, 255, 256, 257, 511, 512, 513, 65_535, 65_536, 65_537] {
        let marks: [(Marks, i32); 4] = [(|_| true, number), (|_| false, 0), (|index| index != 100, number - 1), (|index| index < 3, 3)];
        for (mark, there) in marks {
            for valid in [there, there + 1, there - 1, there + 256, there - 256, there - 65_536, number] {
                comparer.compare(&file(&[marked(POLARITY, polarity(100, 5, 3, 1), number as usize, mark, valid), pixel(101)]));
            }
        }
    }
}

/// Packets of every sort in any order, few with a wrong field, into buffers that are often too short.
pub fn any_order(comparer: &mut Comparer) {
    let mut numbers = Numbers::new(0x5b1d_07e6_93fa_c248);
    let some = some_packets();
    for _ in 0..200_000 {
        let mut packets = vec![];
        for _ in 0..numbers.below(10) {
            let (mut packet, mut data) = some[numbers.below(some.len() as u32) as usize].clone();
            match numbers.below(16) {
                // no events, or events of no bytes
                0..=3 => (packet.capacity, packet.number, packet.valid, data) = (0, 0, 0, vec![]),
                4 | 5 if packet.kind > 3 => (packet.size, data) = (0, vec![]),
                6 if numbers.once_in(2) => set(&mut packet, numbers.below(8) as usize, numbers.near(8) as i32),
                7 if numbers.once_in(4) => data.truncate(numbers.below(18) as usize),
                _ => {}
            }
            packets.push(packet.before(&data));
        }
        comparer.compare_lent(&file(&packets), numbers.below(160) as usize);
    }
}
