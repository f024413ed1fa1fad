//! Events: every special type, times at their limits and in any order, any bits.
use crate::{file, Comparer};
use trials::samples::aedat::{imu6, invalid, packet, polarity, special, IMU6, POLARITY, SPECIAL};
use trials::samples::Numbers;

/// Every special type with and without its mark, with any data, before and after another event's time, with and without room.
pub fn special_types(comparer: &mut Comparer) {
    for (kind, data) in (0..128).flat_map(|kind| [0, 1, 179, 0x80_0000, 0xff_ffff].map(|data| (kind, data))) {
        for time in [i32::MIN, -1, 0, 99, 100, 101, i32::MAX] {
            let event = special(time, kind, data);
            for event in [event, invalid(event)] {
                let bytes = file(&[packet(SPECIAL, 0, &[special(100, 4, 0), event]), packet(SPECIAL, 0, &[event])]);
                [0, 10, 19, 29, 39].iter().for_each(|&lent| comparer.compare_lent(&bytes, lent));
            }
        }
    }
}

/// Resets of any time, with and without their mark, after an event of the same packet or of an earlier one, with and without room.
pub fn resets(comparer: &mut Comparer) {
    const TIMES: [i32; 9] = [i32::MIN, -1, 0, 4, 5, 6, 100, i32::MAX - 1, i32::MAX];
    for (time, overflow) in [0, 5, 100, i32::MAX].iter().flat_map(|&time| [0, 1, 7].map(|overflow| (time, overflow))) {
        for (reset, next) in TIMES.iter().flat_map(|&reset| (0..8).map(move |next| (reset, next))) {
            let (event, reset) = (special(time, 4, 0), special(reset, 1, 0));
            for reset in [reset, invalid(reset)] {
                let together = file(&[packet(SPECIAL, overflow, &[event, reset])]);
                let apart = file(&[packet(SPECIAL, overflow, &[event]), packet(SPECIAL, next, &[reset])]);
                for lent in [0, 10, 19, 20] {
                    comparer.compare_lent(&together, lent);
                    comparer.compare_lent(&apart, lent);
                }
            }
        }
    }
}

/// A packet of a type that is read, with these times; those that are to be invalid are.
fn timed(kind: i16, overflow: i32, times: &[(i32, bool)]) -> Vec<u8> {
    fn events<const N: usize>(times: &[(i32, bool)], event: impl Fn(i32) -> [u8; N]) -> Vec<[u8; N]> {
        times.iter().map(|&(time, valid)| if valid { event(time) } else { invalid(event(time)) }).collect()
    }
    match kind {
        SPECIAL => packet(kind, overflow, &events(times, |time| special(time, 2, 0))),
        POLARITY => packet(kind, overflow, &events(times, |time| polarity(time, 5, 3, 1))),
        _ => packet(kind, overflow, &events(times, |time| imu6(time, [1; 7]))),
    }
}

const READ: [i16; 3] = [SPECIAL, POLARITY, IMU6];

/// Packets of the three types, each with times of its own, at their limits and mostly not falling.
pub fn times(comparer: &mut Comparer) {
    const TIMES: [i32; 7] = [0, 1, 2, 0x3fff_ffff, i32::MAX - 1, i32::MAX, i32::MAX];
    let mut numbers = Numbers::new(0x1f3d_85b1_9c0e_6a55);
    for _ in 0..150_000 {
        let (mut packets, mut overflows, mut steps) = (vec![], [0; 3], [0; 3]);
        for _ in 0..numbers.below(12) {
            let kind = numbers.below(3) as usize;
            if numbers.once_in(2) && overflows[kind] < 7 {
                (overflows[kind], steps[kind]) = (overflows[kind] + 1, 0);
            }
            let mut times = vec![];
            for _ in 0..numbers.below(4) {
                steps[kind] = 6.min(steps[kind] + numbers.below(2) as usize);
                let any = numbers.any() as i32;
                times.push(match numbers.below(40) {
                    0 => (numbers.one_of(&[-1, i32::MIN, any]), true),
                    1 => (numbers.one_of(&TIMES), true),
                    2..=6 => (any, false),
                    _ => (TIMES[steps[kind]], true),
                });
            }
            let overflow = if numbers.once_in(32) { numbers.below(8) as i32 } else { overflows[kind] };
            packets.push(timed(READ[kind], overflow, &times));
        }
        comparer.compare(&file(&packets));
    }
}

/// Three packets of a type with any overflows. The second has no event, or one that is invalid or valid.
pub fn falling_overflows(comparer: &mut Comparer) {
    const TIMES: [i32; 4] = [0, 5, 6, i32::MAX];
    let overflows = (0..8).flat_map(|first| (0..8).flat_map(move |second| (0..8).map(move |third| [first, second, third])));
    for (kind, [first, second, third]) in overflows.flat_map(|overflows| READ.map(|kind| (kind, overflows))) {
        for (time, last) in TIMES.iter().flat_map(|&time| TIMES.map(|last| (time, last))) {
            for between in [&[][..], &[(5, false)], &[(5, true)]] {
                let packets = [timed(kind, first, &[(time, true)]), timed(kind, second, between), timed(kind, third, &[(last, true)])];
                comparer.compare(&file(&packets));
            }
        }
    }
}

/// A packet of each type, of which one bit or two are flipped, and then one more.
pub fn flipped_bits(comparer: &mut Comparer) {
    let specials = packet(SPECIAL, 0, &[special(0x0102_0304, 13, 0xa5_5aa5), invalid(special(5, 1, 0))]);
    let pixels = packet(POLARITY, 0, &[polarity(0x0102_0304, 0x2aaa, 0x5555, 1), polarity(0x0102_0305, 5, 3, 0)]);
    let readings = packet(IMU6, 0, &[imu6(0x0102_0304, [0x3f80_0000, 0xbf80_0000, 0, 1, 0x7fc0_0001, 0xff80_0000, 0x8000_0000])]);
    let last = packet(POLARITY, 0, &[polarity(0x0102_0306, 6, 4, 0)]);
    for packet in [specials, pixels, readings] {
        for (one, other) in (0..8 * packet.len()).flat_map(|one| (0..=one).map(move |other| (one, other))) {
            let mut flipped = packet.clone();
            flipped[one / 8] ^= 1 << (one % 8);
            if other != one {
                flipped[other / 8] ^= 1 << (other % 8);
            }
            comparer.compare(&file(&[flipped, last.clone()]));
        }
    }
}

/// Events of any bits, with times that rise at first.
pub fn any_events(comparer: &mut Comparer) {
    fn events<const N: usize>(kind: i16, numbers: &mut Numbers) -> Vec<u8> {
        let mut events = vec![];
        for index in 0..numbers.below(6) {
            let mut event = [0; N].map(|_: u8| numbers.any() as u8);
            if !numbers.once_in(8) {
                event[7] = index as u8;
            }
            events.push(event);
        }
        packet(kind, numbers.below(8) as i32, &events)
    }
    let mut numbers = Numbers::new(0x0a02_bdbf_7bb3_c0a7);
    for _ in 0..200_000 {
        let packets = [events::<8>(SPECIAL, &mut numbers), events::<8>(POLARITY, &mut numbers), events::<36>(IMU6, &mut numbers)];
        comparer.compare_lent(&file(&packets), numbers.below(160) as usize);
    }
}
