//! `fry_event_of` against the second implementation: every count, both sides of every limit, and many rows at random.
use fryskelom::{event_of, Refusal};
use trials::samples::{row, Numbers};
use trials::second::rows::KINDS;
use trials::{numbers, second};

/// Holds the library's answer to the second implementation's, number by number; a NaN reading is to be a NaN.
fn compare(row: &[u32]) -> u64 {
    let (refusal, kind, time, data, readings) = numbers::event_of(row);
    let expected = second::rows::event(row);
    assert_eq!((refusal, kind, time, data), (expected.0, expected.1, expected.2, expected.3), "row {row:?}");
    for (i, (reading, expected)) in readings.into_iter().zip(expected.4).enumerate() {
        match expected {
            Some(bits) => assert_eq!(reading, bits, "reading {i} of row {row:?}"),
            None => assert!(f32::from_bits(reading).is_nan(), "reading {i} of row {row:?}"),
        }
    }
    refusal
}

#[test]
fn every_count() {
    for count in 0..65_536u32 {
        let event = event_of(&[3, 64, 0, count, count, count, count, count, count, 0]).expect("a good row");
        let acceleration = second::rows::quotient_bits(second::rows::signed(count), 16_384);
        let rotation = second::rows::quotient_bits(second::rows::signed(count), 131);
        for i in 0..3 {
            assert_eq!(event.readings[i].to_bits(), acceleration, "acceleration of count {count}");
            assert_eq!(event.readings[3 + i].to_bits(), rotation, "rotation of count {count}");
            assert_eq!(f64::from(event.readings[i]) * 16_384.0, second::rows::signed(count) as f64);
        }
        assert_eq!(event.readings[6].to_bits(), 0);
    }
}

#[test]
fn each_reading_from_its_own_count() {
    let event = event_of(&[3, 0, 0, 16_384, 32_768, 8_192, 131, 262, 65_405, 0]).expect("a good row");
    assert_eq!(event.readings, [1.0, -2.0, 0.5, 1.0, 2.0, -1.0, 0.0]);
}

#[test]
fn both_sides_of_every_limit() {
    for kind in KINDS {
        let limits = second::rows::limits(kind).expect("the limits of a kind");
        assert_eq!(compare(&[kind, 0, 0, 0, 0, 0, 0, 0, 0, 0]), 0);
        for i in 0..7 {
            let mut row = [kind, 0, 0, 0, 0, 0, 0, 0, 0, 0];
            row[3 + i] = (limits[i] - 1) as u32;
            assert_eq!(compare(&row), 0, "kind {kind}, number {i} at its limit");
            if limits[i] < 1 << 32 {
                row[3 + i] = limits[i] as u32;
                assert_eq!(compare(&row), 12, "kind {kind}, number {i} over its limit");
                row[3 + i] = u32::MAX;
                assert_eq!(compare(&row), 12, "kind {kind}, number {i} far over its limit");
            }
        }
        assert_eq!(compare(&[kind, u32::MAX, 3, 0, 0, 0, 0, 0, 0, 0]), 0, "kind {kind}, the last time");
        assert_eq!(compare(&[kind, 0, 4, 0, 0, 0, 0, 0, 0, 0]), 12, "kind {kind}, past the last time");
        assert_eq!(compare(&[kind, 1, 0, 0, 0, 0, 0, 0, 0, 0]), 0, "kind {kind}, time 1");
        assert_eq!(compare(&[kind, 0, 1, 0, 0, 0, 0, 0, 0, 0]), 0, "kind {kind}, time 2^32");
    }
    for kind in [0, 5, 7, 8, 255, 256, 65_537, u32::MAX] {
        assert_eq!(compare(&[kind, 0, 0, 0, 0, 0, 0, 0, 0, 0]), 12, "kind {kind}");
    }
}

/// No row has kind 5, whatever else it holds: what the row of a USB packet held, at time 0, and what good rows of each kind hold, at any time.
#[test]
fn no_kind_5() {
    let mut numbers = Numbers::new(0x6d2b_79f5_a3c1_e84b);
    for _ in 0..100_000 {
        let packet = [numbers.below(2), numbers.any(), numbers.any(), numbers.any(), 0, 0, 0];
        assert_eq!(compare(&row(5, 0, packet)), 12);
        for kind in KINDS {
            let limits = second::rows::limits(kind).expect("the limits of a kind");
            let time = u64::from(numbers.below(4)) << 32 | u64::from(numbers.any());
            let data = limits.map(|limit| (u64::from(numbers.any()) % limit) as u32);
            assert_eq!([kind, 5].map(|kind| compare(&row(kind, time, data))), [0, 12]);
        }
    }
}

/// A pixel's fourth data number is its camera, 0 or 1; of all other kinds it has the meaning that it had.
#[test]
fn cameras() {
    let mut numbers = Numbers::new(0x2f7e_c4a1_8d36_905b);
    for _ in 0..100_000 {
        let time = u64::from(numbers.below(4)) << 32 | u64::from(numbers.any());
        let [x, y, polarity] = [32_768, 32_768, 2].map(|limit| numbers.below(limit));
        for camera in [0, 1, 2, 3, 255, 256, 65_536, 1 << 31, u32::MAX] {
            let row = row(1, time, [x, y, polarity, camera, 0, 0, 0]);
            assert_eq!(compare(&row), if camera < 2 { 0 } else { 12 }, "camera {camera}");
            if camera < 2 {
                assert_eq!(event_of(&row).expect("a good row").data, [x, y, polarity, camera, 0, 0, 0]);
            }
        }
    }
    for (kind, refusal) in [(2, 12), (3, 0), (4, 0), (6, 12)] {
        assert_eq!(compare(&row(kind, 7, [0, 0, 0, 1, 0, 0, 0])), refusal, "kind {kind}");
    }
}

#[test]
fn every_type_of_special_event() {
    for code in 0..=255 {
        let refusal = compare(&[6, 7, 0, code, 16_777_215, 0, 0, 0, 0, 0]);
        assert_eq!(refusal, if code < 128 { 0 } else { 12 }, "type {code}");
    }
}

#[test]
fn other_lengths() {
    for length in (0..40).filter(|&length| length != 10) {
        let mut row = vec![0u32; length];
        if let Some(kind) = row.first_mut() {
            *kind = 1;
        }
        assert_eq!(compare(&row), 13, "{length} numbers");
        assert_eq!(event_of(&row).unwrap_err(), Refusal(13));
    }
}

#[test]
fn patterns_of_singles() {
    let special = [
        0x0000_0000, 0x8000_0000, 0x0000_0001, 0x807f_ffff, 0x0080_0000, 0x7f7f_ffff, 0x7f80_0000, 0xff80_0000, 0x7f80_0001, 0xff80_0001, 0x7fc0_0000,
        0x7fff_ffff, 0xffff_ffff,
    ];
    for bits in special {
        assert_eq!(compare(&[4, 1, 2, bits, bits, bits, bits, bits, bits, bits]), 0);
    }
    let mut numbers = Numbers::new(0x1234_5678_9abc_def1);
    for _ in 0..500_000 {
        let mut row = [4, numbers.any(), numbers.any() % 4, 0, 0, 0, 0, 0, 0, 0];
        row[3..].fill_with(|| numbers.any());
        assert_eq!(compare(&row), 0);
    }
}

#[test]
fn rows_at_random() {
    let mut numbers = Numbers::new(0x9e37_79b9_7f4a_7c15);
    let mut reached = [[0u32; 2]; 8];
    for _ in 0..2_000_000 {
        let kind = numbers.any() % 8;
        let limits = second::rows::limits(kind).unwrap_or([1; 7]);
        let mut row = [kind, 0, 0, 0, 0, 0, 0, 0, 0, 0];
        for i in 0..7 {
            // mostly within the limits, so that good rows are not rare
            row[3 + i] = if numbers.once_in(16) { numbers.near(limits[i]) } else { (u64::from(numbers.any()) % limits[i]) as u32 };
        }
        row[1] = numbers.any();
        row[2] = if numbers.once_in(16) { numbers.near(4) } else { numbers.any() % 4 };
        let refusal = compare(&row);
        reached[kind as usize][usize::from(refusal != 0)] += 1;
    }
    for (kind, [good, bad]) in (0..).zip(reached) {
        let enough = if KINDS.contains(&kind) { good > 10_000 } else { good == 0 };
        assert!(enough && bad > 5_000, "kind {kind}: {good} good and {bad} bad");
    }
}
