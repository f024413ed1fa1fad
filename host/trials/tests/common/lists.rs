//! The lists that the writer of every format is tried with: such as can be written, into buffers of every length, and such in which any
//! number of any row breaks any rule.
use super::{Comparer, Family, Reached};
use trials::samples::{row, Numbers, LAST_TIME};
use trials::second::rows::{limits, time_of, Row};

pub fn families<R: Reached>() -> [Family<R>; 7] {
    [
        ("lists", lists),
        ("times", times),
        ("buffers", buffers),
        ("lengths", lengths),
        ("limits of numbers", limits_of_numbers),
        ("damaged lists", damaged_lists),
        ("any rows", any_rows),
    ]
}

/// A row that can be written.
fn a_row<R: Reached>(time: u64, numbers: &mut Numbers) -> Row {
    a_row_of::<R>(numbers.one_of(R::KINDS), time, numbers)
}

/// A row of a kind, with data that can be written if the kind can be.
fn a_row_of<R: Reached>(kind: u32, time: u64, numbers: &mut Numbers) -> Row {
    let limits = R::limits(kind).unwrap_or([1; 7]);
    row(kind, time, limits.map(|limit| (u64::from(numbers.any()) % limit) as u32))
}

/// Lists that can be written.
fn lists<R: Reached>(comparer: &mut Comparer<R>) {
    let mut numbers = Numbers::new(0x6bc7_5e1f_a1d7_9b6d);
    comparer.compare(&[]);
    for _ in 0..40_000 {
        comparer.compare(R::a_list(60, &mut numbers).as_flattened());
    }
}

/// Times that stand still, go on a little or far, and end at the last one.
fn times<R: Reached>(comparer: &mut Comparer<R>) {
    let mut numbers = Numbers::new(0x77aa_3bdc_3b43_0d2f);
    for _ in 0..40_000 {
        let mut time = 0;
        let mut rows = vec![];
        for _ in 0..numbers.below(20) {
            let (far, clock) = (u64::from(numbers.any()), numbers.one_of(R::CLOCK));
            time += numbers.one_of(&[0, 1, clock - 1, clock, clock + 1, clock - time % clock, clock - 1 - time % clock, far]);
            time = time.min(LAST_TIME);
            rows.push(a_row::<R>(time, &mut numbers));
        }
        comparer.compare(rows.as_flattened());
    }
}

/// Every length of buffer from none to one that is longer than the words, of lists that take at most 2,000 bytes.
fn buffers<R: Reached>(comparer: &mut Comparer<R>) {
    let mut numbers = Numbers::new(0x4e62_7d90_b8f3_21c7);
    for _ in 0..600 {
        let rows = R::a_list(20, &mut numbers);
        let length = R::second(rows.as_flattened(), usize::MAX).bytes.len();
        if length <= 2_000 {
            (0..length + 9).for_each(|lent| comparer.compare_lent(rows.as_flattened(), lent, length.saturating_sub(lent)));
        }
    }
}

/// Lists of every number of numbers; one in two has a bad row at the start.
fn lengths<R: Reached>(comparer: &mut Comparer<R>) {
    let mut numbers = Numbers::new(0x3d0c_11e8_72a9_54f1);
    for _ in 0..400 {
        let mut rows = R::a_list(8, &mut numbers);
        rows[0][0] *= numbers.below(2);
        for length in 0..=10 * rows.len() {
            comparer.compare(&rows.as_flattened()[..length]);
        }
    }
}

/// A row of each kind in which each number is at, just over or far over each of its limits, at each index, alone or together with a time
/// that goes back in the row before it, in the same row or in the next.
fn limits_of_numbers<R: Reached>(comparer: &mut Comparer<R>) {
    let mut numbers = Numbers::new(0x51ae_03f7_44b5_c98b);
    for (kind, number) in (0..8).flat_map(|kind| (0..10).map(move |number| (kind, number))) {
        for value in numbers_near::<R>(kind, number) {
            for (index, back) in (0..5usize).flat_map(|index| [None, index.checked_sub(1), Some(index), Some(index + 1)].map(|back| (index, back))) {
                let mut rows: Vec<Row> = (0..5).map(|i| a_row::<R>((1 << 32) + 60 * i, &mut numbers)).collect();
                rows[index] = a_row_of::<R>(kind, time_of(&rows[index]), &mut numbers);
                rows[index][number] = value;
                if let Some(row) = back.and_then(|back| rows.get_mut(back)) {
                    row[2] = row[2].saturating_sub(1);
                }
                comparer.compare(rows.as_flattened());
            }
        }
    }
}

/// Values of a row's number that stand on either side of its limits.
fn numbers_near<R: Reached>(kind: u32, number: usize) -> Vec<u32> {
    let limits = match number {
        0 => return (0..9).chain([255, 256, 65_537, u32::MAX]).collect(),
        1 => vec![1 << 32],
        2 => vec![1, 4],
        _ => match limits(kind).zip(R::limits(kind)) {
            Some((limits, written)) => vec![limits[number - 3], written[number - 3], 2_048],
            None => vec![1],
        },
    };
    limits.into_iter().flat_map(|limit| [limit - 1, limit, u64::from(u32::MAX)]).map(|value| value as u32).collect()
}

/// Lists in which any numbers of a few rows were replaced, mostly by ones near their limits.
fn damaged_lists<R: Reached>(comparer: &mut Comparer<R>) {
    let mut numbers = Numbers::new(0x28bd_8aa4_f2b0_91d3);
    for _ in 0..100_000 {
        let mut rows = R::a_list(12, &mut numbers);
        for _ in 0..numbers.below(4) {
            let row = numbers.below(rows.len() as u32) as usize;
            let number = numbers.below(10) as usize;
            let values = numbers_near::<R>(rows[row][0], number);
            rows[row][number] = if numbers.once_in(4) { numbers.any() } else { numbers.one_of(&values) };
        }
        comparer.compare(rows.as_flattened());
    }
}

/// Rows of any kinds and times in any order.
fn any_rows<R: Reached>(comparer: &mut Comparer<R>) {
    let mut numbers = Numbers::new(0x0a02_bdbf_7bb3_c0a7);
    for _ in 0..100_000 {
        let mut rows: Vec<Row> = (0..numbers.below(6)).map(|i| a_row::<R>(u64::from(40 * i + numbers.below(50)), &mut numbers)).collect();
        for row in &mut rows {
            if numbers.once_in(16) {
                row.fill_with(|| numbers.below(8));
            }
        }
        comparer.compare(rows.as_flattened());
    }
}
