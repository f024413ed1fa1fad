//! The row rules, the lists that can be written, and the readings of an IMU.

/// Ten numbers: kind, time mod 2^32, time div 2^32, seven data numbers.
pub type Row = [u32; 10];

const TIMES: u64 = 1 << 34;
/// The most rows of a list that is written.
pub const MOST_ROWS: usize = 16_777_216;

/// The kinds of rows. 5 was a USB packet, which gives no row since R-11; no other kind ever gets the number.
pub const KINDS: [u32; 5] = [1, 2, 3, 4, 6];

/// The number of values that each of a kind's seven data numbers may take, from 0 on; nothing where there is no such kind.
pub fn limits(kind: u32) -> Option<[u64; 7]> {
    const ANY: u64 = 1 << 32;
    const NONE: u64 = 1;
    match kind {
        // a pixel: x, y, polarity, camera
        1 => Some([32_768, 32_768, 2, 2, NONE, NONE, NONE]),
        // a trigger: channel, edge
        2 => Some([32, 2, NONE, NONE, NONE, NONE, NONE]),
        // six counts of an IMU
        3 => Some([65_536, 65_536, 65_536, 65_536, 65_536, 65_536, NONE]),
        // the bits of seven singles of an IMU
        4 => Some([ANY; 7]),
        // a special event: type, data
        6 => Some([128, 1 << 24, NONE, NONE, NONE, NONE, NONE]),
        _ => None,
    }
}

/// The row of an event; data that it does not use are 0.
pub fn row(kind: u32, time: u64, data: &[u32]) -> Row {
    let mut row = [0; 10];
    row[..3].copy_from_slice(&[kind, (time % 4_294_967_296) as u32, (time / 4_294_967_296) as u32]);
    row[3..3 + data.len()].copy_from_slice(data);
    row
}

pub fn time_of(row: &Row) -> u64 {
    u64::from(row[2]) << 32 | u64::from(row[1])
}

/// Whether ten numbers are a good row.
pub fn good(row: &Row) -> bool {
    let within = |limits: [u64; 7]| row[3..].iter().zip(limits).all(|(&number, limit)| u64::from(number) < limit);
    time_of(row) < TIMES && limits(row[0]).is_some_and(within)
}

/// Why a list cannot be written, whatever the buffer, and the index of the first row at fault. `writable` says for which good rows
/// the format has words.
pub fn first_fault(numbers: &[u32], writable: fn(&Row) -> bool) -> Option<(u64, usize)> {
    let (rows, rest) = numbers.as_chunks();
    if !rest.is_empty() || rows.len() > MOST_ROWS {
        return Some((13, 0));
    }
    for (index, row) in rows.iter().enumerate() {
        if !good(row) || !writable(row) {
            return Some((12, index));
        }
        if index > 0 && time_of(row) < time_of(&rows[index - 1]) {
            return Some((5, index));
        }
    }
    None
}

/// The bits of the single nearest to n / d, a tie to the even one, by whole numbers alone. Neither is so large or small that the
/// exponent leaves the range of normal singles.
pub fn quotient_bits(n: i64, d: i64) -> u32 {
    if n == 0 {
        return 0;
    }
    let sign = if n < 0 { 1u32 << 31 } else { 0 };
    let (mut top, mut bottom, mut exponent) = (n.unsigned_abs() as u128, d as u128, 0i32);
    while top >= 2 * bottom {
        bottom *= 2;
        exponent += 1;
    }
    while top < bottom {
        top *= 2;
        exponent -= 1;
    }
    let scaled = top << 23;
    let (mut digits, rest) = (scaled / bottom, scaled % bottom);
    if 2 * rest > bottom || (2 * rest == bottom && digits % 2 == 1) {
        digits += 1;
    }
    if digits == 1 << 24 {
        digits /= 2;
        exponent += 1;
    }
    sign | ((exponent + 127) as u32) << 23 | (digits as u32 - (1 << 23))
}

/// The number that a count means.
pub fn signed(count: u32) -> i64 {
    let count = i64::from(count);
    if count < 32_768 {
        count
    } else {
        count - 65_536
    }
}

fn is_nan(bits: u32) -> bool {
    bits >> 23 & 0xff == 0xff && bits & 0x007f_ffff != 0
}

/// What the event of any numbers is to be. The bits of a NaN reading are free: they stand as `None`.
pub fn event(row: &[u32]) -> (u64, u64, u64, [u32; 7], [Option<u32>; 7]) {
    let Ok(row): Result<Row, _> = row.try_into() else {
        return (13, 0, 0, [0; 7], [Some(0); 7]);
    };
    if !good(&row) {
        return (12, 0, 0, [0; 7], [Some(0); 7]);
    }
    let mut data = [0; 7];
    data.copy_from_slice(&row[3..]);
    let mut readings = [Some(0); 7];
    for i in 0..7 {
        readings[i] = match (row[0], i) {
            (3, 0..=2) => Some(quotient_bits(signed(data[i]), 16_384)),
            (3, 3..=5) => Some(quotient_bits(signed(data[i]), 131)),
            (4, _) if is_nan(data[i]) => None,
            (4, _) => Some(data[i]),
            _ => Some(0),
        };
    }
    (0, u64::from(row[0]), time_of(&row), data, readings)
}
