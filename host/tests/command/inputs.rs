//! Recordings of a few events, and what they hold.
use trials::samples::aedat::{imu6, packet, polarity, special, END, IMU6, POLARITY, SPECIAL, START};
use trials::samples::dat::{event, TYPE_AND_SIZE};
use trials::samples::{evt2, evt3};

/// EVT2 words: a USB packet before the clock, which gives no row, a pixel, a trigger and an IMU reading.
pub fn evt2_words() -> Vec<u8> {
    let packet = [0xe000_00fe, 0xf000_8000, 0xf000_0003, 0xf000_0010, 0xf000_0004];
    let reading = [0xd040_8000, 0xf041_0000, 0xf040_0000, 0xf040_0106, 0xf040_0000, 0xf041_fffe];
    evt2::bytes_of(&[&packet[..], &[0x8000_0001, 0x1080_2803, 0xa000_0601], &reading].concat())
}

pub const EVT2_ROWS: &str = "\
1 66 0 5 3 1 0 0 0 0
2 64 0 6 1 0 0 0 0 0
3 65 0 16384 32768 0 131 0 65535 0
";

pub const EVT2_EVENTS: &str = "\
66 µs pixel x 5 y 3 brighter camera 0
64 µs trigger channel 6 rising, out of order by 2 µs
65 µs IMU counts acceleration x 1.000000 y -2.000000 z 0.000000 g rotation x 1.000000 y 0.000000 z -0.007634 °/s, out of order by 1 µs
";

/// EVT3 words: a pixel, three more of a vector, and a trigger after two wraps of the clock.
pub fn evt3_words() -> Vec<u8> {
    evt3::bytes_of(&[0x8001, 0x6002, 0x0003, 0x2805, 0x300a, 0x4805, 0x8fff, 0x8000, 0x8fff, 0x8000, 0x6001, 0xaf00])
}

pub const EVT3_ROWS: &str = "\
1 4098 0 5 3 1 0 0 0 0
1 4098 0 10 3 0 0 0 0 0
1 4098 0 12 3 0 0 0 0 0
1 4098 0 21 3 0 0 0 0 0
2 33554433 0 15 0 0 0 0 0 0
";

pub const EVT3_EVENTS: &str = "\
4098 µs pixel x 5 y 3 brighter camera 0
4098 µs pixel x 10 y 3 darker camera 0
4098 µs pixel x 12 y 3 darker camera 0
4098 µs pixel x 21 y 3 darker camera 0
33554433 µs trigger channel 15 falling
";

/// EVT3 words of a master and a slave: a pixel of each at the same place, two more of the slave, one more of the master, and a trigger.
pub fn two_cameras() -> Vec<u8> {
    evt3::bytes_of(&[0x8001, 0x6002, 0x0003, 0x2805, 0x0803, 0x2005, 0x300a, 0x4005, 0x6003, 0x0007, 0x2806, 0xa100])
}

pub const TWO_CAMERAS_ROWS: &str = "\
1 4098 0 5 3 1 0 0 0 0
1 4098 0 5 3 0 1 0 0 0
1 4098 0 10 3 0 1 0 0 0
1 4098 0 12 3 0 1 0 0 0
1 4099 0 6 7 1 0 0 0 0
2 4099 0 1 0 0 0 0 0 0
";

pub const TWO_CAMERAS_EVENTS: &str = "\
4098 µs pixel x 5 y 3 brighter camera 0
4098 µs pixel x 5 y 3 darker camera 1
4098 µs pixel x 10 y 3 darker camera 1
4098 µs pixel x 12 y 3 darker camera 1
4099 µs pixel x 6 y 7 brighter camera 0
4099 µs trigger channel 1 falling
";

/// A RAW file of such words, `2.0` or `3.0`. Its header has bytes that are no text.
pub fn raw(version: &str, words: &[u8]) -> Vec<u8> {
    let lines = format!("% evt {version}\n% Width: 640\n% height 480\n");
    [lines.as_bytes(), b"% maker A\tB\xe9\\ \"C\"\r\n", words].concat()
}

/// A DAT file of two pixels 12,500,000 us apart. The first event begins at byte 30.
pub fn dat() -> Vec<u8> {
    [&b"% Width: 16384\n% Height 480\n"[..], &TYPE_AND_SIZE, &event(100, 5, 3, 1), &event(12_500_100, 16_383, 479, 0)].concat()
}

pub const DAT_ROWS: &str = "\
1 100 0 5 3 1 0 0 0 0
1 12500100 0 16383 479 0 0 0 0 0
";

pub const DAT_EVENTS: &str = "\
100 µs pixel x 5 y 3 brighter camera 0
12500100 µs pixel x 16383 y 479 darker camera 0
";

/// An AEDAT file: a pixel, an edge of an external input, another special event, and an IMU reading after 2^32 us.
pub fn aedat() -> Vec<u8> {
    let readings = [1.0, -2.5, 0.5, 131.25, 0.0, -0.25, 21.5].map(f32::to_bits);
    let pixels = packet(POLARITY, 0, &[polarity(100, 32_767, 3, 0)]);
    let specials = packet(SPECIAL, 0, &[special(200, 3, 0), special(90_000, 5, 16_777_215)]);
    let motion = packet(IMU6, 2, &[imu6(300, readings)]);
    [START, b"#Source 0: DVS128\r\n", END, &pixels, &specials, &motion].concat()
}

pub const AEDAT_ROWS: &str = "\
1 100 0 32767 3 0 0 0 0 0
2 200 0 0 0 0 0 0 0 0
6 90000 0 5 16777215 0 0 0 0 0
4 300 1 1065353216 3223322624 1056964608 1124286464 0 3196059648 1101791232
";

pub const AEDAT_EVENTS: &str = "\
100 µs pixel x 32767 y 3 darker camera 0
200 µs trigger channel 0 falling
90000 µs special type 5 data 16777215
4294967596 µs IMU singles acceleration x 1.000000 y -2.500000 z 0.500000 g rotation x 131.250000 y 0.000000 z -0.250000 °/s temperature 21.500000 °C
";

/// A recording of each format, and of two cameras where the format has them: the name of the format, its bytes, its rows and its events.
pub fn all() -> [(&'static str, Vec<u8>, &'static str, &'static str); 8] {
    [
        ("evt2", evt2_words(), EVT2_ROWS, EVT2_EVENTS),
        ("evt3", evt3_words(), EVT3_ROWS, EVT3_EVENTS),
        ("evt3", two_cameras(), TWO_CAMERAS_ROWS, TWO_CAMERAS_EVENTS),
        ("raw-evt2", raw("2.0", &evt2_words()), EVT2_ROWS, EVT2_EVENTS),
        ("raw-evt3", raw("3.0", &evt3_words()), EVT3_ROWS, EVT3_EVENTS),
        ("raw-evt3", raw("3.0", &two_cameras()), TWO_CAMERAS_ROWS, TWO_CAMERAS_EVENTS),
        ("dat", dat(), DAT_ROWS, DAT_EVENTS),
        ("aedat", aedat(), AEDAT_ROWS, AEDAT_EVENTS),
    ]
}
