//! The recordings of the folder `samples/`, byte for byte. The library has no part in making them.
use super::aedat::{self, imu6, invalid, polarity, special, IMU6, POLARITY, SPECIAL};
use super::relays::{rows, Movement, LINES};
use super::{dat, evt2, imu, row, Numbers};
use crate::second;
use crate::second::rows::{time_of, Row};

/// A file's name, and how its bytes are made.
pub type Recording = (&'static str, fn() -> Vec<u8>);

pub const RECORDINGS: [Recording; 11] = [
    ("gate-relay-evt3.raw", || [EVT3_HEADER, &evt3_words(&gate_relay())].concat()),
    ("brake-relay-evt2.raw", || [EVT2_HEADER, &evt2_words(&brake_relay())].concat()),
    ("two-cameras-evt3.raw", || [EVT3_HEADER, &evt3_words(&both_relays())].concat()),
    ("gate-relay.dat", gate_relay_dat),
    ("brake-relay.aedat", brake_relay_aedat),
    ("clock-wrap.evt3", clock_wrap),
    ("brake-relay-imu.evt2", brake_relay_imu),
    ("cut-inside-a-word.evt3", cut_inside_a_word),
    ("reserved-word.evt2", reserved_word),
    ("clock-goes-back.raw", clock_goes_back),
    ("comma-in-width.raw", || [COMMA_HEADER, &evt3_words(&gate_relay())].concat()),
];

const EVT3_HEADER: &[u8] =
    b"% date 2026-10-03 09:41:07\n% evt 3.0\n% camera_maker Example, Ltd.\n% width 640\n% height 480\n% serial_number 00002714\n";

const EVT2_HEADER: &[u8] = b"% Date 2026-10-03 10:15:32\n% camera_maker Example, Ltd.\n% camera_model Example 3.1 CD\n% width: 640\n% height 480\n\
    % firmware_version 3.9.1\n% data_format evt 2.0\n% serial_number 00002714\n";

const COMMA_HEADER: &[u8] = b"% date 2026-10-03 09:41:07\n% evt 3.0\n% width 1,280\n% height 720\n";

const DAT_HEADER: &[u8] = b"% Data file containing CD events\n% Version 2\n% Date 2026-10-03 09:41:07\n% Width: 640\n% Height 480\n";

const AEDAT_LINES: &[u8] = b"#Source 0: DAVIS640\r\n#Start-Time: 2026-10-03 10:15:32 (TZ+0200)\r\n";

/// When the USB packet of `brake-relay-imu.evt2` arrived, in microseconds since 1970.
const ARRIVAL: u64 = 1_791_020_467_000_000;

/// After so many microseconds the clock of EVT3 begins anew.
const WRAP: u64 = 16_777_216;

/// A gate relay closes: the contact bounces twice.
const CLOSING: Movement = Movement { switched: 30_000, on: true, delay: 21_400, flight: 3_500, bounces: &[(3, 1_800), (1, 900)] };

/// A brake relay releases: a diode across its coil holds it for a while after the supply is gone.
const RELEASING: Movement = Movement { switched: 25_000, on: false, delay: 46_200, flight: 5_600, bounces: &[(2, 2_400)] };

fn numbers() -> Numbers {
    Numbers::new(0x2c1b_3c6d_9e3d_79b9)
}

fn evt2_words(rows: &[Row]) -> Vec<u8> {
    second::evt2::write(rows.as_flattened(), usize::MAX).bytes
}

fn evt3_words(rows: &[Row]) -> Vec<u8> {
    second::evt3::write(rows.as_flattened(), usize::MAX).bytes
}

fn gate_relay() -> Vec<Row> {
    rows(&[CLOSING], (0, 90_000), &mut numbers())
}

fn brake_relay() -> Vec<Row> {
    rows(&[RELEASING], (0, 110_000), &mut numbers())
}

/// A master watches the brake relay, and a slave on its clock the gate relay, whose coil's supply is on the next trigger input.
fn both_relays() -> Vec<Row> {
    let mut by_slave = rows(&[CLOSING], (0, 110_000), &mut Numbers::new(0x58e1_907a_c33d_16b5));
    for row in &mut by_slave {
        // the camera of a pixel, the channel of a trigger
        row[if row[0] == 1 { 6 } else { 3 }] = 1;
    }
    let mut rows = [brake_relay(), by_slave].concat();
    rows.sort_by_key(time_of);
    rows
}

/// A DAT file has pixels alone.
fn gate_relay_dat() -> Vec<u8> {
    let events = gate_relay().into_iter().filter(|row| row[0] == 1).flat_map(|row| dat::event(row[1], row[3], row[4], row[5]));
    [DAT_HEADER, &dat::TYPE_AND_SIZE].concat().into_iter().chain(events).collect()
}

/// The brake relay is switched on and off again, and every 10 ms the camera's IMU is read. A packet is a run of events of one type.
fn brake_relay_aedat() -> Vec<u8> {
    let on = Movement { switched: 15_000, on: true, delay: 33_700, flight: 4_200, bounces: &[(2, 1_500), (1, 700)] };
    let off = Movement { switched: 100_000, ..RELEASING };
    let mut rows = rows(&[on, off], (0, 180_000), &mut numbers());
    // at rest: 1 g downwards, no rotation, 31.5 degrees Celsius
    let at_rest = [0.0, 1.0, 0.0, 0.0, 0.0, 0.0, 31.5].map(f32::to_bits);
    rows.extend((0..18).map(|i| row(4, 10_000 * i, at_rest)));
    rows.sort_by_key(time_of);
    let packets = rows.chunk_by(|last, next| last[0] == next[0]).flat_map(packet);
    [aedat::START, AEDAT_LINES, aedat::END].concat().into_iter().chain(packets).collect()
}

/// The packet of rows of one kind. A filter has taken the mark from pixels outside the lines of the armature.
fn packet(rows: &[Row]) -> Vec<u8> {
    match rows[0][0] {
        1 => aedat::packet(POLARITY, 0, &rows.iter().map(polarity_event).collect::<Vec<_>>()),
        // the external input: type 2 rises, type 3 falls
        2 => aedat::packet(SPECIAL, 0, &rows.iter().map(|row| special(row[1] as i32, 3 - row[4], 0)).collect::<Vec<_>>()),
        _ => aedat::packet(IMU6, 0, &rows.iter().map(|&[_, time, _, ref readings @ ..]| imu6(time as i32, *readings)).collect::<Vec<_>>()),
    }
}

fn polarity_event(&[_, time, _, x, y, brighter, ..]: &Row) -> [u8; 8] {
    let event = polarity(time as i32, x, y, brighter);
    if LINES.contains(&y) {
        event
    } else {
        invalid(event)
    }
}

/// The gate relay's coil is switched on before the clock wraps, and the armature moves after it.
fn clock_wrap() -> Vec<u8> {
    let movement = Movement { switched: WRAP - 12_000, ..CLOSING };
    evt3_words(&rows(&[movement], (WRAP - 40_000, WRAP + 40_000), &mut numbers()))
}

/// The brake relay again, with the camera's IMU read every millisecond. The driver has put a USB packet's start and end around the words; they
/// give no row.
fn brake_relay_imu() -> Vec<u8> {
    let mut rows = brake_relay();
    rows.extend((0..110).map(|millisecond| imu(1_000 * millisecond, shaken(millisecond))));
    rows.sort_by_key(time_of);
    let words = evt2_words(&rows);
    let [start, end] = [1, 0].map(|flag| evt2::bytes_of(&usb_packet(flag, words.len() as u32 / 4, ARRIVAL)));
    [start, words, end].concat()
}

/// The counts of an IMU: 1 g downwards, and once the armature has struck, at 76,800 microseconds, a tremor that dies away.
fn shaken(millisecond: u64) -> [u32; 6] {
    let tremor = match millisecond.checked_sub(77) {
        Some(since) => (1_400 >> (since / 6)) * if since / 2 % 2 == 0 { 1 } else { -1 },
        None => 0,
    };
    [tremor, 16_384, -tremor / 4, 0, tremor / 2, tremor / 8].map(|signed: i32| signed as u32 & 0xffff)
}

/// The words of a USB packet's start (flag 1) or end (flag 0).
const fn usb_packet(flag: u32, count: u32, arrival: u64) -> [u32; 5] {
    const CONTINUED: u32 = 0xf000_0000;
    let [top, middle, low] = [(arrival >> 56) as u32, (arrival >> 28) as u32 & 0xfff_ffff, arrival as u32 & 0xfff_ffff];
    [0xe000_00fe, CONTINUED | (count >> 20) << 16 | flag << 15, CONTINUED | top << 20 | count & 0xf_ffff, CONTINUED | middle, CONTINUED | low]
}

fn cut_inside_a_word() -> Vec<u8> {
    let mut words = evt3_words(&gate_relay());
    words.truncate(6_001);
    words
}

/// The gate relay's RAW file with one wrong bit: the high part that the trigger comes under is 15 in place of 7, and the next one is 8.
fn clock_goes_back() -> Vec<u8> {
    let mut words = evt3_words(&gate_relay());
    let high_part = words.chunks(2).position(|word| word == [0x07, 0x80]).expect("a high part of 7");
    words[2 * high_part] ^= 0x08;
    [EVT3_HEADER, &words].concat()
}

/// A word of type 2, which EVT2 reserves, amid the burst.
fn reserved_word() -> Vec<u8> {
    let mut words = evt2_words(&brake_relay());
    words[6_000..6_004].copy_from_slice(&0x2000_0000u32.to_le_bytes());
    words
}
