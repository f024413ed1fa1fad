//! The AEDAT reader of the library, and the hand-written one of the benchmark, against the second implementation: header lines of every
//! length and fault, packets with every field at its limits, events of every type, mark and order of times, and recordings that are made up,
//! damaged, cut and short of room.
#[path = "common/answer.rs"]
mod answer;
#[path = "aedat/events.rs"]
mod events;
#[path = "common/files.rs"]
mod files;
#[path = "aedat/lines.rs"]
mod lines;
#[path = "aedat/packets.rs"]
mod packets;
#[path = "aedat/reached.rs"]
mod reached;

use answer::answer;
use files::{compare_all, compare_longest, Family};
use reached::Reached;
use trials::samples::aedat::{Packet, END, FRAME, START};
use trials::samples::Numbers;
use trials::second::words::MOST_BYTES;
use trials::{fast, numbers};

type Comparer = files::Comparer<Reached>;

fn hand_written(bytes: &[u8], rows: &mut [u32]) -> (u64, u64, u64) {
    answer(fast::aedat::read(bytes, rows))
}

/// A file of the shortest header and some packets.
fn file(packets: &[Vec<u8>]) -> Vec<u8> {
    [START, END, &packets.concat()].concat()
}

/// Recordings as a camera writes them.
fn recordings(comparer: &mut Comparer) {
    let mut numbers = Numbers::new(0x6bc7_5e1f_a1d7_9b6d);
    for _ in 0..60_000 {
        comparer.compare(&<Reached as files::Reached>::a_file(80, &mut numbers));
    }
}

const FAMILIES: [Family<Reached>; 20] = [
    ("lengths of lines", lines::lengths),
    ("short ends", lines::short_ends),
    ("changed lines", lines::changed),
    ("pieces of lines", lines::pieces),
    ("fields", packets::fields),
    ("types", packets::types),
    ("sources", packets::sources),
    ("products", packets::products),
    ("counts", packets::counts),
    ("overflows", packets::overflows),
    ("marks", packets::marks),
    ("many marks", packets::many_marks),
    ("packets in any order", packets::any_order),
    ("special types", events::special_types),
    ("resets", events::resets),
    ("times", events::times),
    ("falling overflows", events::falling_overflows),
    ("flipped bits", events::flipped_bits),
    ("any events", events::any_events),
    ("recordings", recordings),
];

#[test]
fn library() {
    compare_all(numbers::read_aedat, &FAMILIES);
}

#[test]
fn hand_written_reader() {
    compare_all(hand_written, &FAMILIES);
}

/// One packet that is jumped takes all of the longest input.
#[test]
fn longest_input() {
    let data = MOST_BYTES - START.len() - END.len() - 28;
    let start = file(&[Packet { valid: 0, ..Packet::new(FRAME, 1, data as i32) }.bytes().to_vec()]);
    compare_longest::<Reached>(&[numbers::read_aedat, hand_written], &start, (0, 0, 0));
}
