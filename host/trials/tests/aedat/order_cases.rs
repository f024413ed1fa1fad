//! A packet with up to three faults at once: the first in the order of the requirement decides, whatever the others are.
use crate::{expect, LINES, READERS};
use trials::samples::aedat::{imu6, polarity, special, Packet, FRAME, IMU6, POLARITY, SPECIAL};
use trials::samples::{pixel, row, trigger};

/// A packet of three events, and how much of it there is.
struct Draft {
    packet: Packet,
    events: [Vec<u8>; 3],
    /// How many bytes the input has of it.
    length: usize,
    /// For how many rows there is room.
    room: usize,
}

/// Where a fault lies: at the packet's first byte, or at that of its second event.
enum Place {
    Packet,
    Event,
}

struct Fault {
    name: &'static str,
    refusal: u64,
    place: Place,
    /// Whether it is one of jumped packets too.
    jumped: bool,
    make: fn(&mut Draft),
}

/// A fault of every packet, at its first byte.
const fn of_all(name: &'static str, refusal: u64, make: fn(&mut Draft)) -> Fault {
    Fault { name, refusal, place: Place::Packet, jumped: true, make }
}

/// A fault of packets that are read, at their first byte.
const fn of_read(name: &'static str, refusal: u64, make: fn(&mut Draft)) -> Fault {
    Fault { name, refusal, place: Place::Packet, jumped: false, make }
}

/// A fault of an event.
const fn of_event(name: &'static str, refusal: u64, make: fn(&mut Draft)) -> Fault {
    Fault { name, refusal, place: Place::Event, jumped: false, make }
}

/// Faults in the order in which they are judged.
const FAULTS: [Fault; 25] = [
    of_all("a byte of the header", 4, |draft| draft.length = 1),
    of_all("27 bytes of the header", 4, |draft| draft.length = 27),
    of_all("type 5", 10, |draft| draft.packet.kind = 5),
    of_all("type 99", 10, |draft| draft.packet.kind = 99),
    of_all("type -1", 10, |draft| draft.packet.kind = -1),
    of_all("source", 10, |draft| draft.packet.source = 1),
    of_all("size below 0", 10, |draft| draft.packet.size = -8),
    of_read("size 0", 10, |draft| draft.packet.size = 0),
    of_read("size 16", 10, |draft| draft.packet.size = 16),
    of_read("offset 0", 10, |draft| draft.packet.offset = 0),
    of_read("offset 8", 10, |draft| draft.packet.offset = 8),
    of_all("overflow 8", 10, |draft| draft.packet.overflow = 8),
    of_all("overflow -1", 10, |draft| draft.packet.overflow = -1),
    of_all("capacity over the number", 10, |draft| draft.packet.capacity = 4),
    of_all("capacity below the number", 10, |draft| draft.packet.capacity = 2),
    of_all("number -1", 10, |draft| (draft.packet.capacity, draft.packet.number) = (-1, -1)),
    of_all("valid -1", 10, |draft| draft.packet.valid = -1),
    of_all("valid over the number", 10, |draft| draft.packet.valid = 4),
    of_all("no data", 4, |draft| draft.length = 28),
    of_all("data but for a byte", 4, |draft| draft.length -= 1),
    of_read("a mark too few", 10, |draft| draft.events[2][0] &= !1),
    of_event("negative time", 5, |draft| draft.events[1][4..8].fill(0xff)),
    of_event("reset", 11, |draft| draft.events[1][0] = 3),
    of_event("earlier time", 5, |draft| draft.events[1][4] = 99),
    of_event("no room", 2, |draft| draft.room = 2),
];

/// An event of a time, and its row; jumped ones have none.
fn event(kind: i16, time: u8) -> (Vec<u8>, Option<[u32; 10]>) {
    let (at, time) = (i32::from(time), u64::from(time));
    match kind {
        SPECIAL => (special(at, 2, 0).to_vec(), Some(trigger(time, 0, 1))),
        POLARITY => (polarity(at, 5, 3, 1).to_vec(), Some(pixel(time, 5, 3, 1))),
        IMU6 => (imu6(at, [1; 7]).to_vec(), Some(row(4, time, [1; 7]))),
        _ => (vec![0; 8], None),
    }
}

/// Reads a packet with some faults, given in their order, after another packet of its type, or of pixels where it is jumped.
fn read(kind: i16, faults: &[&Fault]) {
    let of = if kind == FRAME { POLARITY } else { kind };
    let (first, first_row) = event(of, 100);
    let before = [LINES.concat(), Packet::new(of, first.len() as i32, 1).before(&first)].concat();

    let events = [100, 101, 102].map(|time| event(kind, time).0);
    let size = events[0].len();
    let mut draft = Draft { packet: Packet::new(kind, size as i32, 3), events, length: 28 + 3 * size, room: 8 };
    // the first one last, so that no other undoes it
    faults.iter().rev().for_each(|fault| (fault.make)(&mut draft));
    let mut bytes = [&before, &draft.packet.before(&draft.events.concat())[..draft.length]].concat();
    if draft.length == 28 + 3 * size {
        bytes.extend(Packet::new(FRAME, 0, 0).bytes());
    }

    let rows: Vec<_> = [100, 101, 102].iter().filter_map(|&time| event(kind, time).1).collect();
    let (rows, fault) = match faults.first() {
        None => (&rows[..], None),
        Some(Fault { refusal, place: Place::Packet, .. }) => (&rows[..0], Some((*refusal, before.len()))),
        Some(Fault { refusal, place: Place::Event, .. }) => (&rows[..1], Some((*refusal, before.len() + 28 + size))),
    };
    let rows: Vec<_> = first_row.iter().chain(rows).copied().collect();
    let names = faults.iter().map(|fault| fault.name).collect::<Vec<_>>().join(", ");
    READERS.iter().for_each(|reader| expect(&format!("type {kind}: {names}"), draft.room, &rows, fault, |rows| reader(&bytes, rows)));
}

#[test]
fn up_to_three_faults() {
    for kind in [SPECIAL, POLARITY, IMU6, FRAME] {
        read(kind, &[]);
        let of_kind = |fault: &&Fault| (fault.jumped || kind != FRAME) && (fault.refusal != 11 || kind == SPECIAL);
        let faults: Vec<_> = FAULTS.iter().filter(of_kind).collect();
        for (one, first) in faults.iter().enumerate() {
            read(kind, &[first]);
            for (other, second) in faults.iter().enumerate().skip(one + 1) {
                read(kind, &[first, second]);
                faults[other + 1..].iter().for_each(|third| read(kind, &[first, second, third]));
            }
        }
    }
}
