//! AEDAT files by rule: header lines around every rule, packets with up to three faults, and special events of every type. The library, the second
//! implementation and the hand-written reader each have to give the rows that are worked out for them.
#[path = "common/cases.rs"]
mod cases;
#[path = "aedat/line_cases.rs"]
mod line_cases;
#[path = "aedat/order_cases.rs"]
mod order_cases;

use cases::into_buffer;
use trials::samples::aedat::{packet, polarity, special, Packet, END, POLARITY, SPECIAL, START};
use trials::samples::{pixel, row, trigger};
use fryskelom::{read_aedat, Fault, Refusal};
use trials::{fast, second};

/// The shortest header: the first packet is at 42, and its first event at 70.
const LINES: &[&[u8]] = &[START, END];

/// A packet of one pixel, and its row.
const PIXEL: &[&[u8]] = &[&Packet::new(POLARITY, 8, 1).bytes(), &polarity(100, 5, 3, 1)];
const PIXEL_ROW: [u32; 10] = pixel(100, 5, 3, 1);

/// Reads into a buffer of sevens that is a few numbers longer than its room, and looks at all of it afterwards.
fn expect(name: &str, room: usize, rows: &[[u32; 10]], fault: Option<(u64, usize)>, reader: impl Fn(&mut [u32]) -> Result<usize, Fault>) {
    let mut buffer = vec![7; 10 * room + 9];
    let mut expected = buffer.clone();
    expected[..10 * rows.len()].copy_from_slice(rows.as_flattened());
    let fault = fault.map(|(refusal, place)| Fault { refusal: Refusal(refusal), rows: rows.len(), place });
    assert_eq!(reader(&mut buffer), fault.map_or(Ok(rows.len()), Err), "{name}");
    assert_eq!(buffer, expected, "{name}");
}

/// The special types of edges, with their channel and edge; all but these and the reset give rows of kind 6.
const EDGES: [(u32, u32, u32); 8] = [(2, 0, 1), (3, 0, 0), (6, 1, 1), (7, 1, 0), (9, 2, 1), (10, 2, 0), (12, 3, 1), (13, 3, 0)];

fn by_second(bytes: &[u8], rows: &mut [u32]) -> Result<usize, Fault> {
    into_buffer(second::aedat::read)(bytes, rows)
}

type Reader = fn(&[u8], &mut [u32]) -> Result<usize, Fault>;

const READERS: [Reader; 3] = [read_aedat, fast::aedat::read, by_second];

#[test]
fn special_types() {
    for kind in (0..128).filter(|&kind| kind != 1) {
        let bytes = [START, END, &packet(SPECIAL, 0, &[special(100, kind, 9)])].concat();
        let edge = EDGES.iter().find(|edge| edge.0 == kind);
        let row = edge.map_or(row(6, 100, [kind, 9, 0, 0, 0, 0, 0]), |&(_, channel, edge)| trigger(100, channel, edge));
        READERS.iter().for_each(|reader| expect(&format!("special type {kind}"), 2, &[row], None, |rows| reader(&bytes, rows)));
    }
}
