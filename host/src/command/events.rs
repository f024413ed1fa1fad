//! Rows as events that a person can read. Readings are the library's: nothing is computed here.
use super::view::Item;
use fryskelom::{event_of, kind, Event};
use std::io::{self, Write};

/// The kinds of rows. There is no kind 5.
pub const KINDS: [(u32, &str); 5] = [
    (kind::PIXEL, "pixel"),
    (kind::TRIGGER, "trigger"),
    (kind::IMU_COUNTS, "IMU counts"),
    (kind::IMU_SINGLES, "IMU singles"),
    (kind::SPECIAL, "special"),
];

/// A row's event: time, kind, and its values by name.
pub fn line(row: &[u32]) -> String {
    text_of(|text| add_event(row, text).expect(IN_MEMORY))
}

/// The same with all that [`add_line`] adds.
pub fn line_of(item: &Item) -> String {
    text_of(|text| add_line(item, false, text))
}

fn text_of(add: impl FnOnce(&mut Vec<u8>)) -> String {
    let mut text = vec![];
    add(&mut text);
    String::from_utf8(text).expect("an event is text")
}

/// Adds the event of a row, what is out of order, and where it was asked for the last edge before it.
pub fn add_line(item: &Item, since: bool, text: &mut Vec<u8>) {
    add_event(item.row, text).and_then(|()| add_place(item, since, text)).expect(IN_MEMORY);
}

/// Why writing to a list of bytes cannot fail.
const IN_MEMORY: &str = "memory takes every byte";

fn add_place(item: &Item, since: bool, text: &mut Vec<u8>) -> io::Result<()> {
    if item.behind > 0 {
        write!(text, ", out of order by {} µs", item.behind)?;
    }
    match item.edge {
        Some(edge) => write!(text, ", {} µs after {}", item.time - edge.time, edge.title()),
        None if since => write!(text, ", before any such edge"),
        None => Ok(()),
    }
}

/// Adds time, kind and values, with no text in between: a recording has millions of events.
fn add_event(row: &[u32], text: &mut Vec<u8>) -> io::Result<()> {
    let event = event_of(row).expect("every row that a reader finishes is good");
    let (_, name) = KINDS.iter().find(|(kind, _)| *kind == event.kind).expect("the kind of a good row");
    write!(text, "{} µs {name} ", event.time)?;
    let [a, b, c, d, ..] = event.data;
    match event.kind {
        kind::PIXEL => write!(text, "x {a} y {b} {} camera {d}", ["darker", "brighter"][c as usize]),
        kind::TRIGGER => write!(text, "channel {a} {}", ["falling", "rising"][b as usize]),
        kind::IMU_COUNTS => add_motion(&event, text),
        kind::IMU_SINGLES => add_motion(&event, text).and_then(|()| write!(text, " temperature {:.6} °C", event.readings[6])),
        _ => write!(text, "type {a} data {b}"),
    }
}

/// What both kinds of IMU rows have. Always six decimals, so that nobody takes the point for a separator of thousands.
fn add_motion(event: &Event, text: &mut Vec<u8>) -> io::Result<()> {
    let [x, y, z, around_x, around_y, around_z, _] = event.readings;
    write!(text, "acceleration x {x:.6} y {y:.6} z {z:.6} g rotation x {around_x:.6} y {around_y:.6} z {around_z:.6} °/s")
}
