//! What is measured: made-up recordings with two readers of each, and lists of rows with two writers.
use crate::measure::{looking, reading, writing, Measured, Way};
use fryskelom::{read_aedat, read_dat, read_evt2, read_evt3, read_raw_evt2, read_raw_evt3, whole_evt3, write_evt2, write_evt3, Fault};
use trials::fast;
use trials::samples::header::header;
use trials::samples::{aedat, dat, evt2, evt3, Numbers, Picture};

const PICTURE: Picture = (1_280, 720);

pub struct Stream {
    pub name: &'static str,
    /// Times so many rounds of a stream of at least so many events.
    pub measure: fn(usize, usize) -> Measured,
    /// Whether it is also measured longer and longer. One stream of each format and direction is; none of dense vectors, since 100 MB of
    /// them give 24 GB of rows, while those of the others take 3 GB at most.
    pub grows: bool,
}

const fn stream(name: &'static str, measure: fn(usize, usize) -> Measured) -> Stream {
    Stream { name, measure, grows: false }
}

const fn growing(name: &'static str, measure: fn(usize, usize) -> Measured) -> Stream {
    Stream { name, measure, grows: true }
}

pub const STREAMS: [Stream; 20] = [
    stream("EVT3, single pixels", |events, rounds| reading_evt3(evt3::Scene::Pixels, events, rounds)),
    stream("EVT3, dense vectors", |events, rounds| reading_evt3(evt3::Scene::Dense, events, rounds)),
    stream("EVT3, sparse vectors", |events, rounds| reading_evt3(evt3::Scene::Sparse, events, rounds)),
    growing("EVT3, mixed", |events, rounds| reading_evt3(evt3::Scene::Mixed, events, rounds)),
    stream("EVT3, two cameras", |events, rounds| reading_evt3(evt3::Scene::TwoCameras, events, rounds)),
    growing("RAW of EVT3, mixed", reading_raw_evt3),
    growing("EVT3, sought to the end", looking_evt3),
    stream("EVT2, single pixels", |events, rounds| reading_evt2(evt2::Scene::Pixels, events, rounds)),
    growing("EVT2, mixed with IMU", |events, rounds| reading_evt2(evt2::Scene::Mixed, events, rounds)),
    stream("EVT2, mostly IMU", |events, rounds| reading_evt2(evt2::Scene::Motion, events, rounds)),
    growing("RAW of EVT2, mixed with IMU", reading_raw_evt2),
    growing("DAT", reading_dat),
    stream("AEDAT, pixels", |events, rounds| reading_aedat(aedat::Scene::Pixels, events, rounds)),
    growing("AEDAT, mixed", |events, rounds| reading_aedat(aedat::Scene::Mixed, events, rounds)),
    stream("EVT2 written, pixels", |events, rounds| writing_evt2(evt2::Scene::Pixels, events, rounds)),
    growing("EVT2 written, mixed", |events, rounds| writing_evt2(evt2::Scene::Mixed, events, rounds)),
    stream("EVT3 written, single pixels", |events, rounds| writing_evt3(evt3::Scene::Pixels, events, rounds)),
    stream("EVT3 written, dense groups", |events, rounds| writing_evt3(evt3::Scene::Dense, events, rounds)),
    stream("EVT3 written, sparse groups", |events, rounds| writing_evt3(evt3::Scene::Sparse, events, rounds)),
    growing("EVT3 written, mixed", |events, rounds| writing_evt3(evt3::Scene::Mixed, events, rounds)),
];

fn numbers() -> Numbers {
    Numbers::new(0x2545_f491_4f6c_dd1d)
}

/// Room for a recording's rows: it may give more than were asked for, by what its last scene has.
fn room(events: usize) -> usize {
    events + events / 8 + 1_000
}

fn reading_evt3(scene: evt3::Scene, events: usize, rounds: usize) -> Measured {
    let bytes = evt3::recording(scene, PICTURE, 0, events, &mut numbers());
    let by_hand: Way<u8, u32> = |bytes, rows| fast::evt3::read(bytes, PICTURE.0, PICTURE.1, rows).expect("no refusal");
    let library: Way<u8, u32> = |bytes, rows| read_evt3(bytes, PICTURE.0, PICTURE.1, rows).expect("no refusal");
    reading(&bytes, room(events), rounds, [by_hand, library])
}

fn reading_evt2(scene: evt2::Scene, events: usize, rounds: usize) -> Measured {
    let bytes = evt2::recording(scene, PICTURE, 0, events, &mut numbers());
    let by_hand: Way<u8, u32> = |bytes, rows| fast::evt2::read(bytes, PICTURE.0, PICTURE.1, rows).expect("no refusal");
    let library: Way<u8, u32> = |bytes, rows| read_evt2(bytes, PICTURE.0, PICTURE.1, rows).expect("no refusal");
    reading(&bytes, room(events), rounds, [by_hand, library])
}

fn reading_raw_evt3(events: usize, rounds: usize) -> Measured {
    let bytes = with_header(evt3::recording(evt3::Scene::Mixed, PICTURE, 0, events, &mut numbers()));
    let by_hand: Way<u8, u32> = |bytes, rows| raw_by_hand(fast::evt3::read, bytes, rows).expect("no refusal");
    let library: Way<u8, u32> = |bytes, rows| read_raw_evt3(bytes, rows).expect("no refusal");
    reading(&bytes, room(events), rounds, [by_hand, library])
}

fn reading_raw_evt2(events: usize, rounds: usize) -> Measured {
    let bytes = with_header(evt2::recording(evt2::Scene::Mixed, PICTURE, 0, events, &mut numbers()));
    let by_hand: Way<u8, u32> = |bytes, rows| raw_by_hand(fast::evt2::read, bytes, rows).expect("no refusal");
    let library: Way<u8, u32> = |bytes, rows| read_raw_evt2(bytes, rows).expect("no refusal");
    reading(&bytes, room(events), rounds, [by_hand, library])
}

/// A recording of single pixels, which has no VECT_BASE_X: all of its words are looked at, and these are what the table calls rows.
fn looking_evt3(events: usize, rounds: usize) -> Measured {
    let bytes = evt3::recording(evt3::Scene::Pixels, PICTURE, 0, events, &mut numbers());
    let by_hand: Way<u8, u8> = |bytes, _| fast::evt3::whole(bytes).unwrap_or(bytes.len()) / 2;
    let library: Way<u8, u8> = |bytes, _| whole_evt3(bytes).unwrap_or(bytes.len()) / 2;
    looking(&bytes, rounds, [by_hand, library])
}

/// A RAW file of words.
fn with_header(words: Vec<u8>) -> Vec<u8> {
    [header(Some(PICTURE.0), Some(PICTURE.1), &mut numbers()), words].concat()
}

type WordReader = fn(&[u8], u32, u32, &mut [u32]) -> Result<usize, Fault>;

/// The header and then the words, both by hand.
fn raw_by_hand(words: WordReader, bytes: &[u8], rows: &mut [u32]) -> Result<usize, Fault> {
    let header = fast::header::read(bytes, 2_048)?;
    words(&bytes[header.data..], header.width, header.height, rows)
}

fn reading_dat(events: usize, rounds: usize) -> Measured {
    let bytes = dat::recording(PICTURE, events, &mut numbers());
    let by_hand: Way<u8, u32> = |bytes, rows| fast::dat::read(bytes, rows).expect("no refusal");
    let library: Way<u8, u32> = |bytes, rows| read_dat(bytes, rows).expect("no refusal");
    reading(&bytes, room(events), rounds, [by_hand, library])
}

fn reading_aedat(scene: aedat::Scene, events: usize, rounds: usize) -> Measured {
    let bytes = aedat::recording(scene, PICTURE, 0, events, &mut numbers());
    let by_hand: Way<u8, u32> = |bytes, rows| fast::aedat::read(bytes, rows).expect("no refusal");
    let library: Way<u8, u32> = |bytes, rows| read_aedat(bytes, rows).expect("no refusal");
    reading(&bytes, room(events), rounds, [by_hand, library])
}

fn writing_evt2(scene: evt2::Scene, events: usize, rounds: usize) -> Measured {
    let rows = evt2::list(scene, PICTURE, 0, events, &mut numbers());
    let by_hand: Way<u32, u8> = |rows, out| fast::evt2::write(rows, out).expect("no refusal");
    let library: Way<u32, u8> = |rows, out| write_evt2(rows, out).expect("no refusal");
    // a row takes seven words at most
    writing(rows.as_flattened(), 7 * rows.len(), 4, rounds, [by_hand, library])
}

fn writing_evt3(scene: evt3::Scene, events: usize, rounds: usize) -> Measured {
    let rows = evt3::list(scene, PICTURE, 0, events, &mut numbers());
    let by_hand: Way<u32, u8> = |rows, out| fast::evt3::write(rows, out).expect("no refusal");
    let library: Way<u32, u8> = |rows, out| write_evt3(rows, out).expect("no refusal");
    // a row takes four words at most, each of the 1,023 wraps two
    writing(rows.as_flattened(), 4 * rows.len() + 2 * 1_023, 2, rounds, [by_hand, library])
}
