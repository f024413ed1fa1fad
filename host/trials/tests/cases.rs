//! The cases of the table that the proved program reads too: the library, the second implementation and the hand-written readers and writers are each held to
//! every one of them.
#[path = "common/answer.rs"]
mod answer;
#[path = "common/lent.rs"]
mod lent;
#[path = "common/table.rs"]
mod table;

use answer::answer;
use fryskelom::{
    read_aedat, read_dat, read_evt2, read_evt3, read_header, read_raw_evt2, read_raw_evt3, whole_evt3, write_evt2, write_evt3, Fault, Header,
    RowFault,
};
use std::collections::BTreeSet;
use std::panic::{catch_unwind, AssertUnwindSafe};
use table::{cases, counts, Case};
use trials::second::words::{Reading, Writing};
use trials::{fast, numbers, second};

/// Reads bytes with the numbers of a case, and answers the refusal, the finished rows and the place.
type Reader = fn(&[u8], [u32; 3], &mut [u32]) -> (u64, u64, u64);

/// Answers the refusal, and the number of words or the index of a row.
type Writer = fn(&[u32], &mut [u8]) -> (u64, u64);

/// Answers the refusal, the place, the width and the height.
type HeaderReader = fn(&[u8], u32) -> (u64, u64, u32, u32);

/// Answers whether there is such a byte, and the byte.
type Finder = fn(&[u8]) -> (u64, u64);

/// Fails where one of those who are held to a case does not answer as it states.
type Check = Box<dyn Fn()>;

/// A reading of the second implementation as one into a buffer.
fn put(reading: Reading, rows: &mut [u32]) -> (u64, u64, u64) {
    rows[..10 * reading.rows.len()].copy_from_slice(reading.rows.as_flattened());
    reading.answer()
}

/// A writing of the second implementation as one into a buffer.
fn put_words(writing: Writing, out: &mut [u8]) -> (u64, u64) {
    out[..writing.bytes.len()].copy_from_slice(&writing.bytes);
    writing.answer()
}

fn writer_answer(writing: Result<usize, RowFault>) -> (u64, u64) {
    writing.map_or_else(|fault| (fault.refusal.0, fault.row as u64), |words| (0, words as u64))
}

fn header_answer(header: Result<Header, Fault>) -> (u64, u64, u32, u32) {
    header.map_or_else(|fault| (fault.refusal.0, fault.place as u64, 0, 0), |header| (0, header.data as u64, header.width, header.height))
}

fn finder_answer(byte: Option<usize>) -> (u64, u64) {
    byte.map_or((0, 0), |byte| (1, byte as u64))
}

fn second_header(bytes: &[u8], limit: u32) -> (u64, u64, u32, u32) {
    second::header::read(bytes, limit).map_or_else(|(refusal, place)| (refusal, place as u64, 0, 0), |header| (0, header.data as u64, header.width, header.height))
}

/// Everyone who reads for a call.
fn readers(call: &str) -> Vec<Reader> {
    match call {
        "evt2" => vec![
            |bytes, [_, width, height], rows| numbers::read_evt2(bytes, width, height, rows),
            |bytes, [_, width, height], rows| answer(read_evt2(bytes, width, height, rows)),
            |bytes, [_, width, height], rows| answer(fast::evt2::read(bytes, width, height, rows)),
            |bytes, [_, width, height], rows| put(second::evt2::read(bytes, width, height, rows.len() / 10), rows),
        ],
        "evt3" => vec![
            |bytes, [_, width, height], rows| numbers::read_evt3(bytes, width, height, rows),
            |bytes, [_, width, height], rows| answer(read_evt3(bytes, width, height, rows)),
            |bytes, [_, width, height], rows| answer(fast::evt3::read(bytes, width, height, rows)),
            |bytes, [_, width, height], rows| put(second::evt3::read(bytes, width, height, rows.len() / 10), rows),
        ],
        "raw-evt2" => vec![
            |bytes, _, rows| numbers::read_raw_evt2(bytes, rows),
            |bytes, _, rows| answer(read_raw_evt2(bytes, rows)),
            |bytes, _, rows| put(second::raw::read_evt2(bytes, rows.len() / 10), rows),
        ],
        "raw-evt3" => vec![
            |bytes, _, rows| numbers::read_raw_evt3(bytes, rows),
            |bytes, _, rows| answer(read_raw_evt3(bytes, rows)),
            |bytes, _, rows| put(second::raw::read_evt3(bytes, rows.len() / 10), rows),
        ],
        "dat" => vec![
            |bytes, _, rows| numbers::read_dat(bytes, rows),
            |bytes, _, rows| answer(read_dat(bytes, rows)),
            |bytes, _, rows| answer(fast::dat::read(bytes, rows)),
            |bytes, _, rows| put(second::dat::read(bytes, rows.len() / 10), rows),
        ],
        "aedat" | "packets" => vec![
            |bytes, _, rows| numbers::read_aedat(bytes, rows),
            |bytes, _, rows| answer(read_aedat(bytes, rows)),
            |bytes, _, rows| answer(fast::aedat::read(bytes, rows)),
            |bytes, _, rows| put(second::aedat::read(bytes, rows.len() / 10), rows),
        ],
        _ => panic!("no reader of {call}"),
    }
}

const HEADER_READERS: [HeaderReader; 4] = [
    numbers::read_header,
    |bytes, limit| header_answer(read_header(bytes, limit)),
    |bytes, limit| header_answer(fast::header::read(bytes, limit)),
    second_header,
];

/// Those who find the byte from which on no row is missing.
const FINDERS: [Finder; 4] = [
    numbers::whole_evt3,
    |bytes| finder_answer(whole_evt3(bytes)),
    |bytes| finder_answer(fast::evt3::whole(bytes)),
    |bytes| finder_answer(second::evt3::whole(bytes)),
];

const EVT2_WRITERS: [Writer; 4] = [
    numbers::write_evt2,
    |rows, out| writer_answer(write_evt2(rows, out)),
    |rows, out| writer_answer(fast::evt2::write(rows, out)),
    |rows, out| put_words(second::evt2::write(rows, out.len()), out),
];

const EVT3_WRITERS: [Writer; 4] = [
    numbers::write_evt3,
    |rows, out| writer_answer(write_evt3(rows, out)),
    |rows, out| writer_answer(fast::evt3::write(rows, out)),
    |rows, out| put_words(second::evt3::write(rows, out.len()), out),
];

fn read(case: Case, reader: Reader) {
    let given = case.given(16);
    let before = if case.call() == "packets" { &b"#!AER-DAT3.1\r\n#Format: RAW\r\n#!END-HEADER\r\n"[..] } else { b"" };
    let bytes = [before, &case.bytes()].concat();
    let ([refusal, place], rows) = (case.answer(), case.stated_rows());
    let stated = (refusal, (rows.len() / 10) as u64, place);
    lent::hold(|lent| reader(&bytes, given, lent), 10 * given[0] as usize + 9, stated, &rows, || case.title());
}

fn write(case: Case, writer: Writer) {
    let [refusal, count] = case.answer();
    let lent = case.given(96)[0] as usize;
    lent::hold(|out| writer(&case.rows(), out), lent, (refusal, count), &case.stated_bytes(), || case.title());
}

/// Reads the words that a case states, which have to give its rows.
fn read_back(case: Case, reader: Reader) {
    let list = case.rows();
    let stated = (0, (list.len() / 10) as u64, 0);
    lent::hold(|rows| reader(&case.stated_bytes(), case.given(96), rows), list.len(), stated, &list, || case.title());
}

fn read_the_header(case: Case, reader: HeaderReader) {
    let [refusal, place, width, height] = case.answer();
    assert_eq!(reader(&case.bytes(), case.given(2_048)[0]), (refusal, place, width as u32, height as u32), "{}", case.title());
}

fn find(case: Case, finder: Finder) {
    assert_eq!(finder(&case.bytes()), case.answer::<2>().into(), "{}", case.title());
}

/// The numbers of an event: the refusal, those of its row, and its readings, any NaN as one.
type EventNumbers = (u64, [u32; 10], [u32; 7]);

fn event_by_library(row: &[u32]) -> EventNumbers {
    let (refusal, kind, time, [a, b, c, d, e, f, g], readings) = numbers::event_of(row);
    let one_nan = |bits: u32| if f32::from_bits(bits).is_nan() { 0x7fc0_0000 } else { bits };
    (refusal, [kind as u32, time as u32, (time >> 32) as u32, a, b, c, d, e, f, g], readings.map(one_nan))
}

fn event_by_second(row: &[u32]) -> EventNumbers {
    let (refusal, kind, time, [a, b, c, d, e, f, g], readings) = second::rows::event(row);
    (refusal, [kind as u32, time as u32, (time >> 32) as u32, a, b, c, d, e, f, g], readings.map(|bits| bits.unwrap_or(0x7fc0_0000)))
}

fn make_event(case: Case, event: fn(&[u32]) -> EventNumbers) {
    let ([refusal], row, readings) = (case.answer(), case.stated_rows(), case.stated_readings());
    let numbers = if refusal == 0 { 10 } else { 0 };
    assert_eq!(row.len(), numbers, "{}: the numbers of its row", case.title());
    assert_eq!(readings.len(), if matches!(row.first(), Some(3 | 4)) { 7 } else { 0 }, "{}: its readings", case.title());
    let stated = (refusal, row.try_into().unwrap_or_default(), readings.try_into().unwrap_or_default());
    assert_eq!(event(&case.rows()), stated, "{}", case.title());
}

/// A check for everyone who is held to a case. What a row of a list is has no function outside the library.
fn checks(case: Case) -> Vec<Check> {
    let by_writers = |writers: [Writer; 4], reader: &str| {
        let mut checks: Vec<Check> = writers.into_iter().map(|writer| Box::new(move || write(case, writer)) as Check).collect();
        if case.answer::<2>()[0] == 0 {
            checks.extend(readers(reader).into_iter().map(|reader| Box::new(move || read_back(case, reader)) as Check));
        }
        checks
    };
    match case.call() {
        "event" => [event_by_library, event_by_second].into_iter().map(|event| Box::new(move || make_event(case, event)) as Check).collect(),
        "row" => vec![],
        "header" => HEADER_READERS.into_iter().map(|reader| Box::new(move || read_the_header(case, reader)) as Check).collect(),
        "whole" => FINDERS.into_iter().map(|finder| Box::new(move || find(case, finder)) as Check).collect(),
        "write-evt2" => by_writers(EVT2_WRITERS, "evt2"),
        "write-evt3" => by_writers(EVT3_WRITERS, "evt3"),
        call => readers(call).into_iter().map(|reader| Box::new(move || read(case, reader)) as Check).collect(),
    }
}

#[test]
fn all_hold() {
    let [right, _] = cases();
    let count = right.iter().flat_map(|&case| checks(case)).map(|check| check()).count();
    println!("{} cases, {count} checks", right.len());
}

/// Each case that is wrong on purpose fails, by everyone who is held to it. What was written is read back all the same.
#[test]
fn wrong_ones_do_not() {
    let [_, wrong] = cases();
    for case in wrong {
        let Ok(checks) = catch_unwind(|| checks(case)) else { continue };
        for check in checks.into_iter().take(4) {
            assert!(catch_unwind(AssertUnwindSafe(check)).is_err(), "{} holds", case.title());
        }
    }
}

#[test]
fn as_many_as_the_program_reads() {
    let [right, wrong] = cases();
    assert_eq!([right.len() + wrong.len(), wrong.len()], counts());
    let titles: BTreeSet<_> = right.iter().map(|case| (case.title().split('|').next().map(str::to_string), case.call())).collect();
    assert_eq!(titles.len(), right.len(), "a name twice within a call");
}
