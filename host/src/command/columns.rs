//! The columns that `rows` can print.
use super::formats::listed;
use super::names::{proposal, shown};
use super::options::Given;
use super::view::Item;
use fryskelom::{kind, ROW_NUMBERS};

#[derive(Clone, Copy)]
pub struct Column {
    pub name: &'static str,
    value: Value,
}

#[derive(Clone, Copy, PartialEq)]
enum Value {
    /// A number of the row.
    Number(usize),
    /// A number of the rows of one kind.
    Of(u32, usize),
    Time,
    Since,
}

use Value::{Number, Of, Since, Time};

/// A row's own ten numbers, and then others. `-` stands where a row has no such number.
const COLUMNS: [Column; 18] = [
    Column { name: "kind", value: Number(0) },
    Column { name: "time_low", value: Number(1) },
    Column { name: "time_high", value: Number(2) },
    Column { name: "data1", value: Number(3) },
    Column { name: "data2", value: Number(4) },
    Column { name: "data3", value: Number(5) },
    Column { name: "data4", value: Number(6) },
    Column { name: "data5", value: Number(7) },
    Column { name: "data6", value: Number(8) },
    Column { name: "data7", value: Number(9) },
    Column { name: "time_us", value: Time },
    Column { name: "x", value: Of(kind::PIXEL, 3) },
    Column { name: "y", value: Of(kind::PIXEL, 4) },
    Column { name: "polarity", value: Of(kind::PIXEL, 5) },
    Column { name: "camera", value: Of(kind::PIXEL, 6) },
    Column { name: "channel", value: Of(kind::TRIGGER, 3) },
    Column { name: "edge", value: Of(kind::TRIGGER, 4) },
    Column { name: "since_us", value: Since },
];

/// The column of the time since an edge.
const SINCE: Column = COLUMNS[COLUMNS.len() - 1];

/// The names of all columns.
pub fn names() -> impl Iterator<Item = &'static str> {
    COLUMNS.iter().map(|column| column.name)
}

/// The columns that are asked for: a row's own ten numbers where none are named; with `--since` its column too.
pub fn given(given: &Given) -> Result<Vec<Column>, String> {
    let mut columns = match given.value("--columns") {
        Some(list) => list.split(',').map(named).collect::<Result<Vec<_>, _>>()?,
        None => COLUMNS[..ROW_NUMBERS].to_vec(),
    };
    let has_since = columns.iter().any(|column| column.value == Since);
    match (given.has("--since"), has_since) {
        (false, true) => return Err("the column since_us needs --since, which says since what".to_string()),
        (true, false) => columns.push(SINCE),
        _ => {}
    }
    Ok(columns)
}

fn named(name: &str) -> Result<Column, String> {
    let unknown = || format!("--columns: there is no column {}: there are {}{}", shown(name), listed(names(), "", "and"), proposal(name, names()));
    COLUMNS.into_iter().find(|column| column.name.eq_ignore_ascii_case(name)).ok_or_else(unknown)
}

impl Column {
    /// Adds what a row has in this column.
    #[inline]
    pub fn add(&self, item: &Item, text: &mut Vec<u8>) {
        match self.value {
            Number(index) => add_digits(item.row[index], text),
            Of(kind, index) if item.row[0] == kind => add_digits(item.row[index], text),
            Of(..) => add_cell(None, text),
            Time => add_cell(Some(item.time), text),
            Since => add_cell(item.edge.map(|edge| item.time - edge.time), text),
        }
    }
}

/// Adds a number in decimal, or `-` where there is none, and a space.
pub fn add_cell(cell: Option<u64>, text: &mut Vec<u8>) {
    match cell.map(u32::try_from) {
        Some(Ok(number)) => add_digits(number, text),
        Some(Err(_)) => text.extend_from_slice(format!("{} ", cell.unwrap_or_default()).as_bytes()),
        None => text.extend_from_slice(b"- "),
    }
}

/// Adds a number and a space. A recording has millions of rows, and formatting takes several times as long.
fn add_digits(mut number: u32, text: &mut Vec<u8>) {
    // most numbers of a row
    if number < 10 {
        return text.extend_from_slice(&[b'0' + number as u8, b' ']);
    }
    let mut digits = [b' '; 11];
    let mut first = digits.len() - 1;
    loop {
        first -= 1;
        digits[first] = b'0' + (number % 10) as u8;
        number /= 10;
        if number == 0 {
            break;
        }
    }
    text.extend_from_slice(&digits[first..]);
}
