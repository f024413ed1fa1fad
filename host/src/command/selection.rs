//! Which rows are wanted: those that pass every filter that was given.
use super::events::KINDS;
use super::formats::listed;
use super::names::{proposal, shown};
use super::options::{number, Given, Opt};
use super::recording::time_of;
use fryskelom::kind;
use std::ops::Range;

pub const OPTIONS: &[Opt] = &[
    Opt { name: "--from", values: &["T"] },
    Opt { name: "--until", values: &["T"] },
    Opt { name: "--kind", values: &["KIND"] },
    Opt { name: "--region", values: &["X", "Y", "WIDTH", "HEIGHT"] },
    Opt { name: "--camera", values: &["N"] },
];

/// A filter that was not given holds of every row.
pub struct Selection {
    /// The first time that is wanted; 0 where none was given.
    pub from: u64,
    until: Option<u64>,
    kinds: Option<Vec<u32>>,
    region: Option<Region>,
    camera: Option<u64>,
}

/// Columns and lines of the picture.
type Region = (Range<u64>, Range<u64>);

impl Selection {
    pub fn given(given: &Given) -> Result<Selection, String> {
        let (from, until) = (given.number("--from")?.unwrap_or(0), given.number("--until")?);
        if let Some(until) = until.filter(|until| from >= *until) {
            return Err(format!("there is no time from {from} up to, but not including, {until}"));
        }
        Ok(Selection { from, until, kinds: kinds(given)?, region: region(given)?, camera: camera(given)? })
    }

    /// Whether there is any filter.
    pub fn is_any(&self) -> bool {
        self.from > 0 || self.until.is_some() || self.kinds.is_some() || self.region.is_some() || self.camera.is_some()
    }

    pub fn holds(&self, row: &[u32]) -> bool {
        let time = time_of(row);
        time >= self.from
            && self.until.is_none_or(|until| time < until)
            && self.kinds.as_ref().is_none_or(|kinds| kinds.contains(&row[0]))
            && self
                .region
                .as_ref()
                .is_none_or(|(columns, lines)| row[0] == kind::PIXEL && columns.contains(&row[3].into()) && lines.contains(&row[4].into()))
            && self.camera.is_none_or(|camera| row[0] == kind::PIXEL && u64::from(row[6]) == camera)
    }
}

/// The name of a kind in `--kind`: `imu-counts`.
pub fn kind_names() -> impl Iterator<Item = String> {
    KINDS.iter().map(|(_, name)| name.to_ascii_lowercase().replace(' ', "-"))
}

fn kinds(given: &Given) -> Result<Option<Vec<u32>>, String> {
    let of = |name: &str| match kind_names().position(|known| known == name.to_ascii_lowercase()) {
        Some(index) => Ok(KINDS[index].0),
        None => {
            let names: Vec<_> = kind_names().collect();
            let close = proposal(name, names.iter().map(String::as_str));
            Err(format!(
                "--kind {}: there is no such kind; name {}, or several with commas between{close}",
                shown(name),
                listed(names.iter(), "", "or")
            ))
        }
    };
    given.value("--kind").map(|names| names.split(',').map(of).collect()).transpose()
}

fn region(given: &Given) -> Result<Option<Region>, String> {
    let Some(values) = given.values("--region") else {
        return Ok(None);
    };
    let numbers = values.iter().map(|value| number("--region", value)).collect::<Result<Vec<_>, _>>()?;
    let [x, y, width, height] = numbers[..] else { unreachable!("as many values as the option has") };
    match width == 0 || height == 0 {
        true => Err("--region: its width and height are 1 pixel or more; the numbers are X Y WIDTH HEIGHT".to_string()),
        false => Ok(Some((x..x.saturating_add(width), y..y.saturating_add(height)))),
    }
}

fn camera(given: &Given) -> Result<Option<u64>, String> {
    match given.number("--camera")? {
        Some(camera) if camera > 1 => Err(format!("--camera {camera}: there are cameras 0 and 1")),
        camera => Ok(camera),
    }
}
