//! The last edge of a trigger before an event: how long after the coil was switched did something move?
use super::memory::{pushed, Lack};
use super::names::shown;
use super::options::{number, Given};
use super::recording::time_of;
use fryskelom::{kind, ROW_NUMBERS};

/// Which edges are meant.
pub struct Since {
    channel: Option<u32>,
    rising: bool,
}

/// An edge that was recorded.
#[derive(Clone, Copy)]
pub struct Edge {
    pub time: u64,
    channel: u32,
    rising: bool,
}

/// The edges that are meant, in the order of time.
#[derive(Default)]
pub struct Edges(Vec<Edge>);

impl Since {
    /// `trigger`, then a channel and an edge, or one of them, or neither.
    pub fn given(given: &Given) -> Result<Option<Since>, String> {
        let Some(text) = given.value("--since") else {
            return Ok(None);
        };
        let needed = || format!("--since {}: trigger, trigger:CHANNEL, trigger:falling or trigger:CHANNEL:falling is needed", shown(text));
        let small = text.to_ascii_lowercase();
        let mut parts = small.split(':').peekable();
        if parts.next() != Some("trigger") {
            return Err(needed());
        }
        let channel = parts.next_if(|part| edge(part).is_none()).map(|part| number("--since trigger, channel", part)).transpose()?;
        let rising = parts.next().map(|part| edge(part).ok_or_else(needed)).transpose()?.unwrap_or(true);
        match (parts.next(), channel) {
            (Some(_), _) => Err(needed()),
            (_, Some(channel @ 32..)) => Err(format!("--since trigger:{channel}: channels are 0 to 31")),
            (None, channel) => Ok(Some(Since { channel: channel.map(|channel| channel as u32), rising })),
        }
    }

    /// Those of the recording, whatever the filters let through.
    pub fn edges(&self, numbers: &[u32]) -> Result<Edges, Lack> {
        let mut edges = vec![];
        for row in numbers.chunks_exact(ROW_NUMBERS).filter(|row| row[0] == kind::TRIGGER) {
            let edge = Edge { time: time_of(row), channel: row[3], rising: row[4] == 1 };
            if edge.rising == self.rising && self.channel.is_none_or(|channel| edge.channel == channel) {
                pushed(&mut edges, edge)?;
            }
        }
        // a recording need not be in the order of time; a stable sort would take memory that may be refused
        edges.sort_unstable_by_key(|edge| (edge.time, edge.channel));
        Ok(Edges(edges))
    }

    /// What is meant, in words.
    pub fn title(&self) -> String {
        match self.channel {
            Some(channel) => format!("{} edge of channel {channel}", name_of(self.rising)),
            None => format!("{} edge of any channel", name_of(self.rising)),
        }
    }
}

fn edge(name: &str) -> Option<bool> {
    match name {
        "rising" => Some(true),
        "falling" => Some(false),
        _ => None,
    }
}

fn name_of(rising: bool) -> &'static str {
    if rising {
        "rising"
    } else {
        "falling"
    }
}

impl Edges {
    /// The last one at this time or before it.
    pub fn last(&self, time: u64) -> Option<Edge> {
        self.0[..self.0.partition_point(|edge| edge.time <= time)].last().copied()
    }

    pub fn is_empty(&self) -> bool {
        self.0.is_empty()
    }
}

impl Edge {
    /// Which one it is, in words.
    pub fn title(&self) -> String {
        format!("the {} edge of channel {}", name_of(self.rising), self.channel)
    }
}
