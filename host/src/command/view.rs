//! The rows that are looked at, each with what the rows around it say of it.
use super::memory::{pushed, Lack};
use super::options::{Given, Opt};
use super::recording::time_of;
use super::selection::Selection;
use super::since::{Edge, Edges, Since};
use fryskelom::ROW_NUMBERS;

/// What `rows` and `info` have beside the filters.
pub const OPTIONS: &[Opt] = &[Opt { name: "--since", values: &["EDGE"] }, Opt { name: "--bins", values: &["MICROSECONDS"] }];

/// What was asked for.
pub struct View {
    pub selection: Selection,
    pub since: Option<Since>,
    pub bins: Option<u64>,
}

/// The rows of a recording, as they are looked at.
pub struct Looked<'a> {
    view: &'a View,
    numbers: &'a [u32],
    /// Those that times are counted from, if any are.
    pub edges: Edges,
}

/// A row of a recording.
pub struct Item<'a> {
    pub row: &'a [u32],
    pub time: u64,
    /// By how many microseconds it is earlier than some row before it in the recording.
    pub behind: u64,
    /// The last edge before it.
    pub edge: Option<Edge>,
}

/// The time at which a bin begins, and the number of its events.
pub type Bin = (u64, usize);

impl View {
    pub fn given(given: &Given) -> Result<View, String> {
        let bins = given.number("--bins")?;
        if bins == Some(0) {
            return Err("--bins 0: a bin has 1 microsecond or more".to_string());
        }
        Ok(View { selection: Selection::given(given)?, since: Since::given(given)?, bins })
    }

    pub fn look<'a>(&'a self, numbers: &'a [u32]) -> Result<Looked<'a>, Lack> {
        let edges = match &self.since {
            Some(since) => since.edges(numbers)?,
            None => Edges::default(),
        };
        Ok(Looked { view: self, numbers, edges })
    }
}

impl<'a> Looked<'a> {
    /// The rows that pass the filters.
    pub fn items(&self) -> impl Iterator<Item = Item<'a>> + use<'a, '_> {
        let mut latest = 0;
        let rows = self.numbers.chunks_exact(ROW_NUMBERS).map(move |row| {
            let time = time_of(row);
            latest = time.max(latest);
            (row, time, latest - time)
        });
        let wanted = rows.filter(|(row, _, _)| self.view.selection.holds(row));
        wanted.map(|(row, time, behind)| Item { row, time, behind, edge: self.edges.last(time) })
    }

    /// The bins of so many microseconds that hold events, in the order of time. They are counted from the last edge, before the first one from the time
    /// that is asked from; so the last edge before a bin is that before its events.
    pub fn bins(&self, microseconds: u64) -> Result<Vec<Bin>, Lack> {
        let mut bins: Vec<Bin> = vec![];
        for Item { time, edge, .. } in self.items() {
            let origin = edge.map_or(self.view.selection.from, |edge| edge.time);
            let start = time - (time - origin) % microseconds;
            match bins.last_mut() {
                Some((last, count)) if *last == start => *count += 1,
                _ => pushed(&mut bins, (start, 1))?,
            }
        }
        // a recording need not be in the order of time
        bins.sort_unstable();
        bins.dedup_by(|(start, more), (kept, count)| {
            let same = start == kept;
            *count += if same { *more } else { 0 };
            same
        });
        Ok(bins)
    }

    /// What is said where times are to be counted from edges that the recording does not have.
    pub fn lack_of_edges(&self) -> Option<String> {
        let since = self.view.since.as_ref().filter(|_| self.edges.is_empty())?;
        Some(format!("note: no {} was read, so there is no time since one", since.title()))
    }
}
