//! The recordings of `samples/`: the committed files are what the program makes, and the library reads of each what its README says.
#[path = "common/formats.rs"]
mod formats;

use formats::{Format, AEDAT, DAT, EVT2, EVT3, RAW_EVT2, RAW_EVT3};
use std::fs;
use std::path::PathBuf;
use trials::in_repository;
use trials::samples::recordings::RECORDINGS;
use trials::second::rows::{time_of, Row, KINDS};

struct Sample {
    name: &'static str,
    format: Format,
    /// How many rows there are of each kind.
    rows: [usize; 5],
    /// The first time and the last.
    times: Option<(u64, u64)>,
    /// The refusal and its place.
    fault: Option<(u64, usize)>,
}

const SAMPLES: [Sample; 11] = [
    Sample { name: "gate-relay-evt3.raw", format: RAW_EVT3, rows: [4_245, 1, 0, 0, 0], times: Some((0, 89_604)), fault: None },
    Sample { name: "brake-relay-evt2.raw", format: RAW_EVT2, rows: [3_268, 1, 0, 0, 0], times: Some((0, 109_441)), fault: None },
    Sample { name: "two-cameras-evt3.raw", format: RAW_EVT3, rows: [7_499, 2, 0, 0, 0], times: Some((0, 109_918)), fault: None },
    Sample { name: "gate-relay.dat", format: DAT, rows: [4_245, 0, 0, 0, 0], times: Some((0, 89_604)), fault: None },
    Sample { name: "brake-relay.aedat", format: AEDAT, rows: [6_576, 2, 0, 18, 0], times: Some((0, 178_595)), fault: None },
    Sample { name: "clock-wrap.evt3", format: EVT3, rows: [4_225, 1, 0, 0, 0], times: Some((16_737_216, 16_817_039)), fault: None },
    Sample { name: "brake-relay-imu.evt2", format: EVT2, rows: [3_268, 1, 110, 0, 0], times: Some((0, 109_441)), fault: None },
    Sample { name: "cut-inside-a-word.evt3", format: EVT3, rows: [2_593, 1, 0, 0, 0], times: Some((0, 55_537)), fault: Some((4, 6_000)) },
    Sample { name: "reserved-word.evt2", format: EVT2, rows: [1_327, 1, 0, 0, 0], times: Some((0, 75_473)), fault: Some((3, 6_000)) },
    Sample { name: "clock-goes-back.raw", format: RAW_EVT3, rows: [68, 1, 0, 0, 0], times: Some((0, 65_296)), fault: Some((5, 544)) },
    Sample { name: "comma-in-width.raw", format: RAW_EVT3, rows: [0; 5], times: None, fault: Some((9, 37)) },
];

/// The only sample of two cameras, and how many of its pixels are of camera 1.
const TWO_CAMERAS: (&str, usize) = ("two-cameras-evt3.raw", 4_231);

/// The times of a coil's edge, its direction, and the first pixel of the armature that follows.
type Switching = (u64, u32, u64);

/// What a fitter reads off a sample.
const SWITCHINGS: [(&str, &[Switching]); 6] = [
    ("gate-relay-evt3.raw", &[(30_000, 1, 51_400)]),
    ("brake-relay-evt2.raw", &[(25_000, 0, 71_200)]),
    // the gate relay, which is the slave's, moves before the brake relay, whose coil was switched first
    ("two-cameras-evt3.raw", &[(25_000, 0, 71_200), (30_000, 1, 51_401)]),
    ("brake-relay.aedat", &[(15_000, 1, 48_701), (100_000, 0, 146_201)]),
    ("clock-wrap.evt3", &[(16_765_216, 1, 16_786_617)]),
    ("brake-relay-imu.evt2", &[(25_000, 0, 71_200)]),
];

fn path_of(name: &str) -> PathBuf {
    in_repository("samples").join(name)
}

/// The rows that the library and the second implementation read, the refusal and its place.
fn read(sample: &Sample) -> (Vec<Row>, Option<(u64, usize)>) {
    let path = path_of(sample.name);
    let bytes = fs::read(&path).expect("a committed file");
    let reading = sample.format.compare(&path, &bytes, usize::MAX);
    let fault = (reading.refusal != 0).then_some((reading.refusal, reading.place));
    (reading.rows, fault)
}

#[test]
fn files_are_as_made() {
    for (name, make) in RECORDINGS {
        assert!(fs::read(path_of(name)).is_ok_and(|bytes| bytes == make()), "samples/{name} is not what samples/make makes");
    }
}

#[test]
fn every_file_is_read() {
    assert_eq!(SAMPLES.map(|sample| sample.name), RECORDINGS.map(|(name, _)| name));
    for sample in SAMPLES {
        let (rows, fault) = read(&sample);
        let times = || rows.iter().map(time_of);
        let times = times().min().zip(times().max());
        let kinds = KINDS.map(|kind| rows.iter().filter(|row| row[0] == kind).count());
        assert_eq!((kinds, times, fault), (sample.rows, sample.times, sample.fault), "{}", sample.name);
        assert_eq!(kinds.iter().sum::<usize>(), rows.len(), "{}: rows of other kinds", sample.name);
        let of_slave = rows.iter().filter(|row| row[0] == 1 && row[6] == 1).count();
        assert_eq!(of_slave, if sample.name == TWO_CAMERAS.0 { TWO_CAMERAS.1 } else { 0 }, "{}: pixels of camera 1", sample.name);
    }
}

/// Each edge of a coil's supply with the first later pixel that begins a burst: 20 more within 20 microseconds. The armature of the coil on
/// channel 0 is before camera 0, that of the one on channel 1 before camera 1.
fn switchings(rows: &[Row]) -> Vec<Switching> {
    let burst_after = |edge: u64, camera: u32| {
        let pixels = rows.iter().filter(|row| row[0] == 1 && row[6] == camera).map(time_of);
        let later: Vec<u64> = pixels.filter(|&time| time >= edge).collect();
        later.windows(21).find(|times| times[20] - times[0] <= 20).expect("a burst after the edge")[0]
    };
    let edges = rows.iter().filter(|row| row[0] == 2);
    edges.map(|edge| (time_of(edge), edge[4], burst_after(time_of(edge), edge[3]))).collect()
}

#[test]
fn delays() {
    for (name, expected) in SWITCHINGS {
        let sample = SAMPLES.into_iter().find(|sample| sample.name == name).expect("a sample of this name");
        assert_eq!(switchings(&read(&sample).0), expected, "{name}");
    }
}
