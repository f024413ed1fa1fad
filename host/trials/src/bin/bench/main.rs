//! Speed of the library's readers and writers beside ones made by hand in Rust, into the same buffer in one run. They work in turn, and the
//! middle one of the rounds counts. Nothing here passes or fails by its time. Arguments are a part of the names of the streams to measure.
mod measure;
mod streams;

use measure::{Measured, Round};
use std::env;
use std::process::ExitCode;
use streams::{Stream, STREAMS};

/// The events of a stream in the first table.
const EVENTS: usize = 2_000_000;
const ROUNDS: usize = 15;

/// The lengths of a stream in the second table, in MB, and how many rounds each is measured.
const LENGTHS: [(usize, usize); 3] = [(1, 15), (10, 15), (100, 5)];

fn main() -> ExitCode {
    let part = env::args().skip(1).collect::<Vec<_>>().join(" ");
    let chosen: Vec<Stream> = STREAMS.into_iter().filter(|stream| stream.name.contains(&part)).collect();
    if chosen.is_empty() {
        eprintln!("no stream has \"{part}\" in its name; there are:\n{}", STREAMS.map(|stream| stream.name).join("\n"));
        return ExitCode::FAILURE;
    }
    compare(&chosen);
    if chosen.iter().any(|stream| stream.grows) {
        grow(&chosen);
    }
    ExitCode::SUCCESS
}

/// How fast each stream is. The ratios are to the code by hand, with the lowest and the highest of the rounds, and to filling the output.
fn compare(streams: &[Stream]) {
    println!(
        "{:<28}{:>10}{:>17}{:>17}{:>8}{:>8}{:>9}{:>12}",
        "stream", "rows", "by hand Mrows/s", "library Mrows/s", "ratio", "lowest", "highest", "to filling"
    );
    for Stream { name, measure, .. } in streams {
        let measured = measure(EVENTS, ROUNDS);
        let speed = |seconds: fn(&Round) -> f64| measured.rows as f64 / measured.middle(seconds) / 1e6;
        let (by_hand, library) = (speed(|round| round.by_hand), speed(|round| round.library));
        let [lowest, ratio, highest] = measured.spread(Round::ratio);
        let to_filling = measured.middle(Round::to_filling);
        println!("{name:<28}{:>10}{by_hand:>17.1}{library:>17.1}{ratio:>8.2}{lowest:>8.2}{highest:>9.2}{to_filling:>12.3}", measured.rows);
    }
}

/// What a row costs as streams grow. Their rows outgrow the caches, so that memory costs more for each of them: filling has that alone.
fn grow(streams: &[Stream]) {
    println!("\n{:<28}{:>10}{:>10}{:>16}{:>16}{:>16}", "longer and longer", "input MB", "rows", "by hand ns/row", "library ns/row", "filling ns/row");
    for stream in streams.iter().filter(|stream| stream.grows) {
        for (megabytes, rounds) in LENGTHS {
            let measured = of_length(stream, 1_000_000 * megabytes, rounds);
            let cost = |seconds: fn(&Round) -> f64| measured.middle(seconds) / measured.rows as f64 * 1e9;
            let (by_hand, library, filling) = (cost(|round| round.by_hand), cost(|round| round.library), cost(|round| round.filling));
            println!("{:<28}{megabytes:>10}{:>10}{by_hand:>16.2}{library:>16.2}{filling:>16.2}", stream.name, measured.rows);
        }
    }
}

/// Measures a stream whose input has about so many bytes: a recording's own, or those of a list of rows.
fn of_length(stream: &Stream, bytes: usize, rounds: usize) -> Measured {
    const TRIAL: usize = 50_000;
    let trial = (stream.measure)(TRIAL, 1).bytes;
    (stream.measure)(TRIAL * bytes / trial, rounds)
}
