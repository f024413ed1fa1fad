//! Filters, columns, the time since an edge, and bins: each against the rows of made-up recordings, chosen and counted here.
use super::inputs::{self, evt2_words, two_cameras, TWO_CAMERAS_ROWS};
use super::run::{folder, run, run_on};
use std::collections::BTreeMap;
use std::path::Path;
use trials::samples::{aedat, evt2, evt3, Numbers};

/// Ten numbers.
type Row = Vec<u64>;

fn rows_of(text: &str) -> Vec<Row> {
    text.lines().map(|line| line.split(' ').map(|number| number.parse().expect("a number")).collect()).collect()
}

fn time(row: &Row) -> u64 {
    (row[2] << 32) + row[1]
}

/// A file `recording` of its format, and all its rows.
fn recordings(folder: &Path) -> Vec<(&'static str, Vec<u8>, Vec<Row>)> {
    let mut numbers = Numbers::new(0x5d0c_3f71_a8e2_96b4);
    let picture = (640, 480);
    let recordings = [
        ("evt2", evt2::recording(evt2::Scene::Mixed, picture, 0, 3_000, &mut numbers)),
        // times in the upper half of what two numbers hold
        ("evt2", evt2::recording(evt2::Scene::Mixed, picture, (1 << 32) - 1_500, 3_000, &mut numbers)),
        ("evt3", evt3::recording(evt3::Scene::TwoCameras, picture, 0, 3_000, &mut numbers)),
        ("aedat", aedat::recording(aedat::Scene::Mixed, picture, 0, 3_000, &mut numbers)),
        // times out of order, and those of edges too
        ("evt2", evt2_words()),
        ("evt3", evt3::bytes_of(&[0x8001, 0x6009, 0xa001, 0x6005, 0xa001, 0x0003, 0x6007, 0x2805, 0x600a, 0x2806])),
    ];
    let read = recordings.into_iter().map(|(format, bytes)| {
        let rows = rows_of(run_on(folder, &bytes, &["rows", "recording", "--format", format]).good().text());
        (format, bytes, rows)
    });
    read.collect()
}

/// A filter's options, and which rows it lets through.
type Filter = (String, Box<dyn Fn(&Row) -> bool>);

/// Filters around what a recording holds.
fn filters(rows: &[Row]) -> Vec<Filter> {
    let middle = time(&rows[rows.len() / 2]);
    let (x, y) = rows.iter().find(|row| row[0] == 1).map_or((0, 0), |row| (row[3], row[4]));
    let boxed = |options: String, holds: Box<dyn Fn(&Row) -> bool>| (options, holds);
    vec![
        boxed(format!("--from {middle}"), Box::new(move |row| time(row) >= middle)),
        boxed(format!("--until {middle}"), Box::new(move |row| time(row) < middle)),
        boxed("--from=0 --until=18446744073709551615".to_string(), Box::new(|_| true)),
        boxed(format!("--from {}", middle + 1), Box::new(move |row| time(row) > middle)),
        boxed("--kind pixel".to_string(), Box::new(|row| row[0] == 1)),
        boxed("--kind TRIGGER".to_string(), Box::new(|row| row[0] == 2)),
        boxed("--kind imu-counts,special".to_string(), Box::new(|row| row[0] == 3 || row[0] == 6)),
        boxed("--kind trigger,imu-singles".to_string(), Box::new(|row| row[0] == 2 || row[0] == 4)),
        boxed(format!("--region {x} {y} 1 1"), Box::new(move |row| row[0] == 1 && (row[3], row[4]) == (x, y))),
        boxed(format!("--region {x} 0 200 18446744073709551615"), Box::new(move |row| row[0] == 1 && (x..x + 200).contains(&row[3]))),
        boxed(format!("--region 0 {y} 65536 100"), Box::new(move |row| row[0] == 1 && (y..y + 100).contains(&row[4]))),
        boxed("--camera 0".to_string(), Box::new(|row| row[0] == 1 && row[6] == 0)),
        boxed("--camera 1".to_string(), Box::new(|row| row[0] == 1 && row[6] == 1)),
    ]
}

/// The command's arguments: options have a space between.
fn arguments<'a>(command: &'a str, format: &'a str, options: &'a str) -> Vec<&'a str> {
    [command, "recording", "--format", format].into_iter().chain(options.split(' ').filter(|option| !option.is_empty())).collect()
}

#[test]
fn every_filter_alone_and_every_two() {
    let folder = folder("filters");
    let mut reached = [0, 0, 0];
    for (format, bytes, rows) in recordings(&folder) {
        let filters = filters(&rows);
        for (first, holds) in &filters {
            for (second, also) in &filters {
                let (one, name) = (first == second, |options: &str| options.split([' ', '=']).next().map(str::to_string));
                if !one && name(first) == name(second) {
                    continue;
                }
                // from a time up to the same one
                let empty =
                    first.starts_with("--from ") && second.starts_with("--until ") || first.starts_with("--until ") && second.starts_with("--from");
                if empty || first.contains("--from=") && second.contains("--until ") {
                    continue;
                }
                let options = if one { first.clone() } else { format!("{first} {second}") };
                let run = run_on(&folder, &bytes, &arguments("rows", format, &options)).good();
                let wanted: Vec<_> = rows.iter().filter(|row| holds(row) && also(row)).cloned().collect();
                assert_eq!(rows_of(run.text()), wanted, "{options} of {format}");
                let sort = if wanted.is_empty() {
                    0
                } else if wanted.len() == rows.len() {
                    2
                } else {
                    1
                };
                reached[sort] += 1;
            }
        }
    }
    assert!(reached.iter().all(|&count| count > 4), "nothing, a part and all: {reached:?}");
}

/// From one time up to another, which is not included.
#[test]
fn from_and_until() {
    let folder = folder("from-until");
    let rows = |options: &str| run_on(&folder, &two_cameras(), &arguments("rows", "evt3", options)).good().text().to_string();
    let (first, last) = TWO_CAMERAS_ROWS.split_at(TWO_CAMERAS_ROWS.find("1 4099").expect("a later row"));
    assert_eq!(rows("--from 4098 --until 4099"), first);
    assert_eq!(rows("--from 4099 --until 4100"), last);
    assert_eq!(rows("--until 4098"), "");
    assert_eq!(rows("--from 4100"), "");
    assert_eq!(rows("--from 4098 --until 4100 --kind pixel --camera 1 --region 6 3 5 1"), "1 4098 0 10 3 0 1 0 0 0\n");
}

/// What `info` says is of the rows that pass.
#[test]
fn info_of_a_part() {
    let folder = folder("info-part");
    let part = |options: &str| {
        let run = run_on(&folder, &two_cameras(), &arguments("info", "evt3", options)).good();
        run.text().split_once("events: ").expect("the events").1.to_string()
    };
    assert_eq!(
        part("--camera 1"),
        "3 of 6 pass the filters\n    pixel: 3\n        of camera 0: 0\n        of camera 1: 3\n    trigger: 0\n    IMU counts: 0\n    \
         IMU singles: 0\n    special: 0\nfirst time: 4098 µs\nlast time: 4098 µs\nspan: 0 µs, 0.000000 s\ntimes out of order: 0\nclock wraps: 0 before the \
         last event, 0 of them before the first; the clock wraps every 16777216 µs\ntriggers: 0\n"
    );
    assert!(part("--from 4099").starts_with("2 of 6 pass the filters\n    pixel: 1\n    trigger: 1\n"));
    assert!(part("--kind trigger").ends_with("\ntriggers: 1\n    4099 µs trigger channel 1 falling\n"));
    // before a refusal
    let run = run_on(&folder, &two_cameras()[..17], &arguments("info", "evt3", "--camera 0"));
    assert!(run.status == Some(1) && run.text().contains("events: 1 of 4 pass the filters before the reading stopped\n"), "{run:?}");
}

#[test]
fn columns() {
    let folder = folder("columns-of-rows");
    for (format, bytes, rows) in recordings(&folder) {
        let of = |options: &str| run_on(&folder, &bytes, &arguments("rows", format, options)).good().text().to_string();
        let names = "kind,time_low,time_high,data1,data2,data3,data4,data5,data6,data7";
        let plain = of("");
        assert_eq!(of(&format!("--columns {names}")), plain);
        assert_eq!(of("--header"), format!("{}\n{plain}", names.replace(',', " ")));
        let all = of("--columns time_us,x,y,polarity,camera,channel,edge,Kind --header");
        let mut lines = all.lines();
        assert_eq!(lines.next(), Some("time_us x y polarity camera channel edge kind"));
        for (line, row) in lines.by_ref().zip(&rows) {
            let data = |kind, places: &[usize]| {
                places.iter().map(|&at| if row[0] == kind { row[at].to_string() } else { "-".to_string() }).collect::<Vec<_>>().join(" ")
            };
            assert_eq!(line, format!("{} {} {} {}", time(row), data(1, &[3, 4, 5, 6]), data(2, &[3, 4]), row[0]));
        }
        assert_eq!((all.lines().count(), lines.next()), (rows.len() + 1, None));
    }
}

/// A time of over 71 minutes is one number.
#[test]
fn a_time_in_one_column() {
    let run = run_on(&folder("one-column"), &inputs::aedat(), &["rows", "recording", "--format=aedat", "--columns", "time_us,kind"]).good();
    assert_eq!(run.text(), "100 1\n200 2\n90000 6\n4294967596 4\n");
}

/// The time since the last edge of this channel and direction, by time.
fn since(rows: &[Row], row: &Row, channel: Option<u64>, rising: u64) -> Option<u64> {
    let meant = rows.iter().filter(|edge| edge[0] == 2 && edge[4] == rising && channel.is_none_or(|channel| edge[3] == channel));
    meant.filter(|edge| time(edge) <= time(row)).map(|edge| time(row) - time(edge)).min()
}

/// Edges, as `--since` names them.
const EDGES: [(&str, Option<u64>, u64); 8] = [
    ("trigger", None, 1),
    ("trigger:rising", None, 1),
    ("trigger:falling", None, 0),
    ("TRIGGER:0", Some(0), 1),
    ("trigger:1", Some(1), 1),
    ("trigger:1:rising", Some(1), 1),
    ("trigger:0:Falling", Some(0), 0),
    ("trigger:6", Some(6), 1),
];

fn cell(number: Option<u64>) -> String {
    number.map_or("-".to_string(), |number| number.to_string())
}

#[test]
fn since_an_edge() {
    let folder = folder("since");
    let mut reached = 0;
    for (format, bytes, rows) in recordings(&folder) {
        for (edge, channel, rising) in EDGES {
            let of = |command: &str, options: &str| run_on(&folder, &bytes, &arguments(command, format, &format!("--since {edge}{options}")));
            let all: Vec<_> = rows.iter().map(|row| since(&rows, row, channel, rising)).collect();
            let lines: String = rows
                .iter()
                .zip(&all)
                .map(|(row, since)| format!("{} {}\n", row.iter().map(u64::to_string).collect::<Vec<_>>().join(" "), cell(*since)))
                .collect();
            let run = of("rows", "");
            let noted = run.stderr.starts_with("note: no ") && run.stderr.ends_with(" was read, so there is no time since one\n");
            assert_eq!((run.text() == lines, noted), (true, all.iter().all(Option::is_none)), "{edge} of {format}: {}", run.stderr);
            reached += all.iter().flatten().count();
            // where a filter leaves the triggers out, and in a column of its own
            let pixels = of("rows", " --kind pixel --columns since_us,x");
            let wanted: String =
                rows.iter().zip(&all).filter(|(row, _)| row[0] == 1).map(|(row, since)| format!("{} {}\n", cell(*since), row[3])).collect();
            assert_eq!(pixels.text(), wanted, "{edge} of {format}");
            let (least, most) = (all.iter().flatten().min(), all.iter().flatten().max());
            let before = all.iter().filter(|since| since.is_none()).count();
            let span = least.zip(most).map_or("none".to_string(), |(least, most)| format!("{least} to {most} µs"));
            let info = of("info", "");
            let line = info.text().lines().find(|line| line.starts_with("time since the last ")).expect("a line on it");
            let title = format!(
                "{} edge of {}",
                ["falling", "rising"][rising as usize],
                channel.map_or("any channel".to_string(), |channel| format!("channel {channel}"))
            );
            assert_eq!(line, format!("time since the last {title}: {span}; events before any such edge: {before}"));
        }
    }
    assert!(reached > 10_000, "{reached}");
}

/// In words, with what is out of order.
#[test]
fn since_an_edge_in_words() {
    let run = run_on(&folder("since-words"), &evt2_words(), &["rows", "recording", "--format=evt2", "--events", "--since", "trigger:6"]).good();
    let lines: Vec<_> = run.text().lines().collect();
    assert_eq!(lines[0], "66 µs pixel x 5 y 3 brighter camera 0, 2 µs after the rising edge of channel 6");
    assert_eq!(lines[1], "64 µs trigger channel 6 rising, out of order by 2 µs, 0 µs after the rising edge of channel 6");
    assert!(lines[2].ends_with(" °/s, out of order by 1 µs, 1 µs after the rising edge of channel 6"));
    let run = run_on(
        &folder("since-none"),
        &two_cameras(),
        &["rows", "recording", "--format=evt3", "--events", "--since", "trigger:1:falling", "--until=4099", "--camera=0"],
    )
    .good();
    assert_eq!(run.text(), "4098 µs pixel x 5 y 3 brighter camera 0, before any such edge\n");
}

#[test]
fn bins() {
    let folder = folder("bins");
    for (format, bytes, rows) in recordings(&folder) {
        for microseconds in [1, 7, 1_000, u64::MAX] {
            let middle = time(&rows[rows.len() / 2]);
            for (from, options) in [(0, String::new()), (0, " --kind pixel".to_string()), (middle, format!(" --from {middle}"))] {
                let of = |command: &str, more: &str| {
                    let options = format!("--bins {microseconds}{options}{more}");
                    run_on(&folder, &bytes, &arguments(command, format, &options)).text().to_string()
                };
                let wanted = || rows.iter().filter(|row| time(row) >= from && (row[0] == 1 || !options.contains("pixel")));
                let mut bins = BTreeMap::new();
                wanted().for_each(|row| *bins.entry(from + (time(row) - from) / microseconds * microseconds).or_insert(0) += 1);
                let lines: String = bins.iter().map(|(start, count)| format!("{start} {count}\n")).collect();
                assert_eq!(of("rows", ""), lines, "{microseconds}{options} of {format}");
                assert_eq!(of("rows", " --header"), format!("time_us events\n{lines}"));
                let most = bins.values().max().copied().unwrap_or(0);
                let first = bins.iter().find(|(_, count)| **count == most);
                let told = first.map_or(String::new(), |(start, _)| format!("    most events in one: {most}, from {start} µs on\n"));
                assert!(of("info", "").contains(&format!("bins of {microseconds} µs that hold events: {}\n{told}", bins.len())));
                // counted from the last edge
                let mut bins = BTreeMap::new();
                for row in wanted() {
                    let since = since(&rows, row, None, 1);
                    let origin = since.map_or(from, |since| time(row) - since);
                    let start = origin + (time(row) - origin) / microseconds * microseconds;
                    *bins.entry((start, since.map(|_| start - origin))).or_insert(0) += 1;
                }
                let lines: String = bins.iter().map(|((start, since), count)| format!("{start} {} {count}\n", cell(*since))).collect();
                assert_eq!(of("rows", " --since trigger"), lines, "{microseconds}{options} of {format}");
                assert_eq!(of("rows", " --header --since trigger"), format!("time_us since_us events\n{lines}"));
            }
        }
    }
}

/// All triggers, or the first and the last hundred, and how many there are.
#[test]
fn triggers_in_info() {
    let folder = folder("triggers");
    for count in [0, 1, 199, 200, 201, 1_000] {
        let words: Vec<u16> = [0x8000].into_iter().chain((0..count).flat_map(|time| [0x6000 + time, 0xa001])).collect();
        let run = run_on(&folder, &evt3::bytes_of(&words), &["info", "recording", "--format=evt3"]).good();
        let (_, listed) = run.text().split_once(&format!("\ntriggers: {count}\n")).unwrap_or_else(|| panic!("{run:?}"));
        let line = |time: u16| format!("    {time} µs trigger channel 0 rising\n");
        let all: String = match count {
            0..=200 => (0..count).map(line).collect(),
            _ => (0..100)
                .map(line)
                .chain([format!("    and {} more, and then the last 100:\n", count - 200)])
                .chain((count - 100..count).map(line))
                .collect(),
        };
        assert_eq!(listed, all, "{count}");
    }
}

/// A time is out of order where one before it is later, whatever the filters let through.
#[test]
fn times_out_of_order() {
    let folder = folder("out-of-order");
    let words = evt3::bytes_of(&[0x8001, 0x6009, 0xa001, 0x6005, 0xa101, 0x6008, 0xa201, 0x6009, 0xa301]);
    let events = run_on(&folder, &words, &["rows", "recording", "--format=evt3", "--events"]).good();
    let line = |time: u64, channel: u64, mark: &str| format!("{time} µs trigger channel {channel} rising{mark}\n");
    let second = line(4101, 1, ", out of order by 4 µs");
    let wanted = [line(4105, 0, ""), second.clone(), line(4104, 2, ", out of order by 1 µs"), line(4105, 3, "")];
    assert_eq!(events.text(), wanted.concat());
    assert_eq!(run(&folder, &["rows", "recording", "--format=evt3", "--events", "--until", "4104"]).good().text(), second);
    assert!(run(&folder, &["info", "recording", "--format=evt3"]).good().text().contains("\ntimes out of order: 2\n"));
    assert!(run(&folder, &["info", "recording", "--format=evt3", "--until", "4104"]).good().text().contains("\ntimes out of order: 1\n"));
}
