//! Text headers as cameras and the programs that copy their recordings write them.
use super::Numbers;

/// Lines that say nothing of the picture; some hold commas and points, and one a side under another keyword.
const OTHERS: [&str; 10] = [
    "Data file containing CD events",
    "Version 2",
    "Date 2021-07-14 09:05:41",
    "camera_maker Example, Ltd.",
    "camera_model 1,280 x 720: width 1280",
    "firmware_version 3.9.1",
    "data_format evt",
    "manual_events",
    "serial_number 00002714",
    "",
];

/// A header that says those sides that are given, among up to four other lines.
pub fn header(width: Option<u32>, height: Option<u32>, numbers: &mut Numbers) -> Vec<u8> {
    let mut lines: Vec<String> = (0..numbers.below(5)).map(|_| numbers.one_of(&OTHERS).to_string()).collect();
    let widths = width.map(|side| (["width", "Width", "WIDTH", "wIDth"], side));
    let heights = height.map(|side| (["height", "Height", "HEIGHT", "heiGHt"], side));
    for (keywords, side) in widths.into_iter().chain(heights) {
        let (keyword, colon) = (numbers.one_of(&keywords), numbers.one_of(&["", ":"]));
        let digits = numbers.one_of(&[1, 1, 4, 5]);
        let at = numbers.below(1 + lines.len() as u32) as usize;
        lines.insert(at, format!("{keyword}{colon} {side:0digits$}"));
    }
    lines.iter().flat_map(|line| format!("% {line}\n").into_bytes()).collect()
}
