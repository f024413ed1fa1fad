//! What `info` says of a recording's header and picture. Where lines end and what they say is the library's answer.
use super::formats::{Asked, Head};
use super::names::shown_bytes;
use super::progress::Progress;
use super::recording::{Recording, Stop};
use fryskelom::{read_header, Header, EVT_SIDE};

/// The last line of the header of an AEDAT file.
const AEDAT_END: &[u8] = b"#!END-HEADER\r\n";

/// So many bytes of a line at fault are shown.
const SHOWN: usize = 256;

/// So many lines of a header are shown; no camera writes as many.
const MOST_LINES: usize = 1_000;

/// Lines on the header and on the picture.
pub fn lines(recording: &Recording, stop: Option<Stop>) -> Vec<String> {
    match recording.format.head {
        Head::None => of_words(recording.asked),
        _ if recording.is_too_long() => vec!["header: not read, since the file is too long".to_string(), "picture: not known".to_string()],
        Head::Text(side) => of_text(&recording.bytes, side),
        Head::Aedat => of_aedat(&recording.bytes, stop),
    }
}

/// Bare words have no header, and the picture is as asked.
fn of_words(Asked { width, height }: Asked) -> Vec<String> {
    let side = |name: &str, asked: Option<u32>| match asked {
        Some(pixels) => format!("picture {name}: {pixels} pixels"),
        None => format!("picture {name}: {EVT_SIDE} pixels, the limit, since no --{name} is given"),
    };
    vec!["header: none".to_string(), side("width", width), side("height", height)]
}

/// The text header of a RAW or DAT file.
fn of_text(bytes: &[u8], limit: u32) -> Vec<String> {
    match read_header(bytes, limit) {
        Ok(header) => [read_whole(&bytes[..header.data], b"\n"), sides(bytes, limit, header)].concat(),
        Err(fault) => [refused(bytes, fault.place, b"\n"), vec!["picture: not known".to_string()]].concat(),
    }
}

/// The sides of the picture.
fn sides(bytes: &[u8], limit: u32, header: Header) -> Vec<String> {
    let [width, height] = said(bytes, limit, header);
    let side = |name: &str, pixels: u32, said: bool| match said {
        true => format!("picture {name}: {pixels} pixels"),
        false => format!("picture {name}: {pixels} pixels, the limit, since no line of the header says it"),
    };
    vec![side("width", header.width, width), side("height", header.height, height)]
}

/// Whether lines of the header say the width and the height. A side that changes with the limit is said by none.
fn said(bytes: &[u8], limit: u32, header: Header) -> [bool; 2] {
    let other = read_header(bytes, limit + 1).expect("what is good below a limit is good below a higher one");
    [header.width == other.width, header.height == other.height]
}

/// Tells which picture was taken where the header of a file does not say it whole. `info` says it among other things.
pub fn note(recording: &Recording, progress: &Progress) {
    let Head::Text(limit) = recording.format.head else { return };
    if recording.is_too_long() {
        return;
    }
    let Ok(header) = read_header(&recording.bytes, limit) else { return };
    let unsaid = match said(&recording.bytes, limit, header) {
        [true, true] => return,
        [false, true] => "width",
        [true, false] => "height",
        [false, false] => "width or height",
    };
    let Header { width, height, .. } = header;
    progress.note(&format!("note: the header of {} gives no {unsaid}; a picture of {width} by {height} pixels was assumed", recording.name));
}

/// The lines of an AEDAT file up to the end line. A fault in the header lies at the start of its line, so that those before are good.
fn of_aedat(bytes: &[u8], stop: Option<Stop>) -> Vec<String> {
    let good = match stop {
        Some(Stop::Refused(fault)) => fault.place,
        _ => bytes.len(),
    };
    let mut end = 0;
    let header = loop {
        match line_of(&bytes[end..good]) {
            Some(AEDAT_END) => break read_whole(&bytes[..end + AEDAT_END.len()], b"\r\n"),
            Some(line) => end += line.len(),
            None => break refused(bytes, good, b"\r\n"),
        }
    };
    [header, vec!["picture: an AEDAT file says none".to_string()]].concat()
}

/// The first line, its newline with it.
fn line_of(bytes: &[u8]) -> Option<&[u8]> {
    bytes.iter().position(|&byte| byte == b'\n').map(|newline| &bytes[..=newline])
}

/// All lines of a header.
fn read_whole(header: &[u8], newline: &[u8]) -> Vec<String> {
    [vec![format!("header: the data begin at byte {}", header.len())], escaped(header, newline)].concat()
}

/// The lines before the one at fault, and the start of that one.
fn refused(bytes: &[u8], place: usize, newline: &[u8]) -> Vec<String> {
    let fault = &bytes[place..bytes.len().min(place + SHOWN)];
    let fault = fault.split(|&byte| byte == b'\n').take(1).map(|line| format!("  > {}", shown_bytes(line)));
    let first = format!("header: refused at byte {place}, in the line marked >");
    [vec![first], escaped(&bytes[..place], newline), fault.collect()].concat()
}

/// Lines as they stand, but for what cannot be printed. Of very many the first are enough.
fn escaped(lines: &[u8], newline: &[u8]) -> Vec<String> {
    let mut lines = lines.split_inclusive(|&byte| byte == b'\n');
    let first = lines.by_ref().take(MOST_LINES).map(|line| format!("    {}", shown_bytes(line.strip_suffix(newline).unwrap_or(line))));
    let mut shown: Vec<_> = first.collect();
    let hidden = lines.count();
    if hidden > 0 {
        shown.push(format!("    and {hidden} more lines"));
    }
    shown
}
