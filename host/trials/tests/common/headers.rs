//! Text headers with what each is to be, written from the requirement: lines around every rule of a line, alone and in pairs.
use fryskelom::Header;

/// What a header is to be: what it says, or the refusal and the first byte of the line at fault.
pub type Expected = Result<Header, (u64, usize)>;

/// What a line is.
#[derive(Clone, Copy)]
enum Line {
    /// The side of its keyword, in pixels.
    Says(u32),
    /// Nothing of the picture.
    Other,
    Bad,
    /// Without its newline; nothing can follow it.
    Cut,
}

use Line::{Bad, Cut, Other, Says};

/// Lines in which `@` stands for `width` or `height`.
const LINES: &[(&str, Line)] = &[
    ("% @ 640\n", Says(640)),
    ("% @: 640\n", Says(640)),
    ("% @ 1\n", Says(1)),
    ("% @: 9\n", Says(9)),
    ("% @ 64\n", Says(64)),
    ("% @ 2048\n", Says(2_048)),
    // leading zeros are digits
    ("% @ 00064\n", Says(64)),
    ("% @: 00001\n", Says(1)),
    ("% @ 01280\n", Says(1_280)),
    ("% @ 000064\n", Bad),
    ("% @ 000001\n", Bad),
    // the number
    ("% @ 0\n", Bad),
    ("% @: 0\n", Bad),
    ("% @ 00000\n", Bad),
    ("% @ 99999\n", Bad),
    ("% @ 65600\n", Bad),
    ("% @ 100000\n", Bad),
    ("% @ 123456\n", Bad),
    ("% @ 4294967360\n", Bad),
    ("% @ 18446744073709551680\n", Bad),
    ("% @\n", Bad),
    ("% @ \n", Bad),
    ("% @:\n", Bad),
    ("% @: \n", Bad),
    ("% @ 12,5\n", Bad),
    ("% @ 6.4\n", Bad),
    ("% @ 1,280\n", Bad),
    ("% @: 1.280\n", Bad),
    ("% @ ,5\n", Bad),
    ("% @ 5.\n", Bad),
    ("% @ 64O\n", Bad),
    ("% @ O64\n", Bad),
    ("% @ l\n", Bad),
    ("% @ +64\n", Bad),
    ("% @ -64\n", Bad),
    ("% @ 0x40\n", Bad),
    ("% @ 1e3\n", Bad),
    ("% @ 64/\n", Bad),
    ("% @ /64\n", Bad),
    ("% @ 64:\n", Bad),
    ("% @ six\n", Bad),
    ("% @ \u{661}\n", Bad),
    ("% @ 64\0\n", Bad),
    // what stands around it
    ("% @ 640\r\n", Bad),
    ("% @: 640\r\n", Bad),
    ("% @ 640 \n", Bad),
    ("% @ 640\t\n", Bad),
    ("% @ 64 0\n", Bad),
    ("% @ 640 480\n", Bad),
    ("% @ 640% @ 480\n", Bad),
    ("% @:640\n", Bad),
    ("% @ : 640\n", Bad),
    ("% @ :640\n", Bad),
    ("% @:  640\n", Bad),
    ("% @  640\n", Bad),
    ("% @:: 640\n", Bad),
    ("% @: : 640\n", Bad),
    ("% @ \t640\n", Bad),
    ("% @:\t640\n", Bad),
    ("% @ \r\n", Bad),
    ("% @:\r\n", Bad),
    // the keyword is another one
    ("% @,640\n", Other),
    ("% @.640\n", Other),
    ("% @\t640\n", Other),
    ("% @\t 640\n", Other),
    ("% @\r\n", Other),
    ("% @\0 640\n", Other),
    ("%  @ 640\n", Other),
    ("% \t@ 640\n", Other),
    ("% :@ 640\n", Other),
    ("% : 640\n", Other),
    ("% @s 5\n", Other),
    ("% @s: 0\n", Other),
    ("% @640\n", Other),
    ("% @=640\n", Other),
    ("% x@ 640\n", Other),
    ("% %@ 640\n", Other),
    ("% % @ 640\n", Other),
    ("% \"@\" 640\n", Other),
    ("% picture_@ 0\n", Other),
    ("% picture @ 0\n", Other),
    ("% picture: @: 1,5\n", Other),
    ("% widt 640\n", Other),
    ("% heigh 640\n", Other),
    ("% idth 640\n", Other),
    ("% w\u{131}dth 640\n", Other),
    ("% HE\u{130}GHT 640\n", Other),
    ("% 640\n", Other),
    ("% Date 2021-07-14 09:05:41\r\n", Other),
    ("% model 12,5 x 6.4\n", Other),
    ("% \n", Other),
    ("% \r\n", Other),
    ("%  \n", Other),
];

/// Lines without their newline: being cut is judged before what they hold.
const CUT_LINES: &[&str] = &[
    "% ",
    "%  ",
    "% \r",
    "% @",
    "% @ ",
    "% @:",
    "% @: ",
    "% @ 640",
    "% @: 640",
    "% @ 640\r",
    "% @ 0",
    "% @ 000064",
    "% @ 12,5",
    "% @:640",
    "% @  640",
    "% @s 5",
    "% Date 2021-07-14",
];

/// What may follow a header: nothing, or data of which the first two bytes are no percent sign and space.
const DATA: &[&[u8]] =
    &[b"", b"%", b"%%", b"%%  ", b"%\n", b"%\t", b"%!", b"%\0", b"%width 640\n", b"\n", b" ", b"\n% width 640\n", b" % width 640\n", b"#", b"\0\x08"];

const KEYWORDS: [[&str; 5]; 2] = [["width", "Width", "WIDTH", "wIdTh", "widtH"], ["height", "Height", "HEIGHT", "hEiGhT", "heighT"]];

/// A line, the side that it would say (0 is the width), and what it is.
type Made = (String, usize, Line);

/// Lines of a keyword: those of the table and those at the limits, of a side and of a line's length.
fn lines_of(keyword: &str, limit: u32) -> Vec<(String, Line)> {
    let mut lines: Vec<_> = LINES.iter().map(|&(line, is)| (line.replace('@', keyword), is)).collect();
    lines.extend([
        (format!("% {keyword} {limit}\n"), Says(limit)),
        (format!("% {keyword}: {limit:05}\n"), Says(limit)),
        (format!("% {keyword} {}\n", limit - 1), Says(limit - 1)),
        (format!("% {keyword} {}\n", limit + 1), Bad),
        (format!("% {keyword}: {:05}\n", limit + 1), Bad),
        (format!("% {keyword} {limit}0\n"), Bad),
    ]);
    // the newline counts
    lines.extend([(255, Other), (256, Other), (257, Bad), (258, Bad), (600, Bad)].map(|(length, is)| (long("% Date ", length - 1) + "\n", is)));
    lines.extend([255, 256, 257].map(|length| (long(&format!("% {keyword} 64"), length - 1) + "\n", Bad)));
    // and so many bytes without one, whatever follows
    lines.extend([256, 257, 600].map(|length| (long("% Date ", length), Bad)));
    lines
}

/// Lines of a keyword that the end of the input cuts.
fn cut_lines_of(keyword: &str) -> Vec<(String, Line)> {
    let table = CUT_LINES.iter().map(|line| line.replace('@', keyword));
    let long = [254, 255].iter().flat_map(|&length| [long("% Date ", length), long(&format!("% {keyword} 64"), length)]);
    table.chain(long).map(|line| (line, Cut)).collect()
}

/// A line's text made so many bytes long.
fn long(text: &str, length: usize) -> String {
    format!("{text: <length$}")
}

/// The lines of both sides, each in so many spellings of its keyword.
fn made(spellings: usize, lines_of: impl Fn(&str) -> Vec<(String, Line)>) -> Vec<Made> {
    let mut all = vec![];
    for (side, keywords) in KEYWORDS.iter().enumerate() {
        for keyword in &keywords[..spellings] {
            all.extend(lines_of(keyword).into_iter().map(|(line, is)| (line, side, is)));
        }
    }
    all
}

/// The header of some lines, and what it is to be: the first line at fault decides.
fn header(limit: u32, lines: &[&Made], data: &[u8]) -> (Vec<u8>, Expected) {
    let mut sides = [None; 2];
    let (mut text, mut fault) = (vec![], None);
    for &&(ref line, side, is) in lines {
        let refusal = match is {
            Says(_) if sides[side].is_some() => Some(9),
            Says(number) => {
                sides[side] = Some(number);
                None
            }
            Other => None,
            Bad => Some(9),
            Cut => Some(4),
        };
        fault = fault.or(refusal.map(|refusal| (refusal, text.len())));
        text.extend(line.bytes());
    }
    let [width, height] = sides.map(|said| said.unwrap_or(limit));
    let expected = fault.map_or(Ok(Header { data: text.len(), width, height }), Err);
    text.extend(data);
    (text, expected)
}

/// Headers of no line and of one, in which a side is at most `limit`, with each sort of data after them.
pub fn short_headers(limit: u32) -> Vec<(Vec<u8>, Expected)> {
    let mut headers: Vec<_> = DATA.iter().map(|data| header(limit, &[], data)).collect();
    headers.extend(made(5, |keyword| lines_of(keyword, limit)).iter().flat_map(|line| DATA.iter().map(move |data| header(limit, &[line], data))));
    headers.extend(made(5, cut_lines_of).iter().map(|line| header(limit, &[line], b"")));
    headers
}

/// Every pair of lines.
pub fn pairs(limit: u32) -> Vec<(Vec<u8>, Expected)> {
    let lines = made(1, |keyword| lines_of(keyword, limit));
    let seconds: Vec<_> = lines.iter().cloned().chain(made(1, cut_lines_of)).collect();
    lines.iter().flat_map(|first| seconds.iter().map(move |second| header(limit, &[first, second], b""))).collect()
}
