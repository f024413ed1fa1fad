//! `--join`: a recording read from one of its words on, by a reader that knows nothing of those before it.
use super::formats::{joinable, listed, Asked, Format, Head, PartWay};
use super::options::{Given, Opt};
use super::recording::{seconds, Recording, Stop};
use fryskelom::{read_header, EVT3_WRAP};

/// What `rows` and `info` have for it.
pub const OPTIONS: &[Opt] = &[Opt { name: "--join", values: &["BYTE"] }];

/// Where a recording is joined. All bytes are counted from the first one of the file.
pub struct Join {
    pub byte: usize,
    /// How the words are read from there on, and the picture.
    pub words: PartWay,
    pub asked: Asked,
    /// From which byte on no event is missing, if there is one.
    whole: Option<usize>,
}

/// The byte that was asked for.
pub fn given(given: &Given, format: &Format) -> Result<Option<u64>, String> {
    let Some(byte) = given.number("--join")? else { return Ok(None) };
    if format.part_way.is_none() {
        return Err(format!("--join goes with {} alone: other recordings can be read from their start only", listed(joinable(), "--format ", "and")));
    }
    // where the words of a file with a header begin is not known before it is read
    if format.head == Head::None {
        is_word(byte, 0)?;
    }
    Ok(Some(byte))
}

/// Whether a word begins at a byte, the first of them at another.
fn is_word(byte: u64, first: u64) -> Result<(), String> {
    match byte.checked_sub(first) {
        None => Err(format!("--join {byte}: that is in the header; the words begin at byte {first}")),
        Some(far) if far % 2 == 1 => Err(format!("--join {byte}: that is inside the word that begins at byte {}", byte - 1)),
        Some(_) => Ok(()),
    }
}

impl Join {
    /// Joins a recording at a byte. It is not joined where its header is refused, or all of it.
    pub fn at(byte: u64, recording: &Recording) -> Result<Option<Join>, String> {
        let (bytes, format) = (&recording.bytes, recording.format);
        let (first, asked) = match format.head {
            _ if recording.is_too_long() => return Ok(None),
            Head::Text(side) => match read_header(bytes, side) {
                Ok(header) => (header.data, Asked { width: Some(header.width), height: Some(header.height) }),
                Err(_) => return Ok(None),
            },
            _ => (0, recording.asked),
        };
        let Some(rest) = usize::try_from(byte).ok().and_then(|byte| bytes.get(byte..)) else {
            return Err(format!("--join {byte}: {} has only {} bytes", recording.name, bytes.len()));
        };
        is_word(byte, first as u64)?;
        let (byte, words) = (byte as usize, format.part_way.expect("it was asked when the arguments were looked at"));
        Ok(Some(Join { byte, words, asked, whole: (words.whole)(rest).map(|whole| byte + whole) }))
    }

    /// What is missing of the events, and of their times.
    pub fn lines(&self, stop: Option<Stop>) -> [String; 2] {
        let reached = match stop {
            Some(Stop::Refused(fault)) => fault.place,
            _ => usize::MAX,
        };
        let missing = match self.whole {
            Some(whole) if whole <= reached => format!("from byte {whole} on no event is missing; before it some may be"),
            Some(whole) => format!("no event would be missing from byte {whole} on, but the reading stopped before it; before it some may be"),
            None => "some events may be missing throughout: after this byte there is no TIME_HIGH, no later TIME_LOW, no ADDR_Y or no VECT_BASE_X"
                .to_string(),
        };
        let wrap = seconds(EVT3_WRAP);
        let times =
            format!("times are right up to a multiple of {wrap}, the same for all: how often the clock wrapped before this byte is not known");
        [format!("joined at byte {}: {missing}", self.byte), times]
    }
}
