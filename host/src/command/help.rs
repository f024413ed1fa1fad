//! The help texts, in lines of at most 80 columns. What they say of the formats is taken from the table.
use super::formats::{bare, capitals, joinable, listed, names_written, suffixes, written, Format, FORMATS};
use super::names::called;
use super::{columns, selection};

/// The most columns of a line.
const COLUMNS: usize = 80;

/// A text in lines, the first of them after some other text, the others below their own beginning.
pub fn wrapped(first: &str, text: &str) -> String {
    let indent = first.chars().count();
    let (mut lines, mut width) = (first.to_string(), indent);
    for (word, number) in text.split(' ').zip(0..) {
        let letters = word.chars().count();
        if number > 0 && width + 1 + letters > COLUMNS {
            lines.push('\n');
            lines.push_str(&" ".repeat(indent));
            width = indent;
        } else if number > 0 {
            lines.push(' ');
            width += 1;
        }
        lines.push_str(word);
        width += letters;
    }
    lines + "\n"
}

/// A paragraph.
fn paragraph(text: &str) -> String {
    wrapped("", text) + "\n"
}

/// An option, and what it does.
fn option(usage: &str, text: &str) -> String {
    match usage.len() < INDENT - 2 {
        true => wrapped(&format!("  {usage:<0$}", INDENT - 2), text),
        // too long to have anything beside it
        false => format!("  {usage}\n{}", wrapped(&" ".repeat(INDENT), text)),
    }
}

/// Where the texts of options begin.
const INDENT: usize = 20;

pub fn short() -> String {
    format!("usage: {} info FILE, rows FILE, {}, or refusals", called(), converting())
}

/// How `convert` is called.
fn converting() -> String {
    format!("convert IN OUT --to {}", names_written().collect::<Vec<_>>().join("|"))
}

/// How a command is called, and what it does.
fn command(usage: &str, text: &str) -> String {
    format!("  {} {usage}\n{}", called(), wrapped("      ", text))
}

/// A line for each format, or for some that are alike.
fn lines_of_formats() -> String {
    let alike = FORMATS.chunk_by(|format, next| format.help == next.help);
    let names = |formats: &[Format]| formats.iter().map(|format| format.name).collect::<Vec<_>>().join(", ");
    alike.map(|formats| format!("{}{:<20}{}\n", " ".repeat(INDENT), names(formats), formats[0].help)).collect()
}

pub fn all() -> String {
    let example = |line: &str| format!("  {} {line}\n", called());
    [
        "Reads recordings of event cameras.\n\n".to_string(),
        command("info FILE", "what a recording holds: header, picture, numbers of events, times and triggers"),
        command("rows FILE", "its events, a line each, as numbers or in words; or how many there are in each bin of time"),
        command(&converting(), &format!("writes a recording anew as {} words", capitals(names_written()))),
        command("refusals", "why a recording is refused, by number, and what to do"),
        "\n".to_string(),
        paragraph("FILE and IN are files, or - for standard input. --help after a command lists its own options."),
        source(FORCED),
        option("--help, -h", "this text, or that of a command"),
        option("--version, -V", "the version"),
        option("--", "what follows is no option"),
        "\n".to_string(),
        paragraph(
            "Times are whole microseconds. No number has a separator of thousands, neither a comma nor a point, and none may be given: 1280 is right.",
        ),
        paragraph(
            "A recording that breaks a rule is refused where it does: what was finished before is still shown, and the message says where and what to do.",
        ),
        paragraph(
            "The exit status is 0 if all is well, 1 if a recording is refused or a file or memory cannot be had, and 2 if the arguments are wrong or --force \
             would be needed.",
        ),
        "For example:\n".to_string(),
        example("info gate.dat"),
        example("rows gate.raw --format raw-evt3 --events"),
        example("convert gate.aedat gate.evt2 --to evt2"),
    ]
    .concat()
}

/// What `--force` does.
const FORCED: &str = "read a recording even if it says itself that its format is another";

/// The options that say what a recording is.
fn source(forced: &str) -> String {
    let needed = format!("Not needed if the name ends in {}.", listed(suffixes(), ".", "or"));
    let told = "For a RAW file you say which words it holds. If you leave it out, the line of the header that tells is quoted; if the header contradicts you, \
                nothing is read.";
    [
        option("--format FORMAT", "what the recording is, in any letter case:"),
        lines_of_formats(),
        wrapped(&" ".repeat(INDENT), &format!("{needed} {told}")),
        option("--width N", &format!("the picture's width in pixels, 1 to 2048, for {} only; 2048 if left out", listed(bare(), "", "and"))),
        option("--height N", "its height likewise"),
        option("--force", forced),
    ]
    .concat()
}

/// The options that filter rows.
fn filters() -> String {
    [
        option("--from T", "only events at T microseconds or later"),
        option("--until T", "only events before T microseconds"),
        option(
            "--kind KIND",
            &format!("only events of this kind: {}; or of several, with commas between", listed(selection::kind_names(), "", "or")),
        ),
        option("--region X Y WIDTH HEIGHT", "only pixels in this part of the picture; X is its first column, Y its first line"),
        option("--camera N", "only pixels of this camera, 0 or 1"),
    ]
    .concat()
}

/// The option that begins part way.
fn join() -> String {
    let from = format!("begin at this byte of the file, at which a word has to begin; for {} only.", listed(joinable(), "", "and"));
    let told = "It is said from which byte on no event is missing. Times are then right up to a multiple of 16777216 microseconds, the same for all events. Bytes are \
                counted from 0 at the start of the file, as in every message.";
    option("--join BYTE", &format!("{from} {told}"))
}

const COMBINED: &str = "Filters, which can be combined; only events that pass all of them count:\n\n";

pub fn info() -> String {
    [
        format!("{} info FILE [options]\n\n", called()),
        paragraph(
            "Prints the format, the size of the file, the lines of its header, the picture, how many events there are of each of the five kinds, the first \
             and the last time (the smallest and the largest), how many events are earlier than one before them, and the triggers: all of them, or the first \
             and the last hundred. Where there is a pixel of camera 1, also how many pixels there are of each camera.",
        ),
        paragraph(
            "Of EVT3 words, whose clock begins anew every 16777216 microseconds, also how often it did so before the last event and before the first: more \
             wraps between the two than the recording took time for mean a damaged clock.",
        ),
        paragraph("If the recording is refused, all this is of the part before; the refusal follows on standard error, and the status is 1."),
        COMBINED.to_string(),
        filters(),
        "\nSummed up too, if you ask:\n\n".to_string(),
        option("--since EDGE", &format!("the shortest and the longest time since the last edge; for EDGE see {} rows --help", called())),
        option("--bins MICROSECONDS", "how many bins of so many microseconds hold events, and the most in one"),
        "\n".to_string(),
        recording(FORCED),
        join(),
    ]
    .concat()
}

pub fn rows() -> String {
    [
        format!("{} rows FILE [options]\n\n", called()),
        paragraph(
            "Prints a line for each event, in the order of the recording: a row of ten numbers, which are kind, time mod 4294967296, time div 4294967296, and \
             seven numbers that the kind gives a meaning.",
        ),
        "\x20 1 pixel         x, y, polarity (1 brighter, 0 darker), camera (0 or 1)
  2 trigger       channel, edge (1 rising, 0 falling)
  3 IMU counts    acceleration X, Y, Z, rotation X, Y, Z, each 0 to 65535
  4 IMU singles   the bits of seven singles: as kind 3, then the temperature
  6 special       type, data

"
        .to_string(),
        paragraph(
            "There is no kind 5. USB packets among EVT2 words give no row. Camera 0 is the only one or a master, camera 1 a slave on the master's clock, which \
             EVT3 words alone can have.",
        ),
        option(
            "--events",
            "the same in words, with the time as one number, IMU readings in g, degrees a second and degrees Celsius, and a mark where a time is out of order, \
             that is, earlier than one before it. The point in a reading is a decimal point, followed by six decimals.",
        ),
        option(
            "--columns NAMES",
            &format!(
                "other columns than the ten, with commas between their names: {}. time_us is the time as one number. An event that has no such number \
                 has - there.",
                listed(columns::names(), "", "and")
            ),
        ),
        option("--header", "the names of the columns in a first line"),
        "\n".to_string(),
        COMBINED.to_string(),
        filters(),
        "\nTo time a relay:\n\n".to_string(),
        option(
            "--since EDGE",
            "adds a column, since_us: microseconds since the last edge of a trigger, whether or not the trigger passes the filters. EDGE is trigger (rising \
             edges of any channel), trigger:CHANNEL, trigger:falling or trigger:CHANNEL:falling. Before the first edge there is - in the column.",
        ),
        option(
            "--bins MICROSECONDS",
            "instead of rows, a line for each bin of so many microseconds that holds events: the time at which it begins, with --since the time since the \
             edge, and the number of events. Bins begin at the last edge with --since, otherwise at the T of --from, or at 0.",
        ),
        "\n".to_string(),
        paragraph("If the recording is refused, the rows before are printed; the refusal follows on standard error, and the status is 1."),
        recording(FORCED),
        join(),
    ]
    .concat()
}

pub fn convert() -> String {
    let held = written().map(|(name, words)| option(&format!("--to {name}"), &format!("holds {}", words.holds)));
    [
        format!("{} {} [options]\n\n", called(), converting()),
        paragraph(
            "Reads the recording IN and writes its rows as bare words, without a header, to the file OUT, or to standard output where OUT is -. A file is \
             written whole or not at all: where IN is refused or a row cannot be written, OUT stays as it was.",
        ),
        held.collect(),
        "\n".to_string(),
        paragraph("The rows have to be in the order of time, and at most 16777216."),
        COMBINED.to_string(),
        filters(),
        "\n".to_string(),
        recording(&format!("replace OUT if it exists, unless it is write-protected, but never IN itself; write words to a terminal; {FORCED}")),
    ]
    .concat()
}

/// The options of every command that reads a recording.
fn recording(forced: &str) -> String {
    format!("The recording:\n\n{}", source(forced))
}

pub fn refusals() -> String {
    let text = "Prints the numbers of all refusals, what was found, and what to do. There is no refusal 7: it was that of a slave camera, which is read now.";
    format!("{} refusals\n\n{}", called(), wrapped("", text))
}
