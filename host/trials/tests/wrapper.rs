//! What the C header and the Rust wrapper offer beside the calls: names for numbers, buffers that are always enough, and how to build with them.
use fryskelom::*;
use std::env;
use std::fs;
use std::path::PathBuf;
use std::process::Command;
use trials::samples::recordings::RECORDINGS;
use trials::samples::{aedat, dat, evt2, evt3, Numbers};
use trials::{in_repository, numbers, second};

const README: &str = include_str!("../../../README.md");
const HEADER: &str = include_str!("../../../include/fryskelom.h");

fn folder(name: &str) -> PathBuf {
    trials::folder(&format!("wrapper/{name}"))
}

/// The names of the C header, and the numbers that they have in Rust.
fn constants() -> Vec<(&'static str, u64)> {
    let refusals = [
        ("FRY_TOO_LONG", Refusal::TOO_LONG),
        ("FRY_NO_ROOM", Refusal::NO_ROOM),
        ("FRY_RESERVED", Refusal::RESERVED),
        ("FRY_CUT", Refusal::CUT),
        ("FRY_BAD_TIME", Refusal::BAD_TIME),
        ("FRY_OUTSIDE", Refusal::OUTSIDE),
        ("FRY_STRAY", Refusal::STRAY),
        ("FRY_BAD_HEADER", Refusal::BAD_HEADER),
        ("FRY_BAD_PACKET", Refusal::BAD_PACKET),
        ("FRY_CLOCK_RESET", Refusal::CLOCK_RESET),
        ("FRY_BAD_ROW", Refusal::BAD_ROW),
        ("FRY_BAD_LIST", Refusal::BAD_LIST),
        ("FRY_BAD_PICTURE", Refusal::BAD_PICTURE),
    ];
    assert_eq!(refusals.map(|(_, refusal)| refusal), Refusal::ALL);
    let others = [
        ("FRY_PIXEL", kind::PIXEL.into()),
        ("FRY_TRIGGER", kind::TRIGGER.into()),
        ("FRY_IMU_COUNTS", kind::IMU_COUNTS.into()),
        ("FRY_IMU_SINGLES", kind::IMU_SINGLES.into()),
        ("FRY_SPECIAL", kind::SPECIAL.into()),
        ("FRY_ROW_NUMBERS", ROW_NUMBERS as u64),
        ("FRY_MOST_ROWS_EVT2(1003)", most_rows_evt2(1_003) as u64),
        ("FRY_MOST_ROWS_EVT3(1003)", most_rows_evt3(1_003) as u64),
        ("FRY_MOST_ROWS_DAT(1003)", most_rows_dat(1_003) as u64),
        ("FRY_MOST_ROWS_AEDAT(1003)", most_rows_aedat(1_003) as u64),
        ("FRY_MOST_WORDS_EVT2(1003)", most_words_evt2(1_003) as u64),
        ("FRY_MOST_WORDS_EVT3(1003, (uint64_t)16777215)", most_words_evt3(1_003, EVT3_WRAP - 1) as u64),
        ("FRY_MOST_WORDS_EVT3(1003, (uint64_t)17179869183)", most_words_evt3(1_003, 17_179_869_183) as u64),
    ];
    refusals.map(|(name, refusal)| (name, refusal.0)).into_iter().chain(others).collect()
}

/// Compiles a C program with the line of README.md, and answers what it prints.
fn run_c(name: &str, program: &str) -> String {
    let folder = folder(name);
    fs::write(folder.join("program.c"), program).expect("a file for the test");
    let line = README.lines().find_map(|line| line.strip_prefix("    cc program.c ")).expect("the line that links");
    assert!(HEADER.contains(&format!(" *     cc program.c {line}\n")), "the C header has the same line");
    let line = format!("cc \"$0/program.c\" -Wall -Wextra -Werror {}", line.replace("-o program", "-o \"$0/program\""));
    let linked = Command::new("sh").current_dir(in_repository(".")).args(["-c", &line]).arg(&folder).output().expect("a shell");
    assert!(linked.status.success(), "{}", String::from_utf8_lossy(&linked.stderr));
    let ran = Command::new(folder.join("program")).output().expect("the program");
    assert!(ran.status.success());
    String::from_utf8(ran.stdout).expect("text")
}

#[test]
fn names_in_c() {
    let shows: String = constants().iter().map(|(name, _)| format!("    printf(\"%llu\\n\", (unsigned long long)({name}));\n")).collect();
    let printed = run_c("names", &format!("#include \"fryskelom.h\"\n#include <stdio.h>\nint main(void) {{\n{shows}    return 0;\n}}\n"));
    let numbers: Vec<_> = constants().iter().map(|(_, number)| number.to_string()).collect();
    assert_eq!(printed.lines().collect::<Vec<_>>(), numbers);
    // the header has no other, and says of each refusal what the wrapper does
    let named: Vec<_> = HEADER.lines().filter_map(|line| line.trim_start().strip_prefix("FRY_")).collect();
    assert_eq!(named.len(), Refusal::ALL.len() + 5);
    for refusal in Refusal::ALL {
        assert_eq!(
            named.iter().filter(|line| line.contains(&format!(" = {}", refusal.0)) && line.ends_with(&format!("/* {} */", refusal.text()))).count(),
            1,
            "{refusal}"
        );
    }
}

#[test]
fn texts_of_refusals() {
    let texts = Refusal::ALL.map(Refusal::text);
    for (index, text) in texts.iter().enumerate() {
        assert!(text.len() > 10 && !texts[..index].contains(text), "{text}");
    }
    for number in [0, 7, 15, u64::MAX] {
        assert_eq!(Refusal(number).text(), "no refusal has this number");
    }
    assert_eq!(Refusal::CUT.to_string(), "refusal 4: the input ends inside a word, group, event, packet or header");
    let fault = Fault { refusal: Refusal::STRAY, rows: 3, place: 12 };
    assert_eq!(fault.to_string(), "refusal 8 at byte 12 after 3 rows: a word inside an IMU group does not continue it");
}

/// A reader, and the rows that are always enough for it.
type Reader = (fn(&[u8], &mut [u32]) -> (u64, u64, u64), fn(usize) -> usize);

const READERS: [Reader; 6] = [
    (|bytes, rows| numbers::read_evt2(bytes, EVT_SIDE, EVT_SIDE, rows), most_rows_evt2),
    (|bytes, rows| numbers::read_evt3(bytes, EVT_SIDE, EVT_SIDE, rows), most_rows_evt3),
    (numbers::read_raw_evt2, most_rows_evt2),
    (numbers::read_raw_evt3, most_rows_evt3),
    (numbers::read_dat, most_rows_dat),
    (numbers::read_aedat, most_rows_aedat),
];

/// The rows that are read with as much room as is said to be always enough, of that much.
fn read((reader, most): Reader, bytes: &[u8]) -> (u64, usize) {
    let room = most(bytes.len());
    let (refusal, rows, _) = reader(bytes, &mut vec![0; ROW_NUMBERS * room]);
    assert_ne!(Refusal(refusal), Refusal::NO_ROOM, "{} bytes", bytes.len());
    (rows, room)
}

#[test]
fn rows_that_are_always_enough() {
    let mut numbers = Numbers::new(0x0b77_e1c9_43d8_25af);
    let made = [
        evt2::recording(evt2::Scene::Mixed, (640, 480), 0, 3_000, &mut numbers),
        evt3::recording(evt3::Scene::Dense, (640, 480), 0, 3_000, &mut numbers),
        dat::recording((640, 480), 3_000, &mut numbers),
        aedat::recording(aedat::Scene::Mixed, (640, 480), 0, 3_000, &mut numbers),
    ];
    let mut inputs: Vec<Vec<u8>> = RECORDINGS.iter().map(|(_, make)| make()).chain(made).collect();
    inputs.extend((0..300).map(|length| (0..length).map(|_| numbers.any() as u8).collect()));
    for bytes in &inputs {
        for reader in READERS {
            read(reader, bytes);
            read(reader, &bytes[..bytes.len() - bytes.len().min(3)]);
        }
    }
    // as many rows as that are nearly or all there
    let vectors = [&[0x8000, 0x6000, 0x0000, 0x3000][..], &[0x4fff; 170]].concat();
    let pixels = [&[0x8000_0000][..], &[0x1000_0000; 1_000]].concat();
    let (events, polarity) = ([[0; 8]; 1_000].as_flattened().to_vec(), aedat::polarity(5, 1, 1, 1));
    let packet = aedat::packet(aedat::POLARITY, 0, &[polarity; 1_000]);
    let full = [
        (0, evt2::bytes_of(&pixels), 1_000),
        (1, evt3::bytes_of(&vectors), 2_040),
        (4, [&dat::TYPE_AND_SIZE[..], &events].concat(), 1_000),
        (5, [aedat::START, aedat::END, &packet].concat(), 1_000),
    ];
    for (reader, bytes, wanted) in full {
        let (rows, room) = read(READERS[reader], &bytes);
        assert!(rows == wanted && room - wanted as usize <= 48, "{rows} rows, room for {room}");
    }
}

#[test]
fn words_that_are_always_enough() {
    let last = |rows: &[u32]| rows.chunks(ROW_NUMBERS).last().map_or(0, |row| u64::from(row[2]) << 32 | u64::from(row[1]));
    let lists = RECORDINGS.iter().map(|(_, make)| second::raw::read_evt3(&make(), usize::MAX).rows.as_flattened().to_vec());
    // a list of one row that takes all of them
    let reading = [3, 7, 0, 1, 2, 3, 4, 5, 6, 0].to_vec();
    let late = [1, u32::MAX, 3, 5, 5, 1, 0, 0, 0, 0].to_vec();
    let (mut written, mut full) = ([0, 0], [false, false]);
    for rows in lists.chain([reading, late]) {
        let count = rows.len() / ROW_NUMBERS;
        let most = [most_words_evt2(count), most_words_evt3(count, last(&rows))];
        let answers = [write_evt2(&rows, &mut vec![0; 4 * most[0]]), write_evt3(&rows, &mut vec![0; 2 * most[1]])];
        for (i, answer) in answers.into_iter().enumerate() {
            match answer {
                Ok(words) => (written[i], full[i]) = (written[i] + 1, full[i] || words == most[i] && words > 0),
                Err(fault) => assert_ne!(fault.refusal, Refusal::NO_ROOM),
            }
        }
    }
    assert!(written.iter().all(|&count| count > 3) && full == [true, true], "{written:?} {full:?}");
}

/// A program of one's own, with the lines of README.md in its Cargo.toml.
#[test]
fn a_rust_program() {
    let folder = folder("program");
    let (_, after) = README.split_once("    [dependencies]\n    ").expect("the lines of Cargo.toml");
    let line = after.lines().next().expect("a line").replace("fryskelom/host", in_repository("host").to_str().expect("a path of text"));
    fs::create_dir(folder.join("src")).expect("a folder");
    // no member of the workspace around it
    let package = "[workspace]\n[package]\nname = \"program\"\nversion = \"0.1.0\"\nedition = \"2021\"\n";
    fs::write(folder.join("Cargo.toml"), format!("{package}[dependencies]\n{line}\n")).expect("a file");
    let program = "fn main() { println!(\"{}\", fryskelom::read_evt3(&[7], 1280, 720, &mut []).unwrap_err()) }\n";
    fs::write(folder.join("src/main.rs"), program).expect("a file");
    let mut cargo = Command::new(env::var("CARGO").expect("cargo runs the tests"));
    let output = cargo.args(["run", "--offline", "--quiet", "--target-dir", "target"]).current_dir(&folder).output().expect("cargo runs");
    let printed = String::from_utf8_lossy(&output.stdout);
    let told = "refusal 4 at byte 0 after 0 rows: the input ends inside a word, group, event, packet or header\n";
    assert_eq!(printed, told, "{}", String::from_utf8_lossy(&output.stderr));
}
