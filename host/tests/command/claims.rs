//! What a file says of its own format, against the one that was named, and where none was.
use super::inputs::{self, dat, evt2_words, evt3_words, raw, DAT_ROWS, EVT3_ROWS};
use super::run::{folder, run, run_fed, run_on};
use std::fs;

const READ: &str = "the formats that are read are evt2, evt3, raw-evt2, raw-evt3, dat and aedat";

/// First lines of a file, the format that was named, and what is said; nothing where the file is read.
const CASES: &[(&str, &str, &str)] = &[
    ("% evt 3.0\n", "raw-evt3", ""),
    ("% evt 2.0\n", "raw-evt2", ""),
    ("% EVT: 3.0\n", "raw-evt3", ""),
    ("% format EVT3;height=720;width=1280\n", "raw-evt3", ""),
    ("% data_format evt 2.0\n", "raw-evt2", ""),
    ("% data_format EVT2.0\n", "raw-evt2", ""),
    ("% data_format evt\n", "raw-evt3", ""),
    ("% evt 3.0 of a camera\n", "raw-evt3", ""),
    ("% evt  3.0\n", "raw-evt3", ""),
    ("% format\n", "raw-evt3", ""),
    ("% evt\n", "raw-evt3", ""),
    ("% camera_model EVT2 3.0\n% events evt 2.0\n", "raw-evt3", ""),
    ("% Data file containing CD events\n", "dat", ""),
    ("% evt 3.0\n", "raw-evt2", "line 1 of the file says: % evt 3.0|raw-evt2 (RAW file of EVT2 words)|name --format raw-evt3"),
    (
        "% a\n% data_format evt 2.0\n",
        "raw-evt3",
        "line 2 of the file says: % data_format evt 2.0|raw-evt3 (RAW file of EVT3 words)|name --format raw-evt2",
    ),
    ("% evt 2.1\n", "raw-evt2", "line 1 of the file says: % evt 2.1|raw-evt2 (RAW file of EVT2 words)|EVT2.1 is not read; READ"),
    ("% evt 2.1\n", "raw-evt3", "line 1 of the file says: % evt 2.1|raw-evt3 (RAW file of EVT3 words)|EVT2.1 is not read; READ"),
    (
        "% evt 3.0\n% format EVT21;height=720;width=1280\n",
        "raw-evt3",
        "line 2 of the file says: % format EVT21;height=720;width=1280|raw-evt3 (RAW file of EVT3 words)|EVT2.1 is not read; READ",
    ),
    ("% evt 4.0\n", "raw-evt3", "line 1 of the file says: % evt 4.0|raw-evt3 (RAW file of EVT3 words)|EVT4 is not read; READ"),
    (
        "% format EVT4;width=5\n",
        "raw-evt2",
        "line 1 of the file says: % format EVT4;width=5|raw-evt2 (RAW file of EVT2 words)|EVT4 is not read; READ",
    ),
    ("% format HISTO3D;x\n", "raw-evt2", "line 1 of the file says: % format HISTO3D;x|raw-evt2 (RAW file of EVT2 words)|HISTO3D is not read; READ"),
    (
        "% Data file containing CD events\n",
        "raw-evt2",
        "line 1 of the file says: % Data file containing CD events|raw-evt2 (RAW file of EVT2 words)|name --format dat",
    ),
    ("% evt 3.0\n", "dat", "line 1 of the file says: % evt 3.0|dat (DAT file)|name --format raw-evt3"),
    ("% evt 3.0\n", "aedat", "line 1 of the file says: % evt 3.0|aedat (AEDAT 3.1 file)|name --format raw-evt3"),
    ("#!AER-DAT3.1\r\n", "raw-evt3", "line 1 of the file says: #!AER-DAT3.1|raw-evt3 (RAW file of EVT3 words)|name --format aedat"),
    ("#!AER-DAT2.0\r\n", "aedat", "line 1 of the file says: #!AER-DAT2.0|aedat (AEDAT 3.1 file)|AEDAT 2.0 is not read; READ"),
    ("#!AER-DAT4.0\r\n", "aedat", "line 1 of the file says: #!AER-DAT4.0|aedat (AEDAT 3.1 file)|AEDAT 4.0 is not read; READ"),
    // bare words have no header
    ("% evt 3.0\n", "evt3", "line 1 of the file says: % evt 3.0|evt3 (EVT3 words)|name --format raw-evt3"),
    ("#!AER-DAT3.1\r\n", "evt2", "line 1 of the file says: #!AER-DAT3.1|evt2 (EVT2 words)|name --format aedat"),
    ("% a\tb\n", "evt3", "the file begins with a text header: % a\\tb|evt3 (EVT3 words)|name --format raw-evt2, --format raw-evt3 or --format dat"),
    ("% \x01\n", "evt3", ""),
    ("% evt 3.0", "evt2", ""),
];

#[test]
fn against_a_format_that_was_named() {
    let folder = folder("claims");
    for (lines, format, said) in CASES {
        let arguments = ["info", "recording", "--format", format];
        let (file, fed) = (run_on(&folder, lines.as_bytes(), &arguments), run_fed(&folder, lines.as_bytes(), &["rows", "-", "--format", format]));
        if said.is_empty() {
            assert!([&file, &fed].iter().all(|run| run.status != Some(2)), "{lines:?} as {format}: {file:?}");
            continue;
        }
        let [quoted, named, advice] = said.split('|').collect::<Vec<_>>()[..] else { panic!("{said}") };
        let message = |name: &str| {
            let advice = advice.replace("READ", READ);
            format!("{name}: {quoted}\nthat is not {named}\nwhat to do: {advice}; or add --force to read it as {format} all the same\n")
        };
        file.declined(&message("recording"));
        fed.declined(&message("standard input"));
        run_on(&folder, lines.as_bytes(), &["convert", "recording", "out", "--format", format, "--to=evt2"]).declined(&message("recording"));
        // by force it is read, and it is still told
        let forced = run(&folder, &["rows", "recording", "--format", format, "--force"]);
        assert!(forced.stderr.starts_with(&format!("note: {quoted}; it is read as {format}, since --force is given\n")), "{forced:?}");
        assert_ne!(forced.status, Some(2));
    }
}

#[test]
fn by_force_the_rows_are_those_of_the_format_that_was_named() {
    let folder = folder("claims-forced");
    let run = run_on(&folder, &raw("2.0", &evt3_words()), &["rows", "recording", "--format=raw-evt3", "--force"]);
    assert_eq!(run.noted("note: line 1 of the file says: % evt 2.0; it is read as raw-evt3, since --force is given\n").text(), EVT3_ROWS);
}

/// A name, the file's bytes, and what is said of its format.
fn unnamed() -> [(&'static str, Vec<u8>, &'static str); 13] {
    let raw_files = "a RAW file holds EVT2 or EVT3 words, and you say which: --format raw-evt2 or --format raw-evt3; no line of this one says it";
    let any = "name evt2, evt3, raw-evt2, raw-evt3, dat or aedat (only names that end in .dat or .aedat tell it)";
    [
        ("a.raw", raw("3.0", &evt3_words()), "line 1 of the file says: % evt 3.0; add --format raw-evt3"),
        ("a", raw("2.0", &evt2_words()), "line 1 of the file says: % evt 2.0; add --format raw-evt2"),
        ("a.b.RAW", b"% date x\n% format EVT3;w\n".to_vec(), "line 2 of the file says: % format EVT3;w; add --format raw-evt3"),
        ("a.raw", b"% evt 2.1\n".to_vec(), "line 1 of the file says: % evt 2.1; EVT2.1 is not read; READ"),
        ("a.raw", b"% evt 4.0\n".to_vec(), "line 1 of the file says: % evt 4.0; EVT4 is not read; READ"),
        ("a.raw", b"% width 640\n".to_vec(), raw_files),
        ("a.raw", evt3_words(), raw_files),
        ("a.aedat4", b"#!AER-DAT4.0\r\n".to_vec(), "line 1 of the file says: #!AER-DAT4.0; AEDAT 4.0 is not read; READ"),
        ("dat", b"% Data file containing CD events\n".to_vec(), "line 1 of the file says: % Data file containing CD events; add --format dat"),
        (".aedat", inputs::aedat(), "line 1 of the file says: #!AER-DAT3.1; add --format aedat"),
        ("a.evt3", evt3_words(), "if it is what its name says, add --format evt3"),
        ("a.txt", evt3_words(), any),
        ("a", vec![], any),
    ]
}

#[test]
fn where_no_format_is_named() {
    let folder = folder("unnamed");
    for (name, bytes, said) in unnamed() {
        fs::write(folder.join(name), bytes).expect("a file");
        for command in ["info", "rows"] {
            let message = format!("{name}: its format is needed; {}\ntry ./fryskelom --help\n", said.replace("READ", READ));
            run(&folder, &[command, name]).declined(&message);
        }
    }
    run(&folder, &["info", "not there.raw"]).failed("cannot read not there.raw: No such file or directory (os error 2)\n");
}

/// A suffix tells a format, and the file may say another.
#[test]
fn a_suffix_against_the_file() {
    let folder = folder("suffix-against");
    fs::write(folder.join("a.dat"), raw("3.0", &evt3_words())).expect("a file");
    let message = "a.dat: line 1 of the file says: % evt 3.0\nthat is not dat (DAT file)\n\
                   what to do: name --format raw-evt3; or add --force to read it as dat all the same\n";
    run(&folder, &["rows", "a.dat"]).declined(message);
    fs::write(folder.join("a.dat"), dat()).expect("a file");
    assert_eq!(run(&folder, &["rows", "a.dat", "--format", "DAT"]).good().text(), DAT_ROWS);
}
