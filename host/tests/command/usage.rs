//! Help, the version, and command lines that ask for nothing that there is.
use super::run::{command, folder, run, Run, NAME};
use std::os::unix::process::CommandExt;

#[test]
fn help_and_version() {
    let folder = folder("help");
    let all = run(&folder, &["--help"]).good();
    assert!(all.text().contains("./fryskelom convert IN OUT --to evt2|evt3"));
    for arguments in [&["-h"][..], &["help"]] {
        assert_eq!(run(&folder, arguments).good().text(), all.text());
    }
    for arguments in [["--version"], ["-V"]] {
        assert_eq!(run(&folder, &arguments).good().text(), concat!("fryskelom ", env!("CARGO_PKG_VERSION"), "\n"));
    }
}

/// All texts of help, and the table of refusals.
const TEXTS: [&[&str]; 6] = [&["--help"], &["info", "-h"], &["rows", "-h"], &["convert", "-h"], &["refusals", "-h"], &["refusals"]];

#[test]
fn lines_of_80_columns() {
    let folder = folder("columns");
    for arguments in TEXTS {
        let run = run(&folder, arguments).good();
        let long: Vec<_> = run.text().lines().filter(|line| line.chars().count() > 80 || line.ends_with(' ')).collect();
        assert!(long.is_empty() && run.text().lines().count() > 2, "{arguments:?}: {long:#?}");
    }
}

/// Every option that a command takes is in its help, and no other.
#[test]
fn options_in_the_help() {
    let folder = folder("options");
    for (name, argument) in [("info", "FILE"), ("rows", "FILE"), ("convert", "IN"), ("refusals", "")] {
        let help = run(&folder, &[name, "--help"]).good();
        let told: Vec<_> = help.text().lines().filter_map(|line| line.strip_prefix("  --")?.split(' ').next()).collect();
        assert_eq!(told.is_empty(), argument.is_empty(), "{name}");
        for option in told {
            // without its value, or in a line that lacks a file, it is wrong, though not unknown
            let run = run(&folder, &[name, &format!("--{option}")]);
            assert!(run.status == Some(2) && !run.stderr.contains("has no option"), "{name} --{option}: {run:?}");
        }
        for option in OPTIONS {
            let taken = !run(&folder, &[name, option]).stderr.contains("has no option");
            assert_eq!(taken, help.text().contains(&format!("\n  {option}")), "{name} {option}");
        }
    }
}

const OPTIONS: [&str; 16] = [
    "--format",
    "--width",
    "--height",
    "--force",
    "--join",
    "--from",
    "--until",
    "--kind",
    "--region",
    "--camera",
    "--since",
    "--bins",
    "--events",
    "--columns",
    "--header",
    "--to",
];

/// Messages and help name the command as it was called.
#[test]
fn its_own_name() {
    let folder = folder("own-name");
    for name in [NAME, "fryskelom", "../a folder/fry\n", "/usr/local/bin/fryskelom"] {
        let told = name.replace('\n', "\\n");
        let called = |arguments: &[&str]| Run::from(command(&folder, arguments).arg0(name).output().expect("the command runs"));
        assert_eq!(called(&["fly"]).stderr.lines().last(), Some(format!("try {told} --help").as_str()));
        assert!(called(&["info"]).stderr.starts_with(&format!("FILE is missing: {told} info FILE\n")));
        assert!(called(&["rows", "--help"]).good().text().starts_with(&format!("{told} rows FILE")));
        assert!(called(&["--help"]).good().text().contains(&format!("  {told} info gate.dat\n")));
    }
}

#[test]
fn help_of_a_command() {
    let folder = folder("help-of-a-command");
    for command in ["info", "rows", "convert", "refusals"] {
        let help = run(&folder, &[command, "--help"]).good();
        assert!(help.text().starts_with(&format!("./fryskelom {command}")), "{help:?}");
        // whatever else is given
        for arguments in [&[command, "-h"][..], &["help", command], &["--help", command], &[command, "FILE", "B", "C", "--help"]] {
            assert_eq!(run(&folder, arguments).good().text(), help.text(), "{arguments:?}");
        }
    }
}

#[test]
fn no_separator_of_thousands_anywhere() {
    let folder = folder("separators");
    for arguments in TEXTS {
        let run = run(&folder, arguments).good();
        // versions of formats have a point
        let text = run.text().replace("AEDAT 3.1", "");
        let separated = |three: &[u8]| three[0].is_ascii_digit() && matches!(three[1], b',' | b'.') && three[2].is_ascii_digit();
        assert!(!text.as_bytes().windows(3).any(separated), "{text}");
    }
}

#[test]
fn nothing_at_all() {
    let run = run::<&str>(&folder("nothing"), &[]);
    assert_eq!((run.status, run.text()), (Some(2), ""));
    assert_eq!(run.stderr, "usage: ./fryskelom info FILE, rows FILE, convert IN OUT --to evt2|evt3, or refusals\ntry ./fryskelom --help\n");
}

/// Command lines, one space between arguments, and how the message about each begins.
const WRONG: &[(&str, &str)] = &[
    ("fly", "there is no command fly: there are info, rows, convert and refusals\n"),
    ("--bogus", "there is no command --bogus: "),
    ("help fly", "there is no command fly: "),
    ("help rows info", "help is given for one command at a time"),
    ("--version rows", "--version stands alone"),
    // what may have been meant
    ("inof a.dat", "there is no command inof: there are info, rows, convert and refusals; did you mean info?\n"),
    ("row a.dat", "there is no command row: there are info, rows, convert and refusals; did you mean rows?\n"),
    ("conv a.dat", "there is no command conv: there are info, rows, convert and refusals; did you mean convert?\n"),
    ("--versoin", "there is no command --versoin: there are info, rows, convert and refusals; did you mean --version?\n"),
    ("rows a.dat --evnts", "rows has no option --evnts; did you mean --events?\n"),
    ("rows a.dat --evens", "rows has no option --evens; did you mean --events?\n"),
    ("rows a.dat --regoin 1 2 3 4", "rows has no option --regoin; did you mean --region?\n"),
    ("info a.dat --form evt2", "info has no option --form; did you mean --format?\n"),
    ("info a.dat --helpp", "info has no option --helpp; did you mean --help?\n"),
    ("rows a --format ev3", "--format ev3: there is no such format; name evt2, evt3, raw-evt2, raw-evt3, dat or aedat; did you mean evt3?\n"),
    ("rows a.dat --kind trigers", "--kind trigers: there is no such kind; name pixel, trigger, imu-counts, imu-singles or special, or several with"),
    ("rows a.dat --kind pixle", "--kind pixle: there is no such kind; name pixel, trigger, imu-counts, imu-singles or special, or several with commas between; did you mean pixel?\n"),
    ("rows a.dat --columns time", "--columns: there is no column time: there are kind, time_low, time_high, data1, data2, data3, data4, data5, data6, data7, time_us, x, y, polarity, camera, channel, edge and since_us; did you mean time_"),
    // arguments
    ("info", "FILE is missing: ./fryskelom info FILE"),
    ("rows --events", "FILE is missing: ./fryskelom rows FILE"),
    ("rows --format dat --", "FILE is missing"),
    ("convert --to evt2", "IN is missing: ./fryskelom convert IN OUT"),
    ("convert a.dat --to evt2", "OUT is missing"),
    ("info a.dat b.dat", "b.dat is one argument too many: ./fryskelom info FILE"),
    ("rows a.dat -- --events", "--events is one argument too many"),
    ("convert a.dat b c --to evt2", "c is one argument too many"),
    ("refusals 3", "3 is one argument too many: ./fryskelom refusals"),
    // options
    ("info a.dat --events", "info has no option --events"),
    ("info a.dat --bogus", "info has no option --bogus\n"),
    ("info a.dat -x", "info has no option -x\n"),
    ("rows a.dat --to evt2", "rows has no option --to"),
    ("convert a.dat b --to evt2 --bins 5", "convert has no option --bins"),
    ("refusals --format dat", "refusals has no option --format"),
    ("rows a.dat --events --events", "--events is given more than once"),
    ("rows a.dat --format dat --format=dat", "--format is given more than once"),
    ("rows a --format evt2 --width 5 --width 5", "--width is given more than once"),
    ("rows a.dat --events=yes", "--events takes no value"),
    ("rows a.dat --format", "--format needs a value after it"),
    ("convert a.dat b --to", "--to needs a value after it"),
    // formats
    ("rows a --format evt9", "--format evt9: there is no such format; name evt2, evt3, raw-evt2, raw-evt3, dat or aedat"),
    ("rows a --format evt4", "--format evt4: EVT4 is not read; the formats that are read are evt2, evt3, raw-evt2, raw-evt3, dat and aedat\n"),
    ("rows a --format EVT2.1", "--format EVT2.1: EVT2.1 is not read; "),
    ("rows a --format raw-evt21", "--format raw-evt21: EVT2.1 is not read; "),
    ("rows a --format aedat2", "--format aedat2: AEDAT 2 is not read; "),
    ("rows a --format AEDAT-4.0", "--format AEDAT-4.0: AEDAT 4 is not read; "),
    ("rows a --format=", "--format : there is no such format"),
    ("info -", "standard input: its format is needed; name evt2, evt3, raw-evt2, raw-evt3, dat or aedat (only names that end in .dat or .aedat tell it)\n"),
    // width and height
    ("rows a --format evt3 --width 1,280", "--width 1,280: a whole number in digits alone is needed, without comma, point, sign or space"),
    ("rows a --format evt3 --width=12,500", "--width 12,500: a whole number"),
    ("rows a --format evt3 --height 1.280", "--height 1.280: a whole number"),
    ("rows a --format evt3 --height 720.", "--height 720.: a whole number"),
    ("rows a --format evt3 --width +5", "--width +5: a whole number"),
    ("rows a --format evt3 --width -5", "--width -5: a whole number"),
    ("rows a --format evt3 --width 0x40", "--width 0x40: a whole number"),
    ("rows a --format evt3 --width 1e3", "--width 1e3: a whole number"),
    ("rows a --format evt3 --width=", "--width : a whole number"),
    ("rows a --format evt3 --width \u{661}", "--width \u{661}: a whole number"),
    ("rows a --format evt3 --width 0", "--width 0: a side has 1 to 2048 pixels\n"),
    ("info a --format evt2 --height=00", "--height 0: a side has 1 to 2048 pixels\n"),
    ("rows a --format evt3 --width 2049", "--width 2049: a side has 1 to 2048 pixels\n"),
    ("rows a --format evt3 --width 12500", "--width 12500: a side has 1 to 2048 pixels\n"),
    ("convert a b --format evt3 --to evt3 --height 4294967296", "--height 4294967296: a side has 1 to 2048 pixels\n"),
    ("rows a --format evt3 --width 18446744073709551616", "--width 18446744073709551616: the number is too large\n"),
    ("rows a --format raw-evt3 --width 640", "--width and --height go with --format evt2 and --format evt3 alone: "),
    ("info a --format raw-evt2 --height 480", "--width and --height go with"),
    ("info a.dat --width 640", "--width and --height go with"),
    ("convert a.aedat b --to evt2 --height 480", "--width and --height go with"),
    // joining: of words that have no header the byte tells enough
    ("rows a --format evt3 --join 12,500", "--join 12,500: a whole number in digits alone is needed"),
    ("info a --format evt3 --join -2", "--join -2: a whole number"),
    ("rows a --format evt3 --join", "--join needs a value after it"),
    ("rows a --format evt3 --join 7", "--join 7: that is inside the word that begins at byte 6\n"),
    ("info - --format EVT3 --join=18446744073709551615", "--join 18446744073709551615: that is inside the word that begins at byte 18446744073709551614\n"),
    ("rows a --format evt2 --join 8", "--join goes with --format evt3 and --format raw-evt3 alone: other recordings can be read from their start only\n"),
    ("info a --format raw-evt2 --join 7", "--join goes with --format evt3 and --format raw-evt3 alone: "),
    ("rows a.dat --join 8", "--join goes with"),
    ("info a.aedat --join 8", "--join goes with"),
    ("convert a b --format evt3 --to evt3 --join 8", "convert has no option --join"),
    // filters
    ("rows a.dat --from 12,500", "--from 12,500: a whole number in digits alone is needed"),
    ("rows a.dat --until 12.5", "--until 12.5: a whole number"),
    ("rows a.dat --from -1", "--from -1: a whole number"),
    ("rows a.dat --from 5 --until 5", "there is no time from 5 up to, but not including, 5\n"),
    ("info a.dat --until 0", "there is no time from 0 up to, but not including, 0\n"),
    ("rows a.dat --region 1 2 3", "--region needs 4 values after it, with spaces between: --region X Y WIDTH HEIGHT\n"),
    ("rows a.dat --region=1 2 3 4", "--region needs 4 values after it"),
    ("rows a.dat --region 1 2 3 4,5", "--region 4,5: a whole number"),
    ("rows a.dat --region 1 2 0 4", "--region: its width and height are 1 pixel or more; the numbers are X Y WIDTH HEIGHT\n"),
    ("rows a.dat --region 1 2 4 0", "--region: its width and height are 1 pixel or more"),
    ("rows a.dat --camera 2", "--camera 2: there are cameras 0 and 1\n"),
    ("rows a.dat --kind 1", "--kind 1: there is no such kind; "),
    ("rows a.dat --kind pixel,", "--kind : there is no such kind; "),
    ("rows a.dat --since pixel", "--since pixel: trigger, trigger:CHANNEL, trigger:falling or trigger:CHANNEL:falling is needed\n"),
    ("rows a.dat --since trigger:", "--since trigger, channel : a whole number"),
    ("rows a.dat --since trigger:1,0", "--since trigger, channel 1,0: a whole number"),
    ("rows a.dat --since trigger:32", "--since trigger:32: channels are 0 to 31\n"),
    ("rows a.dat --since trigger:1:up", "--since trigger:1:up: trigger, "),
    ("rows a.dat --since trigger:1:rising:2", "--since trigger:1:rising:2: trigger, "),
    ("rows a.dat --bins 0", "--bins 0: a bin has 1 microsecond or more\n"),
    ("rows a.dat --bins 1,000", "--bins 1,000: a whole number"),
    // what a line holds
    ("rows a.dat --events --bins 5", "--events and --bins do not go together: each says what a line holds\n"),
    ("rows a.dat --columns x --events", "--events and --columns do not go together"),
    ("rows a.dat --bins 5 --columns x", "--columns and --bins do not go together"),
    ("rows a.dat --events --header", "--events has no columns for --header to name\n"),
    ("rows a.dat --columns x,since_us", "the column since_us needs --since, which says since what\n"),
    // convert
    ("convert a.dat b", "convert needs --to evt2 or --to evt3"),
    ("convert a.dat b --to dat", "--to dat: there are no such words; name evt2 or evt3"),
    ("convert a.dat b.dat --to evt2", "b.dat: by this name evt2 words would later be taken for something else; end it in .evt2\n"),
    ("convert a.dat b.AeDat --to evt2", "b.AeDat: by this name"),
    ("convert a.dat b.evt3 --to evt2", "b.evt3: by this name evt2 words would later be taken for something else; end it in .evt2\n"),
    ("convert a.dat b.EVT2 --to evt3", "b.EVT2: by this name evt3 words would later be taken for something else; end it in .evt3\n"),
    ("convert a.dat b.raw --to evt3", "b.raw: by this name evt3 words"),
];

#[test]
fn wrong_command_lines() {
    let folder = folder("usage");
    for (line, message) in WRONG {
        let run = run(&folder, &line.split(' ').collect::<Vec<_>>());
        assert_eq!((run.status, run.text()), (Some(2), ""), "{line}");
        assert!(run.stderr.starts_with(message), "{line}: {}", run.stderr);
        assert!(run.stderr.ends_with("\ntry ./fryskelom --help\n") && run.stderr.lines().count() == 2, "{line}: {}", run.stderr);
    }
}
