//! The commands of README.md, run as they stand there.
use super::run::run;
use std::fs;
use trials::in_repository;

pub const README: &str = include_str!("../../../README.md");

/// Lines as README.md shows what is printed.
fn shown(text: &str) -> String {
    text.lines().map(|line| format!("    {line}\n")).collect()
}

/// The arguments of every command in a line of its own.
fn commands() -> Vec<Vec<&'static str>> {
    README.lines().filter_map(|line| Some(line.strip_prefix("    ./fryskelom ")?.split(' ').collect())).collect()
}

#[test]
fn every_command_works() {
    let commands = commands();
    assert!(commands.len() > 3, "{commands:?}");
    for arguments in commands {
        let run = run(&in_repository("."), &arguments).good();
        assert!(run.text().lines().count() > 3, "{arguments:?}: {run:?}");
    }
}

/// What is said of the recording that is joined part way there.
#[test]
fn joined_part_way() {
    let (_, section) = README.split_once("### Joining").expect("the section");
    let line = section.lines().find_map(|line| line.strip_prefix("    ./fryskelom ")).expect("a command");
    let printed = run(&in_repository("."), &line.split(' ').collect::<Vec<_>>()).good();
    let (_, told) = printed.text().split_once("\njoined ").expect("what is missing");
    let told: String = format!("joined {told}").split_inclusive('\n').take(2).collect();
    assert!(section.contains(&format!("\n\n{}\n", shown(&told))), "{told}");
}

/// The fitter's question: how long after the coil's trigger did the armature move?
#[test]
fn the_question_and_its_answer() {
    let (_, section) = README.split_once("### How long after").expect("the question");
    let [info, rows]: [&[&str]; 2] = [&["info", "--bins"], &["rows", "--bins"]];
    let lines: Vec<_> = section.lines().filter_map(|line| line.strip_prefix("    ./fryskelom ")).take(2).collect();
    let printed: Vec<String> =
        lines.iter().map(|line| run(&in_repository("."), &line.split(' ').collect::<Vec<_>>()).good().text().to_string()).collect();
    assert!(lines[0].starts_with(info[0]) && !lines[0].contains(info[1]) && rows.iter().all(|part| lines[1].contains(part)), "{lines:?}");
    // the triggers at the end of the one, and the first bins of the other
    let (_, triggers) = printed[0].split_once("\ntriggers: ").expect("the triggers");
    assert!(section.contains(&format!("\n\n{}\n", shown(&format!("triggers: {triggers}")))), "{triggers}");
    let first: String = printed[1].split_inclusive('\n').take(3).collect();
    assert!(section.contains(&format!("\n\n{}\n", shown(&first))), "{first}");
    // which is the delay that the sample was made with
    assert!(
        first.starts_with("51400 21400 ")
            && fs::read_to_string(in_repository("samples/README.md")).expect("it is there").contains("| 51400 | 21400 |")
    );
}
