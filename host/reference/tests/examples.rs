//! The program's lines are those that the documents print.

use std::collections::HashSet;
use std::process::Command;

/// The checked lines of EXAMPLES.txt: no comments, no empty lines.
fn documented() -> Vec<&'static str> {
    include_str!("../EXAMPLES.txt")
        .lines()
        .filter(|line| !line.is_empty() && !line.starts_with('#'))
        .collect()
}

#[test]
fn the_program_prints_what_the_documents_print() {
    let run = Command::new(env!("CARGO_BIN_EXE_reference"))
        .output()
        .expect("the program runs");
    assert!(run.status.success());
    assert!(run.stderr.is_empty());
    let printed = String::from_utf8(run.stdout).expect("plain text");
    let printed: Vec<&str> = printed.lines().collect();
    let documented = documented();
    for (ours, theirs) in printed.iter().zip(&documented) {
        assert_eq!(ours, theirs);
    }
    assert_eq!(printed.len(), documented.len());
}

#[test]
fn no_input_stands_twice() {
    let mut seen = HashSet::new();
    for line in documented() {
        let (input, _) = line.split_once(" -> ").expect("an arrow");
        assert!(seen.insert(input), "{}", input);
    }
}
