//! The comparison, with commands that every machine has.

use crate::compare::Comparison;
use std::ffi::OsString;
use std::fs;
use std::path::PathBuf;

/// What comparing a few sessions with a command tells, and its outcome.
fn compared(command: &[&str], keep: &str) -> (Vec<String>, Result<bool, String>) {
    let comparison = Comparison {
        seed: 1,
        count: 3,
        examples: None,
        keep: PathBuf::from(keep),
        command: command.iter().map(OsString::from).collect(),
    };
    let mut told = Vec::new();
    let outcome = comparison.run(&mut |line: &str| {
        told.push(line.to_string());
        Ok(())
    });
    (told, outcome)
}

#[test]
fn a_wrong_command_fails_and_its_smallest_session_is_kept() {
    let keep = format!(
        "{}/second-{}",
        std::env::temp_dir().display(),
        std::process::id()
    );
    let (told, outcome) = compared(&["echo", "wrong"], &keep);
    assert_eq!(outcome, Ok(false));
    assert_eq!(told.last().map(String::as_str), Some("0 passed, 3 failed"));
    // What is wrong on every input is wrong on no bytes at all.
    let kept = fs::read(format!("{keep}/failing.bin")).expect("the smallest session");
    assert!(kept.is_empty());
    let text = fs::read_to_string(format!("{keep}/failing.session")).expect("its text");
    assert!(
        text.contains("expected `refused 13 0 0`, found `wrong`"),
        "{text}"
    );
    fs::remove_dir_all(keep).expect("the folder");
}

#[test]
fn no_comparison_without_a_command_that_runs() {
    assert!(compared(&[], ".").1.is_err());
    assert!(compared(&["/no/such/command"], ".").1.is_err());
}
