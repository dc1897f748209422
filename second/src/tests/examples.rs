//! The examples, whose expected texts are written from 01 by hand.

use super::played;
use crate::papers::{papers_from, verdict_line};
use std::fs;
use std::path::{Path, PathBuf};

fn folder() -> PathBuf {
    Path::new(env!("CARGO_MANIFEST_DIR")).join("../examples")
}

#[test]
fn every_example_prints_what_it_must() {
    let mut seen = 0;
    for entry in fs::read_dir(folder()).expect("the examples") {
        let path = entry.expect("an entry").path();
        if path
            .extension()
            .is_some_and(|extension| extension == "session")
        {
            let text = fs::read_to_string(&path).expect("a session");
            let expected = fs::read_to_string(path.with_extension("expected")).expect("its output");
            assert_eq!(played(&text), expected, "{}", path.display());
            seen += 1;
        }
    }
    assert!(seen >= 30, "only {seen} examples");
}

#[test]
fn every_paper_gets_the_verdict_it_must() {
    let text = fs::read_to_string(folder().join("papers.txt")).expect("the papers");
    let papers = papers_from(&text).expect("papers");
    let lines: String = papers.iter().map(|paper| verdict_line(paper)).collect();
    let expected = fs::read_to_string(folder().join("papers.expected")).expect("the verdicts");
    assert_eq!(lines, expected);
}
