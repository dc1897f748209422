//! The text forms: both ways, and complaints that name the line and column.

use super::bytes;
use crate::assemble::assemble;
use crate::disassemble::disassemble;
use crate::generate::paper::random_paper;
use crate::generate::session::random_session;
use crate::papers::{paper_text, papers_from};
use crate::random::Random;
use crate::words::text_of;

#[track_caller]
fn complains(text: &str, line: usize, column: usize) {
    let complaint = assemble(text).expect_err("a complaint");
    assert_eq!(
        (complaint.line, complaint.column),
        (line, column),
        "{complaint}"
    );
}

#[test]
fn round_trip_of_generated_sessions() {
    for item in 0..600 {
        let session = random_session(7, item);
        assert_eq!(bytes(&disassemble(&session)), session, "item {item}");
    }
}

#[test]
fn round_trip_of_any_bytes() {
    for item in 0..600 {
        let mut random = Random::new(8, item);
        let length = random.below(60);
        let any: Vec<u8> = (0..length).map(|_| random.next() as u8 & 0x13).collect();
        assert_eq!(bytes(&disassemble(&any)), any, "item {item}");
    }
}

#[test]
fn what_the_text_looks_like() {
    let told = "cell 5 3\njob\n  PUSH 0\n  JUMPZERO p3\n  STOP\np3:\n  ABANDON\nturns 2x2 1\n";
    assert_eq!(disassemble(&bytes(told)), told);
    let faulty = "job\n  CODE 14 7\n  STOP 1\n  JUMP 0\n  DUP 0\njob\nturns\nbytes 02 00 00\n";
    assert_eq!(disassemble(&bytes(faulty)), faulty);
}

#[test]
fn labels_numbers_repetition_and_comments() {
    let labels = "job # a comment\n JUMP end\n mid: POP\nend: last:\n STOP\nturns 1x3 2 # more";
    let numbers = "job\nJUMP 2\nPOP\nSTOP\nturns 1 1 1 2";
    assert_eq!(bytes(labels), bytes(numbers));
    assert_eq!(bytes("turns 1 2\nturns 3x0 4"), bytes("turns 1 2 4"));
}

#[test]
fn labels_belong_to_their_job() {
    complains("job\nend: STOP\njob\nJUMP end\nSTOP", 4, 6);
    complains("job\nend: STOP\nend:", 3, 1);
    complains("end:", 1, 1);
    complains("job\n9: STOP", 2, 1);
}

#[test]
fn complaints_name_line_and_column() {
    complains("turns 1\n  foo 3", 2, 3);
    complains("job\n  FOO", 2, 3);
    complains("PUSH 1", 1, 1);
    complains("job\nPUSH", 2, 1);
    complains("job\nPUSH x", 2, 6);
    complains("job\nPUSH 18446744073709551616", 2, 6);
    complains("job\nPUSH 1 2", 2, 8);
    complains("job 1", 1, 5);
    complains("cell 256 1", 1, 6);
    complains("cell 5", 1, 1);
    complains("turns 1 +2", 1, 9);
    complains("turns 1x", 1, 9);
    complains("turns 1 300x2", 1, 9);
    complains("turns 1x65535 1", 1, 1);
    complains("bytes 1", 1, 7);
    complains("bytes 00 +1", 1, 10);
    complains("job\n\u{e9} \u{e9}\u{e9}", 2, 1);
    complains("turns \u{e9}x2", 1, 7);
}

#[test]
fn text_must_be_utf8() {
    let complaint = text_of(b"turns 1\n \xc3\xa9\xff").expect_err("a complaint");
    assert_eq!((complaint.line, complaint.column), (2, 3));
}

#[test]
fn papers_round_trip() {
    let papers: Vec<Vec<u8>> = (0..300).map(|item| random_paper(9, item)).collect();
    let text: String = papers.iter().map(|paper| paper_text(paper)).collect();
    assert_eq!(papers_from(&text), Ok(papers));
}

#[test]
fn papers_in_text() {
    let papers = papers_from("# none\n. 10 00 . # cut\n10\n0a 0A .\n");
    let expected = vec![vec![], vec![0x10, 0], vec![0x10, 0x0a, 0x0a]];
    assert_eq!(papers, Ok(expected));
    assert_eq!(papers_from(""), Ok(vec![]));
    for (text, line, column) in [("10 00", 1, 4), ("10 .\n 1", 2, 2), ("..", 1, 1)] {
        let complaint = papers_from(text).expect_err("a complaint");
        assert_eq!((complaint.line, complaint.column), (line, column), "{text}");
    }
}
