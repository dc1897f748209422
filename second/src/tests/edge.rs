//! Every line of "On the edge", and session S.

use super::{bytes, checked, lines, played, session};
use crate::papers::verdict_line;

#[test]
fn empty_paper_passes_and_is_done() {
    assert_eq!(verdict_line(&[]), "passes 0\n");
    assert_eq!(played("turns"), "");
    assert_eq!(played("cell 5 3\nturns 1"), lines("1 none 0 / cell 5 3"));
}

#[test]
fn bytes_10_00() {
    assert_eq!(verdict_line(&[0x10, 0x00]), "refused 1 1 0\n");
}

#[test]
fn bytes_10_00_00() {
    assert_eq!(verdict_line(&[0x10, 0x00, 0x00]), "refused 4 1 0\n");
    assert_eq!(played("bytes 10 00 00\nturns"), "refused 4 1 0\n");
}

#[test]
fn stop_alone_takes_end_and_final() {
    let told = session(&["STOP"], "1 1");
    assert_eq!(played(&told), lines("1 end 0 / 1 final 1"));
}

#[test]
fn pop_stop() {
    assert_eq!(checked(&["POP, STOP"]), "refused 9 1 0\n");
}

#[test]
fn sixteen_and_seventeen_push() {
    let sixteen = "PUSH 1, ".repeat(16) + "STOP";
    let seventeen = "PUSH 1, ".repeat(17) + "STOP";
    assert_eq!(checked(&[&sixteen]), "passes 1\n");
    assert_eq!(checked(&[&seventeen]), "refused 9 1 16\n");
}

#[test]
fn jumps() {
    assert_eq!(checked(&["JUMP 0, STOP"]), "refused 6 1 0\n");
    assert_eq!(checked(&["JUMP 0"]), "refused 6 1 0\n");
    assert_eq!(checked(&["JUMP 1, STOP"]), "passes 1\n");
    assert_eq!(checked(&["JUMP 2, STOP, STOP"]), "refused 8 1 1\n");
}

#[test]
fn two_heights() {
    let told = "PUSH 0, JUMPZERO 3, PUSH 1, STOP";
    assert_eq!(checked(&[told]), "refused 10 1 3\n");
}

#[test]
fn sub_is_top_minus_next() {
    let told = session(&["PUSH 5, PUSH 3, SUB, PUSH 1, WRITE, STOP"], "1x7");
    let printed = played(&told);
    assert!(printed.ends_with("1 final 1\ncell 1 18446744073709551614\n"));
}

const SESSION_S: &str = "cell 5 3
job
PUSH 7
PUSH 5
WRITE
STOP
job
PUSH 5
READ
PUSH 6
WRITE
STOP
turns 2 2 1 1 1 1 2 2 2 2 2 2 1 2 2 3";

#[test]
fn session_s_prints_01s_whole_output() {
    let output = "2 step 0 / 2 step 0 / 1 step 0 / 1 step 0 / 1 step 0 / 1 end 0 / 2 back 0 / \
                  2 step 0 / 2 step 0 / 2 step 0 / 2 end 0 / 2 wait 0 / 1 final 1 / 2 final 2 / \
                  2 idle 2 / 3 none 2 / cell 5 7 / cell 6 7";
    assert_eq!(played(SESSION_S), lines(output));
}

#[test]
fn session_s_has_the_bytes_that_01_tells() {
    let session = bytes(SESSION_S);
    assert_eq!(&session[..12], &[1, 9, 0, 5, 3, 0, 0, 0, 0, 0, 0, 0]);
    assert_eq!(&session[12..16], &[0x10, 36, 0, 2]);
    let turns = [2, 2, 1, 1, 1, 1, 2, 2, 2, 2, 2, 2, 1, 2, 2, 3];
    assert!(session.ends_with(&[&[0x02, 16, 0], &turns[..]].concat()));
}
