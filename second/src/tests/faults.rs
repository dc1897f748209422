//! The order of faults: the first found is the answer.

use super::{checked, paper, played};
use crate::papers::verdict_line;

const NINE_READS: &str = "PUSH 0, READ, READ, READ, READ, READ, READ, READ, READ, READ";

#[test]
fn of_one_field_1_2_3_4() {
    assert_eq!(verdict_line(&[0x11, 5, 0]), "refused 1 1 0\n");
    assert_eq!(verdict_line(&[0x11, 0, 0]), "refused 2 1 0\n");
    let sixteen = paper(&["STOP"; 16]);
    let and = |more: &[u8]| verdict_line(&[&sixteen, more].concat());
    assert_eq!(and(&[]), "passes 16\n");
    assert_eq!(and(&[0x10]), "refused 1 17 0\n");
    assert_eq!(and(&[0x01, 0, 0]), "refused 2 17 0\n");
    assert_eq!(and(&[0x10, 0, 0]), "refused 3 17 0\n");
}

#[test]
fn lengths() {
    let of_length = |length: usize| {
        let head = [0x10, length as u8, (length / 256) as u8];
        verdict_line(&[&head[..], &vec![0; length]].concat())
    };
    assert_eq!(of_length(0), "refused 4 1 0\n");
    assert_eq!(of_length(8), "refused 4 1 0\n");
    assert_eq!(of_length(9), "passes 1\n");
    assert_eq!(of_length(10), "refused 4 1 0\n");
    assert_eq!(of_length(576), "refused 8 1 1\n");
    assert_eq!(of_length(577), "refused 4 1 0\n");
    assert_eq!(of_length(585), "refused 4 1 0\n");
}

#[test]
fn a_fields_job_comes_before_the_next_field() {
    let faulty_then_cut = [paper(&["POP, STOP"]), vec![0x10]].concat();
    assert_eq!(verdict_line(&faulty_then_cut), "refused 9 1 0\n");
    let mut seventeen = vec!["STOP"; 17];
    seventeen[15] = "ADD, STOP";
    assert_eq!(checked(&seventeen), "refused 9 16 0\n");
}

#[test]
fn at_one_place_5_6_11() {
    assert_eq!(checked(&["CODE 255 7, STOP"]), "refused 5 1 0\n");
    assert_eq!(
        checked(&[&format!("{NINE_READS}, STOP")]),
        "refused 11 1 9\n"
    );
    assert_eq!(
        checked(&[&format!("{NINE_READS} 1, STOP")]),
        "refused 6 1 9\n"
    );
}

#[test]
fn place_by_place_before_the_next_check() {
    assert_eq!(checked(&["STOP 1, CODE 14 0"]), "refused 6 1 0\n");
    assert_eq!(checked(&["CODE 14 0, STOP 1"]), "refused 5 1 0\n");
    let ninth_then_14 = format!("{NINE_READS}, CODE 14 0");
    assert_eq!(checked(&[&ninth_then_14]), "refused 11 1 9\n");
}

#[test]
fn seven_after_every_5_6_11_and_before_every_height() {
    assert_eq!(checked(&["POP, CODE 14 0"]), "refused 5 1 1\n");
    assert_eq!(
        checked(&[&format!("{NINE_READS}, POP")]),
        "refused 11 1 9\n"
    );
    assert_eq!(checked(&["POP, PUSH 1"]), "refused 7 1 1\n");
    assert_eq!(checked(&["STOP, STOP, PUSH 1"]), "refused 7 1 2\n");
    assert_eq!(checked(&["PUSH 0, JUMPZERO 2"]), "refused 6 1 1\n");
}

#[test]
fn at_one_place_8_10_9() {
    let meets_at_pop = "PUSH 0, JUMPZERO 3, PUSH 1, POP, STOP";
    assert_eq!(checked(&[meets_at_pop]), "refused 10 1 3\n");
    assert_eq!(checked(&["STOP, POP, STOP"]), "refused 8 1 1\n");
    assert_eq!(checked(&["POP, STOP, STOP"]), "refused 9 1 0\n");
}

#[test]
fn operands_are_looked_at_whole() {
    let high = 1u64 << 32;
    assert_eq!(checked(&[&format!("POP {high}, STOP")]), "refused 6 1 0\n");
    let dup = format!("PUSH 1, DUP {}, STOP", high + 1);
    assert_eq!(checked(&[&dup]), "refused 6 1 1\n");
    let jump = format!("JUMP {}, STOP", high + 1);
    assert_eq!(checked(&[&jump]), "refused 6 1 0\n");
}

#[test]
fn heights_at_their_limits() {
    let pushes = |count| "PUSH 1, ".repeat(count);
    let after = |count, rest: &str| checked(&[&format!("{}{rest}, STOP", pushes(count))]);
    assert_eq!(after(15, "DUP 15"), "passes 1\n");
    assert_eq!(after(14, "DUP 15"), "refused 9 1 14\n");
    assert_eq!(after(16, "DUP 1"), "refused 9 1 16\n");
    assert_eq!(after(16, "SWAP 15"), "passes 1\n");
    assert_eq!(after(15, "SWAP 15"), "refused 9 1 15\n");
    assert_eq!(after(1, "WRITE"), "refused 9 1 1\n");
}

#[test]
fn a_session_counts_the_fields_of_its_block() {
    let told = "cell 1 1\ncell 2 2\njob\nSTOP\njob\nPUSH 1\nPOP 3\nSTOP\nturns 1";
    assert_eq!(played(told), "refused 6 2 1\n");
}
