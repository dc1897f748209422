//! Each instruction, by what a job of it leaves in the cells.

use super::{played, session};

/// The value that a job leaves in cell 1, given instructions that leave one entry.
fn left_by(instructions: &str) -> String {
    let told = session(&[&format!("{instructions}, PUSH 1, WRITE, STOP")], "1x64");
    let printed = played(&told);
    printed
        .rsplit_once("cell 1 ")
        .map_or("0".to_string(), |(_, value)| value.trim().to_string())
}

#[test]
fn two_operand_instructions_take_the_top_first() {
    assert_eq!(left_by("PUSH 2, PUSH 18446744073709551615, ADD"), "1");
    assert_eq!(left_by("PUSH 3, PUSH 5, SUB"), "2");
    assert_eq!(left_by("PUSH 5, PUSH 3, SUB"), "18446744073709551614");
    assert_eq!(left_by("PUSH 5, PUSH 3, LESS"), "1");
    assert_eq!(left_by("PUSH 3, PUSH 5, LESS"), "0");
    assert_eq!(left_by("PUSH 3, PUSH 3, LESS"), "0");
    assert_eq!(left_by("PUSH 3, PUSH 3, EQUAL"), "1");
    assert_eq!(left_by("PUSH 3, PUSH 4, EQUAL"), "0");
}

#[test]
fn dup_counts_the_top_as_1() {
    assert_eq!(left_by("PUSH 7, PUSH 8, PUSH 9, DUP 1"), "9");
    assert_eq!(left_by("PUSH 7, PUSH 8, PUSH 9, DUP 3"), "7");
}

#[test]
fn swap_counts_below_the_top() {
    assert_eq!(left_by("PUSH 7, PUSH 8, PUSH 9, SWAP 1"), "8");
    assert_eq!(left_by("PUSH 7, PUSH 8, PUSH 9, SWAP 2"), "7");
    assert_eq!(left_by("PUSH 7, PUSH 8, PUSH 9, SWAP 2, POP, POP"), "9");
}

#[test]
fn pop_drops_the_top() {
    assert_eq!(left_by("PUSH 7, PUSH 8, POP"), "7");
}

#[test]
fn write_pops_the_cell_and_then_the_value() {
    let told = session(&["PUSH 9, PUSH 4, WRITE, STOP"], "1x5");
    assert!(played(&told).ends_with("cell 4 9\n"));
}

#[test]
fn cells_are_modulo_256() {
    let told = session(
        &["PUSH 9, PUSH 260, WRITE, PUSH 516, READ, PUSH 5, WRITE, STOP"],
        "1x9",
    );
    assert!(played(&told).ends_with("cell 4 9\ncell 5 9\n"));
}

#[test]
fn jumpzero_pops_and_jumps_on_zero() {
    assert_eq!(left_by("PUSH 7, PUSH 0, JUMPZERO 5, POP, PUSH 8"), "7");
    assert_eq!(left_by("PUSH 7, PUSH 1, JUMPZERO 5, POP, PUSH 8"), "8");
}

#[test]
fn jump_goes_to_its_place() {
    let either = |value| format!("PUSH {value}, JUMPZERO 4, PUSH 8, JUMP 5, PUSH 9");
    assert_eq!(left_by(&either(1)), "8");
    assert_eq!(left_by(&either(0)), "9");
}

#[test]
fn abandon_keeps_no_writes() {
    let told = session(&["PUSH 9, PUSH 4, WRITE, ABANDON"], "1x5");
    assert!(played(&told).ends_with("1 end 0\n1 final 1\n"));
}

#[test]
fn the_last_write_of_a_cell_counts() {
    let told = "PUSH 1, PUSH 4, WRITE, PUSH 2, PUSH 4, WRITE, STOP";
    assert!(played(&session(&[told], "1x8")).ends_with("cell 4 2\n"));
}
