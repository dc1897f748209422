//! What stands both in the C header and here.

use super::refusal;
use crate::layout::Block;
use crate::REFUSED_TURN;
use std::mem::{align_of, size_of};

const HEADER: &str = include_str!("../../../../include/garvolish.h");
const README: &str = include_str!("../../../../README.md");

#[test]
fn the_block_has_its_size_and_alignment() {
    let (size, alignment) = (size_of::<Block>(), align_of::<Block>());
    assert!(HEADER.contains(&format!("#define GARVOLISH_BLOCK_SIZE {size}\n")));
    assert!(HEADER.contains(&format!("#define GARVOLISH_BLOCK_ALIGNMENT {alignment}\n")));
}

#[test]
fn a_refused_turn_has_its_byte() {
    assert!(HEADER.contains(&format!("GARVOLISH_REFUSED_TURN = {REFUSED_TURN} }}")));
}

/// The same rows to which bindings/c/run holds the header.
#[test]
fn every_refusal_has_its_meaning() {
    let none = refusal(0, 0, 0).meaning();
    let mut numbers = vec![];
    for number in 1..=u8::MAX {
        let meaning = refusal(number, 0, 0).meaning();
        if meaning != none {
            assert!(README.contains(&format!("\n| {number} | {meaning} |\n")));
            numbers.push(number);
        }
    }
    let refusals = [1, 2, 3, 4, 5, 6, 7, 8, 9, 10, 11, 12, 14, 15, 20];
    assert_eq!(numbers, refusals);
}
