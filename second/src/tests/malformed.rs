//! Refusal 13: any breach, before the block.

use super::{bytes, played};
use crate::session::play;

/// The text of many start values.
fn cells(count: usize) -> String {
    (0..count).map(|cell| format!("cell {cell} 1\n")).collect()
}

#[track_caller]
fn is_malformed(text: &str) {
    assert_eq!(played(text), "refused 13 0 0\n", "{text}");
}

#[test]
fn framing() {
    is_malformed("");
    is_malformed("bytes 10 00");
    is_malformed("bytes 02");
    is_malformed("bytes 02 01 00");
    is_malformed("turns 1\nbytes 00");
    is_malformed("turns 1\nbytes 02 00 00");
}

#[test]
fn tags_and_order() {
    is_malformed("bytes 00 00 00\nturns");
    is_malformed("bytes 11 00 00\nturns");
    is_malformed("job\nSTOP\ncell 1 1\nturns");
    is_malformed("turns\njob\nSTOP");
    is_malformed("turns\ncell 1 1");
    is_malformed("job\nSTOP");
    is_malformed("cell 1 1");
}

#[test]
fn start_values() {
    is_malformed("bytes 01 08 00 01 02 03 04 05 06 07 08\nturns");
    is_malformed("bytes 01 0a 00 01 02 03 04 05 06 07 08 09 0a\nturns");
    is_malformed("bytes 01 00 00\nturns");
    is_malformed("cell 5 1\ncell 5 1\nturns");
    is_malformed("cell 5 1\ncell 4 1\nturns");
    assert!(!played(&format!("{}turns", cells(256))).contains("refused"));
}

#[test]
fn turns() {
    is_malformed("job\nSTOP\nturns 1x4001");
    assert_eq!(played("job\nSTOP\nturns 1x4000").lines().count(), 4000);
}

#[test]
fn before_the_block() {
    is_malformed("job\nPOP\nSTOP\nturns 1x4001");
    is_malformed("cell 5 1\ncell 5 1\njob\nturns");
}

#[test]
fn at_most_16384_bytes() {
    let filler = |length: usize| {
        let head = format!("bytes 10 {:02x} {:02x}\n", length % 256, length / 256);
        head + &"bytes 00\n".repeat(length) + "turns\n"
    };
    let most = bytes(&filler(16_384 - 6));
    assert_eq!(most.len(), 16_384);
    assert_eq!(play(&most, None), "refused 4 1 0\n");
    is_malformed(&filler(16_384 - 5));
    is_malformed(&filler(65_535));
}

#[test]
fn the_largest_session_that_plays_has_16339_bytes() {
    let job = "job\n".to_string() + &"PUSH 1\nPOP\n".repeat(31) + "PUSH 1\nSTOP\n";
    let told = cells(256) + &job.repeat(16) + "turns 1x65 2x65 16x3870";
    assert_eq!(bytes(&told).len(), 16_339);
    let printed = played(&told);
    assert_eq!(printed.lines().count(), 4_000 + 256);
    assert!(printed.contains("\n2 final 2\n16 step 2\n"));
}
