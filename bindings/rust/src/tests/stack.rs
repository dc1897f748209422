//! How much stack the calls take.

use super::paper::{paper, READER};
use super::serial::finish_and_compare;
use super::{opened, table};
use crate::{Block, Word};
use std::thread;

const HALF_A_MEGABYTE: usize = 512 * 1024;

/// Every call once at least: reads that search all lower tickets, and an opening that is refused.
fn all_calls() {
    let sixteen = paper(&[&READER[..]; 16]);
    let mut block = opened(&sixteen);
    for ticket in (1..=16).rev().flat_map(|ticket| [ticket; 2]) {
        assert_eq!(block.turn(ticket), Ok(Word::Step));
    }
    finish_and_compare(&mut block, &table(&[]), &sixteen);
    assert!(Block::open(&table(&[]), &[0x10]).is_err());
}

#[test]
fn half_a_megabyte_is_enough() {
    let small = thread::Builder::new().stack_size(HALF_A_MEGABYTE);
    let worker = small.spawn(all_calls).expect("a thread");
    assert!(worker.join().is_ok());
}
