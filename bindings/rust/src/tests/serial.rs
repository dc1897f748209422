//! Once all jobs are final, the settled table is the serial run of all jobs.

use super::paper::Random;
use super::{give, settled, table};
use crate::{run_serially, Block, Word, CELLS};

/// A job of 64 instructions is final within 65 turns once all lower tickets are.
const ENOUGH: usize = 65;

/// Makes all jobs final, ticket by ticket, and compares with the serial run.
pub fn finish_and_compare(block: &mut Block, start: &[u64], paper: &[u8]) {
    for ticket in 1..=block.jobs() {
        give(block, &[ticket; ENOUGH]);
    }
    let mut serial = [0; CELLS];
    assert_eq!(run_serially(start, &mut serial, paper), Ok(()));
    assert_eq!(settled(block), (serial, block.jobs()));
}

#[test]
fn of_random_papers_and_turns() {
    let mut random = Random(1);
    let mut backs = 0;
    for _ in 0..200 {
        let (start, paper) = (table(&[(0, 1), (3, 40)]), random.paper());
        let mut block = Block::open(&start, &paper).expect("a paper that passes");
        let words = block.give_turns(&random.tickets(block.jobs(), 300));
        backs += words
            .iter()
            .filter(|word| **word == Some(Word::Back))
            .count();
        finish_and_compare(&mut block, &start, &paper);
    }
    assert!(backs > 1_000, "only {backs} turns went back");
}
