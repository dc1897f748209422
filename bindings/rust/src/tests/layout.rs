//! A block in work, read field by field where the library has put it.

use super::paper::{paper, PUSH, READER, WRITE, WRITER};
use super::{give, table};
use crate::layout::{Checkpoint, Entry, Read, FEW};
use crate::Block;

/// Ticket 1 has ended; ticket 2 has written cell 8 and read cell 5, and stands before a WRITE.
fn block() -> Block {
    let reader = [&[(PUSH, 1), (PUSH, 8), (WRITE, 0)], &READER[..]].concat();
    let jobs = paper(&[&WRITER, &reader]);
    let mut block = Block::open(&table(&[(9, 4)]), &jobs).expect("two jobs that pass");
    give(&mut block, &[1, 1, 1, 1, 2, 2, 2, 2, 2, 2]);
    block
}

#[test]
fn jobs_and_states() {
    let work = block().work;
    assert_eq!((work.start[9], work.count), (4, 2));
    assert_eq!((work.jobs[0].size, work.jobs[1].size), (4, 8));
    assert_eq!((work.jobs[1].codes[5], work.jobs[1].pushed[5]), (PUSH, 6));
    assert_eq!((work.status[0], work.status[1]), (1, 0));
    assert_eq!((work.states[0].place, work.states[1].place), (3, 6));
    let stack = work.states[1].stack;
    assert_eq!((stack.height, &stack.entries[..2]), (2, &[7, 6][..]));
}

#[test]
fn journal_and_version() {
    let work = block().work;
    let Entry { cell, value } = work.journals[0].entries[0];
    assert_eq!((work.journals[0].size, cell, value), (1, 5, 7));
    assert_eq!((work.versions[0].size, work.versions[0].numbers[0]), (1, 0));
}

#[test]
fn read_mark_and_checkpoint() {
    let work = block().work;
    assert_eq!((work.reads[1].size, work.reads[1].mark), (1, 255));
    let Read {
        cell,
        source,
        value,
    } = work.reads[1].reads[0];
    assert_eq!((cell, source, value), (5, 1, 7));
    let Checkpoint {
        state,
        writes,
        listed,
    } = work.checkpoints[FEW];
    assert_eq!((state.place, writes, listed), (4, 1, 0));
    assert_eq!((state.stack.height, state.stack.entries[0]), (1, 5));
}
