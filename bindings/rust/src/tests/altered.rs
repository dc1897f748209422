//! Blocks whose sizes do not fit: 20, and nothing is changed.

use super::paper::{paper, READER, WRITER};
use super::{give, opened, refusal};
use crate::layout::{self, Checkpoint, FEW};
use crate::{Block, CELLS};

/// What is altered, and how.
type Alteration = (&'static str, fn(&mut layout::Block));

const ALTERATIONS: [Alteration; 19] = [
    ("job count", |block| block.count = 17),
    ("instruction count", |block| block.jobs[0].size = 65),
    ("no instructions", |block| block.jobs[0].size = 0),
    ("code", |block| block.jobs[0].codes[1] = 14),
    ("operand", |block| block.jobs[0].arguments[2] = 1),
    ("place", |block| block.states[0].place = 4),
    ("place of ticket 2", |block| block.states[1].place = 255),
    ("stack", |block| block.states[0].stack.height = 17),
    ("journal", |block| block.journals[0].size = 9),
    ("its cell", |block| block.journals[0].entries[0].cell = 256),
    ("version", |block| block.versions[0].numbers[0] = 1),
    ("versions", |block| block.versions[0].size = 9),
    ("list of reads", |block| block.reads[1].size = 9),
    ("cell of a read", |block| block.reads[1].reads[0].cell = 256),
    ("mark", |block| block.reads[1].mark = 1),
    ("checkpoint's place", |block| {
        checkpoint(block).state.place = 5
    }),
    ("checkpoint's stack", |block| {
        checkpoint(block).state.stack.height = 17
    }),
    ("checkpoint's journal", |block| checkpoint(block).writes = 1),
    ("checkpoint's reads", |block| checkpoint(block).listed = 1),
];

/// The checkpoint of ticket 2's first read.
fn checkpoint(block: &mut layout::Block) -> &mut Checkpoint {
    &mut block.checkpoints[FEW]
}

/// Ticket 1 has ended, with a journal entry and a version; ticket 2 lists a read.
fn block() -> Block {
    let mut block = opened(&paper(&[&WRITER, &READER]));
    give(&mut block, &[1, 1, 1, 1, 2, 2]);
    block
}

#[test]
fn unaltered_it_goes_on() {
    assert_eq!(block().give_turns(&[1, 2]).iter().flatten().count(), 2);
}

#[test]
fn answers_20_and_stays() {
    for (what, alter) in ALTERATIONS {
        let mut block = block();
        alter(&mut block.work);
        let before = block.work.clone();
        for ticket in [1, 2] {
            assert_eq!(block.turn(ticket), Err(refusal(20, 0, 0)), "{what}");
        }
        assert_eq!(block.give_turns(&[1, 2, 0]), [None; 3], "{what}");
        assert!(block.work == before, "{what}");
    }
}

#[test]
fn has_no_settled_table() {
    for (what, alter) in ALTERATIONS {
        let mut block = block();
        alter(&mut block.work);
        let mut table = [9; CELLS];
        assert_eq!(block.settled(&mut table), Err(refusal(20, 0, 0)), "{what}");
        assert_eq!(table, [9; CELLS], "{what}");
    }
}

#[test]
fn a_bad_ticket_goes_before_20() {
    let mut block = block();
    block.work.states[0].place = 64;
    assert_eq!(block.turn(0), Err(refusal(14, 0, 0)));
    assert_eq!(block.turn(3), Err(refusal(14, 0, 0)));
}

#[test]
fn a_turn_that_needs_what_is_not_there() {
    let mut block = opened(&paper(&[&WRITER]));
    // The place of WRITE, with no entries for it.
    block.work.states[0].place = 2;
    let before = block.work.clone();
    assert_eq!(block.turn(1), Err(refusal(20, 0, 0)));
    assert!(block.work == before);
}
