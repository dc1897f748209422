//! Session S, as 01 gives it.

use super::paper::{paper, READER, WRITER};
use super::session::{text_of, turn_by_turn, Session};
use super::{settled, table};
use crate::{Block, Word, REFUSED_TURN};

const EXPECTED: &str = include_str!("../../../../examples/session-s.expected");
const TICKETS: [u8; 16] = [2, 2, 1, 1, 1, 1, 2, 2, 2, 2, 2, 2, 1, 2, 2, 3];

fn block() -> Block {
    Block::open(&table(&[(5, 3)]), &paper(&[&WRITER, &READER])).expect("two jobs that pass")
}

#[test]
fn prints_what_01_gives() {
    let session = Session {
        start: table(&[(5, 3)]),
        paper: &paper(&[&WRITER, &READER]),
        tickets: &TICKETS,
    };
    assert_eq!(session.played(turn_by_turn), EXPECTED);
    assert_eq!(session.played(Block::give_turns), EXPECTED);
}

#[test]
fn the_settled_table_has_f_after_every_turn() {
    let mut block = block();
    for (ticket, line) in TICKETS.into_iter().zip(EXPECTED.lines()) {
        let word = text_of(block.turn(ticket).ok());
        let (_, f) = settled(&block);
        assert_eq!(format!("{ticket} {word} {f}"), line);
    }
    assert_eq!(settled(&block), (table(&[(5, 7), (6, 7)]), 2));
}

#[test]
fn a_byte_for_each_turn() {
    let mut bytes = [9; TICKETS.len()];
    assert_eq!(block().take_turns(&TICKETS, &mut bytes), Ok(()));
    let words = [2, 2, 2, 2, 2, 3, 1, 2, 2, 2, 3, 5, 4, 4, 0, REFUSED_TURN];
    assert_eq!(bytes, words);
}

#[test]
fn a_clone_goes_its_own_way() {
    let mut block = block();
    let mut clone = block.clone();
    assert_eq!(clone.give_turns(&TICKETS).len(), TICKETS.len());
    assert_eq!(settled(&block), (table(&[(5, 3)]), 0));
    assert_eq!(block.turn(1), Ok(Word::Step));
    assert_eq!(clone.turn(1), Ok(Word::Idle));
}
