//! What is refused, and that nothing is changed then.

use super::paper::{paper, Instruction, READER, WRITER};
use super::paper::{ADD, JUMP, JUMPZERO, POP, PUSH, READ, STOP};
use super::{opened, refusal, settled, table};
use crate::{run_serially, Block, Refusal, Word, CELLS};

/// An opening on an all-zero table: the number of jobs, or the refusal.
fn checked(paper: &[u8]) -> Result<u8, Refusal> {
    Block::open(&table(&[]), paper).map(|block| block.jobs())
}

/// The same for a paper of one job.
fn checked_job(job: &[Instruction]) -> Result<u8, Refusal> {
    checked(&paper(&[job]))
}

/// A refused paper.
fn refused(number: u8, field: u8, place: u8) -> Result<u8, Refusal> {
    Err(refusal(number, field, place))
}

#[test]
fn a_start_table_of_a_wrong_length() {
    for cells in [0, 1, CELLS - 1, CELLS + 1] {
        // 12 goes before any fault of the paper.
        let (start, bad) = (vec![1; cells], [0x10]);
        let mut output = [9; CELLS];
        assert_eq!(Block::open(&start, &bad).err(), Some(refusal(12, 0, 0)));
        let ran = run_serially(&start, &mut output, &bad);
        assert_eq!(ran, Err(refusal(12, 0, 0)));
        assert_eq!(output, [9; CELLS]);
    }
}

#[test]
fn a_lent_table_of_a_wrong_length() {
    let (start, jobs) = (table(&[]), paper(&[&WRITER]));
    for cells in [0, 1, CELLS - 1, CELLS + 1] {
        let mut lent = vec![9; cells];
        let ran = run_serially(&start, &mut lent, &jobs);
        assert_eq!(ran, Err(refusal(12, 0, 0)));
        assert_eq!(opened(&jobs).settled(&mut lent), Err(refusal(12, 0, 0)));
        assert_eq!(lent, vec![9; cells]);
    }
}

#[test]
fn tickets_that_are_none_of_the_blocks() {
    let mut block = opened(&paper(&[&WRITER, &READER]));
    let before = block.work.clone();
    for ticket in [0, 3, 16, 17, 255] {
        assert_eq!(block.turn(ticket), Err(refusal(14, 0, 0)));
        assert_eq!(block.give_turns(&[ticket]), [None]);
    }
    assert!(block.work == before);
}

#[test]
fn bytes_that_are_not_as_many_as_the_tickets() {
    let mut block = opened(&paper(&[&WRITER]));
    let before = block.work.clone();
    for (tickets, bytes) in [(0, 1), (1, 0), (3, 2), (3, 4)] {
        let mut words = vec![9; bytes];
        let taken = block.take_turns(&vec![1; tickets], &mut words);
        assert_eq!(taken, Err(refusal(15, 0, 0)));
        assert_eq!(words, vec![9; bytes]);
    }
    assert_eq!(block.take_turns(&[], &mut []), Ok(()));
    assert!(block.work == before);
}

#[test]
fn heads_tags_and_lengths() {
    let sixteen = paper(&[&[(STOP, 0)][..]; 16]);
    let seventeen = [&sixteen[..], &[0x10, 0, 0]].concat();
    assert_eq!(checked(&[0x10, 0]), refused(1, 1, 0));
    assert_eq!(checked(&[0x10, 9, 0, 0]), refused(1, 1, 0));
    assert_eq!(checked(&[0x11, 0, 0]), refused(2, 1, 0));
    assert_eq!(checked(&seventeen), refused(3, 17, 0));
    assert_eq!(checked(&sixteen), Ok(16));
    assert_eq!(checked(&[0x10, 0, 0]), refused(4, 1, 0));
    assert_eq!(checked_job(&[(STOP, 0); 65]), refused(4, 1, 0));
}

#[test]
fn instructions() {
    let nine = [&[(PUSH, 0)][..], &[(READ, 0); 9], &[(STOP, 0)]].concat();
    assert_eq!(checked_job(&[(14, 0), (STOP, 0)]), refused(5, 1, 0));
    assert_eq!(checked_job(&[(JUMP, 0), (STOP, 0)]), refused(6, 1, 0));
    assert_eq!(checked_job(&[(JUMP, 1), (STOP, 0)]), Ok(1));
    assert_eq!(checked_job(&[(PUSH, 1), (PUSH, 2)]), refused(7, 1, 1));
    assert_eq!(checked_job(&nine), refused(11, 1, 9));
}

#[test]
fn heights() {
    let not_led = [(JUMP, 2), (STOP, 0), (STOP, 0)];
    let two_heights = [(PUSH, 0), (JUMPZERO, 3), (PUSH, 1), (STOP, 0)];
    let pushes = |count: usize| [&vec![(PUSH, 1); count][..], &[(STOP, 0)]].concat();
    assert_eq!(checked_job(&not_led), refused(8, 1, 1));
    assert_eq!(checked_job(&[(POP, 0), (STOP, 0)]), refused(9, 1, 0));
    assert_eq!(checked_job(&pushes(16)), Ok(1));
    assert_eq!(checked_job(&pushes(17)), refused(9, 1, 16));
    assert_eq!(checked_job(&two_heights), refused(10, 1, 3));
}

#[test]
fn a_bad_paper_leaves_the_output_of_a_serial_run() {
    let mut output = [9; CELLS];
    let bad = paper(&[&WRITER, &[(PUSH, 1), (ADD, 0), (STOP, 0)]]);
    let ran = run_serially(&table(&[]), &mut output, &bad);
    assert_eq!(ran, Err(refusal(9, 2, 1)));
    assert_eq!(output, [9; CELLS]);
}

#[test]
fn an_empty_paper_passes_and_is_done() {
    let mut block = Block::open(&table(&[(5, 3)]), &[]).expect("no jobs");
    assert_eq!(block.jobs(), 0);
    assert_eq!(block.turn(1), Err(refusal(14, 0, 0)));
    assert_eq!(settled(&block), (table(&[(5, 3)]), 0));
}

#[test]
fn texts() {
    let too_few = "refused 9, job 1, place 3: too few entries, or more than 16 left";
    let error: Box<dyn std::error::Error> = refusal(9, 1, 3).into();
    assert_eq!(error.to_string(), too_few);
    let bad_ticket = "refused 14: a ticket that is none of the block's";
    assert_eq!(refusal(14, 0, 0).to_string(), bad_ticket);
    assert_eq!(Word::Back.to_string(), "back");
    assert_eq!(format!("{:?}", opened(&[])), "Block { jobs: 0, .. }");
}
