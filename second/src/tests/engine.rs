//! Turns on a block in work: what a session does not show, and blocks that a caller has altered.

use super::paper;
use crate::checker::verdict;
use crate::counts::{Cell, Place, Ticket};
use crate::engine::{Answer, Block};
use crate::instruction::{Code, Instruction};
use crate::machine::Write;
use crate::work::{JobInWork, Phase};

/// A block in work with all cells 0.
fn block(jobs: &[&str]) -> Block {
    let jobs = verdict(&paper(jobs)).expect("a sound paper");
    Block::open([0; 256], jobs, None)
}

/// Gives one ticket several turns.
fn give(block: &mut Block, ticket: usize, times: usize) -> Vec<Answer> {
    (0..times).map(|_| block.turn(Ticket(ticket))).collect()
}

const WRITER: &str = "PUSH 7, PUSH 5, WRITE, STOP";
const READER: &str = "PUSH 5, READ, PUSH 6, WRITE, STOP";

#[test]
fn only_a_version_or_the_start_table_is_listed() {
    let twice = "PUSH 5, READ, PUSH 5, READ, ADD, PUSH 5, WRITE, PUSH 5, READ, POP, STOP";
    let mut block = block(&[WRITER, twice]);
    give(&mut block, 2, 10);
    let job = block.job(Ticket(2));
    assert_eq!(job.reads.len(), 1);
    assert_eq!(job.reads[0].source, Ticket(0));
    let checkpoint = &job.reads[0].checkpoint;
    assert_eq!(checkpoint.state.place, Place(1));
    assert_eq!(checkpoint.state.stack, vec![5]);
    assert_eq!((checkpoint.journal_length, checkpoint.listed_reads), (0, 0));
}

#[test]
fn the_version_with_the_greatest_ticket_below_is_read() {
    let mut block = block(&[WRITER, "PUSH 8, PUSH 5, WRITE, STOP", READER, WRITER]);
    for ticket in [1, 2, 4] {
        give(&mut block, ticket, 4);
    }
    give(&mut block, 3, 2);
    let read = &block.job(Ticket(3)).reads[0];
    assert_eq!((read.source, read.value), (Ticket(2), 8));
}

#[test]
fn a_lower_version_does_not_mark_the_reader_of_a_higher_one() {
    let mut block = block(&[WRITER, "PUSH 8, PUSH 5, WRITE, STOP", READER]);
    give(&mut block, 2, 4);
    give(&mut block, 3, 5);
    give(&mut block, 1, 4);
    assert!(!block.job(Ticket(3)).is_marked());
}

#[test]
fn going_back_restores_the_checkpoint_and_keeps_the_earlier_reads() {
    let reader = "PUSH 1, PUSH 4, READ, PUSH 3, WRITE, PUSH 5, READ, POP, STOP";
    let mut block = block(&[WRITER, reader]);
    give(&mut block, 2, 9);
    give(&mut block, 1, 4);
    assert_eq!(give(&mut block, 2, 1), [Answer::Back]);
    let job = block.job(Ticket(2));
    assert_eq!(job.phase, Phase::Running);
    assert_eq!(job.state.place, Place(6));
    assert_eq!(job.state.stack, vec![1, 5]);
    assert_eq!((job.reads.len(), job.journal.len()), (1, 1));
    assert_eq!(job.public, [0], "entry 0 was not lost");
    assert!(!job.is_marked());
}

#[test]
fn the_first_error_as_01_tells_it() {
    let told = "PUSH 9, PUSH 1, WRITE, PUSH 5, READ, JUMPZERO 7, ABANDON, STOP";
    let mut block = block(&[WRITER, told, "PUSH 1, READ, PUSH 6, WRITE, STOP"]);
    give(&mut block, 2, 7);
    give(&mut block, 3, 2);
    assert_eq!(block.job(Ticket(3)).reads[0].value, 9);
    give(&mut block, 1, 4);
    assert_eq!(give(&mut block, 2, 1), [Answer::Back]);
    assert_eq!(block.job(Ticket(2)).state.place, Place(4));
    give(&mut block, 2, 2);
    assert_eq!(block.job(Ticket(2)).public_value(Cell(1)), Some(9));
    assert!(!block.job(Ticket(3)).is_marked());
    assert_eq!(give(&mut block, 2, 1), [Answer::End]);
    assert_eq!(block.job(Ticket(2)).public_value(Cell(1)), None);
    assert!(block.job(Ticket(3)).is_marked());
    give(&mut block, 3, 5);
    for ticket in [1, 2, 3] {
        assert_eq!(give(&mut block, ticket, 1), [Answer::Final]);
    }
    let settled = block.settled();
    assert_eq!((settled[5], settled[1], settled[6]), (7, 0, 0));
}

#[test]
fn ticket_14_comes_before_20_and_nothing_changes() {
    let mut altered = block(&[WRITER]);
    altered.jobs[0].state.place = Place(4);
    let before = altered.clone();
    assert_eq!(altered.turn(Ticket(0)), Answer::NoSuchTicket);
    assert_eq!(altered.turn(Ticket(2)), Answer::NoSuchTicket);
    assert_eq!(altered.turn(Ticket(1)), Answer::Stuck);
    assert_eq!(altered, before);
}

/// Job 2 of two, ended after one listed read, is altered; then job 1 is given a turn.
#[track_caller]
fn is_stuck_after(alter: impl Fn(&mut JobInWork)) {
    let mut altered = block(&[WRITER, READER]);
    give(&mut altered, 2, 5);
    alter(&mut altered.jobs[1]);
    let before = altered.clone();
    assert_eq!(altered.turn(Ticket(1)), Answer::Stuck);
    assert_eq!(altered, before);
}

#[test]
fn sizes_that_do_not_fit_answer_20() {
    let write = Write {
        cell: Cell(1),
        value: 1,
    };
    is_stuck_after(|job| job.state.place = Place(5));
    is_stuck_after(|job| job.state.stack = vec![0; 17]);
    is_stuck_after(|job| job.journal = vec![write; 9]);
    is_stuck_after(|job| job.reads = vec![job.reads[0].clone(); 9]);
    is_stuck_after(|job| job.code.clear());
    is_stuck_after(|job| job.code = vec![Instruction::new(Code::Stop, 0); 65]);
    is_stuck_after(|job| job.code[0].code = 14);
    is_stuck_after(|job| job.code[1].operand = 1);
    is_stuck_after(|job| job.journal.clear());
    is_stuck_after(|job| job.reads[0].checkpoint.journal_length = 2);
    is_stuck_after(|job| job.reads[0].checkpoint.listed_reads = 2);
    is_stuck_after(|job| job.reads[0].checkpoint.state.place = Place(5));
    is_stuck_after(|job| job.reads[0].checkpoint.state.stack = vec![0; 17]);
}

#[test]
fn a_missing_entry_place_or_room_answers_20() {
    let alone = |instruction: Instruction, alter: &dyn Fn(&mut JobInWork)| {
        let mut altered = block(&["PUSH 1, STOP"]);
        altered.jobs[0].code[0] = instruction;
        alter(&mut altered.jobs[0]);
        let before = altered.clone();
        let answer = altered.turn(Ticket(1));
        assert_eq!(altered, before);
        answer
    };
    let nothing = |_: &mut JobInWork| ();
    for code in [Code::Pop, Code::Add, Code::Read, Code::Write] {
        assert_eq!(alone(Instruction::new(code, 0), &nothing), Answer::Stuck);
    }
    for code in [Code::Dup, Code::Swap, Code::JumpZero] {
        assert_eq!(alone(Instruction::new(code, 1), &nothing), Answer::Stuck);
    }
    let push = Instruction::new(Code::Push, 1);
    assert_eq!(
        alone(push, &|job| job.state.stack = vec![0; 16]),
        Answer::Stuck
    );
    assert_eq!(alone(push, &|job| job.code.truncate(1)), Answer::Stuck);
    let write = Write {
        cell: Cell(1),
        value: 1,
    };
    let full = |job: &mut JobInWork| {
        job.journal = vec![write; 8];
        job.state.stack = vec![0; 2];
    };
    assert_eq!(
        alone(Instruction::new(Code::Write, 0), &full),
        Answer::Stuck
    );
}

#[test]
fn too_many_jobs_do_not_fit() {
    let mut altered = block(&["STOP"; 16]);
    let extra = altered.jobs[0].clone();
    altered.jobs.push(extra);
    assert_eq!(altered.turn(Ticket(1)), Answer::Stuck);
}

#[test]
fn of_two_versions_of_one_cell_the_first_in_the_list_is_shown() {
    let twice = "PUSH 1, PUSH 5, WRITE, PUSH 2, PUSH 5, WRITE, STOP";
    let mut altered = block(&[twice, READER]);
    give(&mut altered, 1, 8);
    assert_eq!(altered.jobs[0].public, [1]);
    altered.jobs[0].public = vec![0, 1];
    assert_eq!(
        altered
            .settled_on_request(256)
            .map(|(f, table)| (f, table[5])),
        Ok((1, 1))
    );
    assert_eq!(give(&mut altered, 2, 2), [Answer::Step, Answer::Step]);
    assert_eq!(altered.job(Ticket(2)).reads[0].value, 1);
}
