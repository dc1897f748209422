//! How much jobs get in each other's way, to choose among random sessions.

use crate::counts::{Cell, Table, Ticket};
use crate::engine::{Answer, Block};
use crate::instruction::Job;
use crate::work::JobInWork;
use std::collections::BTreeMap;

/// A version withdrawn or replaced at an end is rarer than a rollback, and counts so much more.
const RARER: usize = 20;

/// Counts rollbacks, and versions that a job's own later end withdraws or replaces.
pub fn trouble(start: &Table, jobs: &[Job], turns: &[u8]) -> usize {
    let mut block = Block::open(*start, jobs.to_vec(), None);
    let mut trouble = 0;
    for ticket in turns.iter().map(|turn| Ticket(usize::from(*turn))) {
        let before = versions(&block, ticket);
        let answer = block.turn(ticket);
        let after = versions(&block, ticket);
        let changed = before
            .iter()
            .filter(|(cell, entry)| after.get(cell) != Some(entry));
        trouble += match answer {
            Answer::Back => 1,
            Answer::End => RARER * changed.count(),
            _ => 0,
        };
    }
    trouble
}

/// The job's public versions: for each cell the journal entry.
fn versions(block: &Block, ticket: Ticket) -> BTreeMap<Cell, usize> {
    let job = ticket
        .0
        .checked_sub(1)
        .and_then(|index| block.jobs.get(index));
    let shown = job.into_iter().flat_map(JobInWork::shown);
    shown.map(|(entry, write)| (write.cell, entry)).collect()
}
