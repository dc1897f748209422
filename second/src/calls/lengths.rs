//! The lengths of a block in work that an alteration may raise past their limits.

use crate::counts::{Cell, Ticket};
use crate::engine::Block;
use crate::instruction::{
    Code, Instruction, MOST_ENTRIES, MOST_INSTRUCTIONS, MOST_JOBS, MOST_READS, MOST_WRITES,
};
use crate::machine::{State, Write};
use crate::work::{Checkpoint, JobInWork, ListedRead};
use std::collections::BTreeMap;

/// A count or a height of the block.
#[derive(Clone, Copy, Debug, PartialEq, Eq, PartialOrd, Ord)]
pub enum Length {
    Jobs,
    Size(Ticket),
    Height(Ticket),
    Writes(Ticket),
    Reads(Ticket),
    /// The height of the checkpoint of the read with this number.
    CheckpointHeight(Ticket, usize),
}

impl Length {
    /// What fits at most.
    pub fn limit(self) -> usize {
        match self {
            Length::Jobs => MOST_JOBS,
            Length::Size(_) => MOST_INSTRUCTIONS,
            Length::Height(_) | Length::CheckpointHeight(..) => MOST_ENTRIES,
            Length::Writes(_) => MOST_WRITES,
            Length::Reads(_) => MOST_READS,
        }
    }

    /// What it is now.
    fn now(self, block: &Block) -> usize {
        match self {
            Length::Jobs => block.jobs.len(),
            Length::Size(ticket) => block.job(ticket).code.len(),
            Length::Height(ticket) => block.job(ticket).state.stack.len(),
            Length::Writes(ticket) => block.job(ticket).journal.len(),
            Length::Reads(ticket) => block.job(ticket).reads.len(),
            Length::CheckpointHeight(ticket, read) => {
                let read = &block.job(ticket).reads[read];
                read.checkpoint.state.stack.len()
            }
        }
    }

    /// Cuts it, or fills it up with what nobody looks at.
    fn set(self, block: &mut Block, length: usize) {
        match self {
            Length::Jobs => {
                let filler = JobInWork::fresh(Vec::new());
                block.jobs.resize(length, filler);
            }
            Length::Size(ticket) => {
                let filler = Instruction::new(Code::Stop, 0);
                block.job_mut(ticket).code.resize(length, filler);
            }
            Length::Height(ticket) => block.job_mut(ticket).state.stack.resize(length, 0),
            Length::Writes(ticket) => {
                let (cell, value) = (Cell(0), 0);
                let filler = Write { cell, value };
                block.job_mut(ticket).journal.resize(length, filler);
            }
            Length::Reads(ticket) => block.job_mut(ticket).reads.resize(length, no_read()),
            Length::CheckpointHeight(ticket, read) => {
                let read = &mut block.job_mut(ticket).reads[read];
                read.checkpoint.state.stack.resize(length, 0);
            }
        }
    }
}

/// What stands in a list of reads past those that were listed.
fn no_read() -> ListedRead {
    let checkpoint = Checkpoint {
        state: State::fresh(),
        journal_length: 0,
        listed_reads: 0,
    };
    ListedRead {
        cell: Cell(0),
        source: Ticket(0),
        value: 0,
        checkpoint,
    }
}

/// What the lengths were that are past their limits now.
#[derive(Clone, Debug, Default)]
pub struct Lengths {
    before: BTreeMap<Length, usize>,
    /// Whether the number of jobs was ever lowered.
    jobs_lowered: bool,
}

impl Lengths {
    /// How many there are: a length past its limit counts as what it was before it was raised.
    pub fn held(&self, block: &Block, length: Length) -> usize {
        let now = length.now(block);
        match now <= length.limit() {
            true => now,
            false => self.before.get(&length).copied().unwrap_or(now),
        }
    }

    /// Whether a length may be altered so, or what was expected.
    fn test(&self, block: &Block, length: Length, to: usize) -> Result<(), String> {
        let held = self.held(block, length);
        let past = length.limit() + 1;
        if to <= held {
            return Ok(());
        }
        if length == Length::Jobs && self.jobs_lowered {
            return Err(format!(
                "expected a number from 0 to {held}, for the number of jobs was lowered"
            ));
        }
        match to >= past {
            true => Ok(()),
            false => Err(format!(
                "expected a number from 0 to {held} or from {past} to 255"
            )),
        }
    }

    /// Alters a length, if it may be altered so.
    pub fn alter(&mut self, block: &mut Block, length: Length, to: usize) -> Result<(), String> {
        self.test(block, length, to)?;
        let held = self.held(block, length);
        self.jobs_lowered |= length == Length::Jobs && to < held;
        self.before.insert(length, held);
        length.set(block, to);
        Ok(())
    }
}
