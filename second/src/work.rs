//! A job in work: its place, stack, journal, list of reads with checkpoints, and public versions.

use crate::counts::{Cell, Place, Ticket};
use crate::instruction::{
    Instruction, Job, MOST_ENTRIES, MOST_INSTRUCTIONS, MOST_READS, MOST_WRITES,
};
use crate::machine::{State, Write};
use std::collections::BTreeSet;

/// A job is running, ended or final.
#[derive(Clone, Copy, Debug, PartialEq, Eq)]
pub enum Phase {
    Running,
    Ended,
    Final,
}

/// What a job returns to: made before a listed read.
#[derive(Clone, Debug, PartialEq, Eq)]
pub struct Checkpoint {
    pub state: State,
    pub journal_length: usize,
    pub listed_reads: usize,
}

/// A read of another job's version, or of the start table as ticket 0.
#[derive(Clone, Debug, PartialEq, Eq)]
pub struct ListedRead {
    pub cell: Cell,
    pub source: Ticket,
    pub value: u64,
    pub checkpoint: Checkpoint,
}

/// One job of a block in work.
#[derive(Clone, Debug, PartialEq, Eq)]
pub struct JobInWork {
    pub code: Job,
    pub phase: Phase,
    pub state: State,
    pub journal: Vec<Write>,
    pub reads: Vec<ListedRead>,
    /// The numbers of its marked reads.
    pub marks: BTreeSet<usize>,
    /// Its public versions: each is the number of a journal entry, whose cell and value it shows.
    pub public: Vec<usize>,
}

impl JobInWork {
    /// The fresh state of a job.
    pub fn fresh(code: Job) -> JobInWork {
        JobInWork {
            code,
            phase: Phase::Running,
            state: State::fresh(),
            journal: Vec::new(),
            reads: Vec::new(),
            marks: BTreeSet::new(),
            public: Vec::new(),
        }
    }

    /// The instruction at its place.
    pub fn instruction(&self) -> Option<Instruction> {
        self.code.get(self.state.place.0).copied()
    }

    /// The number of its last journal entry for a cell.
    pub fn last_entry(&self, cell: Cell) -> Option<usize> {
        self.journal.iter().rposition(|write| write.cell == cell)
    }

    /// What its public versions show, in the order of the list.
    pub fn shown(&self) -> impl DoubleEndedIterator<Item = (usize, Write)> + '_ {
        let entry = |number: &usize| Some((*number, *self.journal.get(*number)?));
        self.public.iter().filter_map(entry)
    }

    /// Its public version of a cell, the first in the list: the entry's number and the entry.
    pub fn public_version(&self, cell: Cell) -> Option<(usize, Write)> {
        self.shown().find(|(_, write)| write.cell == cell)
    }

    /// The value of its public version of a cell.
    pub fn public_value(&self, cell: Cell) -> Option<u64> {
        self.public_version(cell).map(|(_, write)| write.value)
    }

    /// Makes a journal entry public, in place of another if one is named.
    pub fn make_public(&mut self, entry: usize, replaced: Option<usize>) {
        self.public
            .retain(|shown| *shown != entry && Some(*shown) != replaced);
        self.public.push(entry);
        self.public.sort_unstable();
    }

    /// Withdraws the public versions from this journal entry on, and tells their cells.
    pub fn withdraw_from(&mut self, entry: usize) -> Vec<Cell> {
        let withdrawn = self.shown().filter(|(number, _)| *number >= entry);
        let cells = withdrawn.map(|(_, write)| write.cell).collect();
        self.public.retain(|shown| *shown < entry);
        cells
    }

    /// The value that its list of reads has for a cell.
    pub fn listed_value(&self, cell: Cell) -> Option<u64> {
        let read = self.reads.iter().find(|read| read.cell == cell)?;
        Some(read.value)
    }

    /// Whether it is marked at any read.
    pub fn is_marked(&self) -> bool {
        !self.marks.is_empty()
    }

    /// Makes a checkpoint of where it stands and lists the read.
    pub fn list_read(&mut self, cell: Cell, source: Ticket, value: u64) {
        let checkpoint = Checkpoint {
            state: self.state.clone(),
            journal_length: self.journal.len(),
            listed_reads: self.reads.len(),
        };
        self.reads.push(ListedRead {
            cell,
            source,
            value,
            checkpoint,
        });
    }

    /// Returns to a checkpoint: loses the reads from there on, is unmarked and running.
    pub fn return_to(&mut self, checkpoint: Checkpoint) {
        self.state = checkpoint.state;
        self.reads.truncate(checkpoint.listed_reads);
        self.marks.clear();
        self.phase = Phase::Running;
    }

    /// Whether its sizes fit: every count within its limit, every name an entry that it holds.
    pub fn fits(&self) -> bool {
        let counts = self.code.len() <= MOST_INSTRUCTIONS
            && self.journal.len() <= MOST_WRITES
            && self.reads.len() <= MOST_READS;
        counts
            && self.code_fits()
            && self.state_fits(&self.state)
            && self.cells_fit()
            && self.names_fit()
            && self.checkpoints_fit()
    }

    /// Whether no instruction breaks 5 or 6.
    fn code_fits(&self) -> bool {
        let fits = |(index, instruction): (usize, &Instruction)| {
            let operand_fits = instruction.operand_fits(Place(index), self.code.len());
            instruction.code().is_some() && operand_fits
        };
        self.code.iter().enumerate().all(fits)
    }

    /// Whether a place is in the job, which no place is if it has none, and a stack within its limit.
    pub fn state_fits(&self, state: &State) -> bool {
        state.place.0 < self.code.len() && state.stack.len() <= MOST_ENTRIES
    }

    /// Whether every cell that it names is one of the 256.
    fn cells_fit(&self) -> bool {
        let written = self.journal.iter().all(|write| write.cell.is_in_table());
        written && self.reads.iter().all(|read| read.cell.is_in_table())
    }

    /// Whether every version names a journal entry, and the earliest mark, which alone counts, a
    /// listed read.
    fn names_fit(&self) -> bool {
        let shown = self.public.iter().all(|entry| *entry < self.journal.len());
        shown
            && self
                .marks
                .first()
                .is_none_or(|read| *read < self.reads.len())
    }

    /// Whether each checkpoint is one of the job as it was before its read: it names no read but
    /// those before, and no more journal entries than the job held at the next checkpoint.
    fn checkpoints_fit(&self) -> bool {
        let mut held_later = self.journal.len();
        self.reads.iter().enumerate().rev().all(|(number, read)| {
            let checkpoint = &read.checkpoint;
            let writes_fit = checkpoint.journal_length <= held_later;
            held_later = checkpoint.journal_length;
            writes_fit && checkpoint.listed_reads <= number && self.state_fits(&checkpoint.state)
        })
    }
}
