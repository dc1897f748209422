//! What the turns of a block do, noted as the engine does it: for those who tell of a session.

use crate::counts::{Cell, Place, Ticket};
use crate::engine::Block;
use crate::machine::Write;
use crate::work::{Checkpoint, JobInWork, ListedRead};

/// Where a READ finds its value.
#[derive(Clone, Copy, Debug, PartialEq, Eq)]
pub enum Found {
    /// In the job's own last journal entry for the cell.
    Journal(u64),
    /// In the job's own listed read of the cell.
    Listed(u64),
    /// In a public version, or in the start table as ticket 0; only this read is listed.
    Version(Ticket, u64),
}

impl Found {
    /// The value that was found.
    pub fn value(self) -> u64 {
        match self {
            Found::Journal(value) | Found::Listed(value) | Found::Version(_, value) => value,
        }
    }
}

/// A listed read as it is told of: without its checkpoint.
#[derive(Clone, Copy, Debug, PartialEq, Eq)]
pub struct ToldRead {
    pub cell: Cell,
    pub source: Ticket,
    pub value: u64,
}

impl ToldRead {
    /// What is told of a listed read.
    pub fn of(read: &ListedRead) -> ToldRead {
        ToldRead {
            cell: read.cell,
            source: read.source,
            value: read.value,
        }
    }
}

/// One thing that a turn did.
#[derive(Clone, Debug, PartialEq, Eq)]
pub enum Event {
    Read(Cell, Found),
    Wrote(Write),
    /// STOP has this entry public, which another or the same entry may have been before.
    Published(Write, Before),
    Withdrew(Cell),
    /// A higher job is marked at a listed read, by the publishing or withdrawing noted before.
    Marked(Ticket, ToldRead),
    WentBack(Return),
}

/// What was public of a cell before a STOP.
#[derive(Clone, Copy, Debug, PartialEq, Eq)]
pub enum Before {
    Nothing,
    AnotherEntry,
    SameEntry,
}

/// A job's return to a checkpoint: the place there, and what it lost, the marked read first.
#[derive(Clone, Debug, PartialEq, Eq)]
pub struct Return {
    pub place: Place,
    pub reads: Vec<ToldRead>,
    pub entries: Vec<Write>,
}

impl Return {
    /// What a job loses that now returns to one of its checkpoints.
    pub fn of(job: &JobInWork, checkpoint: &Checkpoint) -> Return {
        let reads = job.reads.iter().skip(checkpoint.listed_reads);
        let entries = job.journal.iter().skip(checkpoint.journal_length);
        Return {
            place: checkpoint.state.place,
            reads: reads.map(ToldRead::of).collect(),
            entries: entries.copied().collect(),
        }
    }
}

/// The events since they were last taken; nothing is kept unless asked for.
#[derive(Clone, Debug, Default, PartialEq, Eq)]
pub struct Log(Option<Vec<Event>>);

impl Log {
    /// A log that keeps what is noted.
    pub fn kept() -> Log {
        Log(Some(Vec::new()))
    }

    /// Notes an event, if events are kept.
    pub fn note(&mut self, event: Event) {
        if let Some(events) = &mut self.0 {
            events.push(event);
        }
    }

    /// The events so far, which are then forgotten.
    pub fn take(&mut self) -> Vec<Event> {
        self.0.as_mut().map(std::mem::take).unwrap_or_default()
    }
}

impl Block {
    /// Notes that a job's journal entry is public, and what was so before.
    pub fn note_published(&mut self, ticket: Ticket, entry: usize, before: Option<usize>) {
        let before = match before {
            None => Before::Nothing,
            Some(old) if old == entry => Before::SameEntry,
            Some(_) => Before::AnotherEntry,
        };
        let write = self.job(ticket).journal[entry];
        self.log.note(Event::Published(write, before));
    }
}
