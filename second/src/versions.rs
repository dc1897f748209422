//! Public versions: what a READ finds, what an end makes public or withdraws, and who is marked.

use crate::counts::{Cell, Table, Ticket, CELLS};
use crate::engine::Block;
use crate::log::{Event, ToldRead};
use crate::rule::Rule;
use crate::work::ListedRead;
use std::collections::BTreeSet;

impl Block {
    /// The settled table: each cell's public version with the greatest ticket from 1 to f,
    /// failing that the start table's value.
    pub fn settled(&self) -> Table {
        let mut table = self.start;
        // Tickets rise, so that of several versions the one with the greatest ticket stays.
        for job in self.jobs.iter().take(self.final_jobs()) {
            // Of two versions of one cell the first in the list is shown, so it is put in last.
            for (_, write) in job.shown().rev() {
                table[write.cell.index()] = write.value;
            }
        }
        table
    }

    /// What a lent table of so many cells gets, with f; or refusal 12, then 20.
    pub fn settled_on_request(&self, cells: usize) -> Result<(usize, Table), u8> {
        if cells != CELLS {
            return Err(12);
        }
        if !self.fits() {
            return Err(20);
        }
        Ok((self.final_jobs(), self.settled()))
    }

    /// The public version of a cell with the greatest ticket below this one, and its value; or
    /// ticket 0 and the start table's value.
    pub fn newest_version_below(&self, ticket: Ticket, cell: Cell) -> (Ticket, u64) {
        for source in (1..ticket.0).rev().map(Ticket) {
            if let Some(value) = self.job(source).public_value(cell) {
                return (source, value);
            }
        }
        (Ticket(0), self.start[cell.index()])
    }

    /// STOP: makes public, for each cell in the journal, the last entry.
    pub fn publish(&mut self, ticket: Ticket) {
        let journal = &self.job(ticket).journal;
        let cells: BTreeSet<Cell> = journal.iter().map(|write| write.cell).collect();
        for cell in cells {
            let before = self.job(ticket).public_version(cell);
            let before = before.map(|(entry, _)| entry);
            let Some(entry) = self.job(ticket).last_entry(cell) else {
                continue;
            };
            if before.is_some() && !self.keeps(Rule::StopReplacesPublicVersion) {
                continue;
            }
            self.job_mut(ticket).make_public(entry, before);
            self.note_published(ticket, entry, before);
            if before != Some(entry) || !self.keeps(Rule::StopMarksForOtherEntryOnly) {
                self.mark_readers_of_older(ticket, cell);
            }
        }
    }

    /// ABANDON: withdraws all its public versions; the journal stays, for a later rollback.
    pub fn abandon(&mut self, ticket: Ticket) {
        if self.keeps(Rule::AbandonWithdraws) {
            let cells = self.job_mut(ticket).withdraw_from(0);
            if self.keeps(Rule::AbandonMarksReaders) {
                self.mark_readers_of_withdrawn(ticket, &cells);
            }
        }
        if !self.keeps(Rule::AbandonKeepsJournal) {
            self.job_mut(ticket).journal.clear();
        }
    }

    /// Marks each higher job where it lists a read of a withdrawn cell with this very source.
    pub fn mark_readers_of_withdrawn(&mut self, ticket: Ticket, cells: &[Cell]) {
        for cell in cells {
            self.log.note(Event::Withdrew(*cell));
            self.mark_higher(ticket, |read| read.cell == *cell && read.source == ticket);
        }
    }

    /// Marks each higher job where it lists a read of the cell with this source or a lower one,
    /// whatever the value.
    fn mark_readers_of_older(&mut self, ticket: Ticket, cell: Cell) {
        let older_too = self.keeps(Rule::StopMarksReadersOfOlder);
        let equal_too = self.keeps(Rule::StopMarksForEqualValue);
        let value = self.job(ticket).public_value(cell);
        self.mark_higher(ticket, |read| {
            let concerns = read.cell == cell && read.source <= ticket;
            let is_own = read.source == ticket;
            let is_equal = Some(read.value) == value;
            concerns && (older_too || is_own) && (equal_too || !is_equal)
        });
    }

    /// Marks the listed reads of higher jobs that the test picks.
    fn mark_higher(&mut self, ticket: Ticket, picks: impl Fn(&ListedRead) -> bool) {
        for (index, job) in self.jobs.iter_mut().enumerate().skip(ticket.0) {
            let reads = job.reads.iter().enumerate();
            for (number, read) in reads.filter(|(_, read)| picks(read)) {
                let told = ToldRead::of(read);
                self.log.note(Event::Marked(Ticket(index + 1), told));
                job.marks.insert(number);
            }
        }
    }
}
