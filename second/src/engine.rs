//! The block in work, and the rules of one turn.

use crate::counts::{Cell, Table, Ticket};
use crate::instruction::{Code, Instruction, Job, MOST_JOBS, MOST_READS, MOST_WRITES};
use crate::log::{Event, Found, Log, Return};
use crate::machine::{cell_to_read, run, Write};
use crate::rule::Rule;
use crate::work::{JobInWork, Phase};

/// What a turn answers.
#[derive(Clone, Copy, Debug, PartialEq, Eq)]
pub enum Answer {
    Idle,
    Back,
    Step,
    End,
    Final,
    Wait,
    /// Refusal 14.
    NoSuchTicket,
    /// Refusal 20.
    Stuck,
}

impl Answer {
    /// The turn's word in a session's output.
    pub fn word(self) -> &'static str {
        match self {
            Answer::Idle => "idle",
            Answer::Back => "back",
            Answer::Step => "step",
            Answer::End => "end",
            Answer::Final => "final",
            Answer::Wait => "wait",
            Answer::NoSuchTicket | Answer::Stuck => "none",
        }
    }
}

/// A block in work: the start table and the jobs, ticket 1 first.
#[derive(Clone, Debug, PartialEq, Eq)]
pub struct Block {
    pub start: Table,
    pub jobs: Vec<JobInWork>,
    /// The rule that a mutant breaks; none in the right engine.
    pub broken: Option<Rule>,
    /// What its turns did, for those who tell of it.
    pub log: Log,
}

impl Block {
    /// The block in work before the first turn.
    pub fn open(start: Table, jobs: Vec<Job>, broken: Option<Rule>) -> Block {
        let jobs = jobs.into_iter().map(JobInWork::fresh).collect();
        Block {
            start,
            jobs,
            broken,
            log: Log::default(),
        }
    }

    /// f, the number of final jobs.
    pub fn final_jobs(&self) -> usize {
        let is_final = |job: &&JobInWork| job.phase == Phase::Final;
        self.jobs.iter().filter(is_final).count()
    }

    /// One turn for a ticket: 14, then 20, then the six rules in order.
    pub fn turn(&mut self, ticket: Ticket) -> Answer {
        if ticket.0 == 0 || ticket.0 > self.jobs.len() {
            return Answer::NoSuchTicket;
        }
        // A mutant may break its own sizes; it shall go on and err.
        if self.broken.is_none() && !self.fits() {
            return Answer::Stuck;
        }
        let job = self.job(ticket);
        if job.phase == Phase::Final {
            return Answer::Idle;
        }
        if job.is_marked() && self.tests_mark_now(job) {
            return self.go_back(ticket);
        }
        if job.phase == Phase::Running {
            return self.advance(ticket);
        }
        let lower = &self.jobs[..ticket.0 - 1];
        if lower.iter().all(|job| job.phase == Phase::Final) {
            self.job_mut(ticket).phase = Phase::Final;
            return Answer::Final;
        }
        Answer::Wait
    }

    /// The job with this ticket, which is from 1 to the number of jobs.
    pub fn job(&self, ticket: Ticket) -> &JobInWork {
        &self.jobs[ticket.0 - 1]
    }

    /// The same, to be amended.
    pub fn job_mut(&mut self, ticket: Ticket) -> &mut JobInWork {
        &mut self.jobs[ticket.0 - 1]
    }

    /// Whether this engine keeps a rule: always, but for a mutant.
    pub fn keeps(&self, rule: Rule) -> bool {
        self.broken != Some(rule)
    }

    /// Whether the sizes of the block fit.
    pub fn fits(&self) -> bool {
        self.jobs.len() <= MOST_JOBS && self.jobs.iter().all(JobInWork::fits)
    }

    /// Whether this turn looks at the mark.
    fn tests_mark_now(&self, job: &JobInWork) -> bool {
        let code = job.instruction().and_then(Instruction::code);
        self.keeps(Rule::MarkTestedAtEveryTurn)
            || job.phase == Phase::Ended
            || matches!(code, Some(Code::Read | Code::Write))
    }

    /// back: returns to the checkpoint of the earliest marked read; loses that read, all later
    /// ones and the journal past the checkpoint; withdraws the versions from lost entries.
    fn go_back(&mut self, ticket: Ticket) -> Answer {
        let job = self.job(ticket);
        let mark = match self.keeps(Rule::BackToEarliestMark) {
            true => job.marks.first(),
            false => job.marks.last(),
        };
        let Some(read) = mark.and_then(|mark| job.reads.get(*mark)) else {
            return Answer::Stuck;
        };
        let checkpoint = read.checkpoint.clone();
        let lost = Return::of(job, &checkpoint);
        self.log.note(Event::WentBack(lost));
        if self.keeps(Rule::BackLosesJournal) {
            self.lose_journal_from(ticket, checkpoint.journal_length);
        }
        self.job_mut(ticket).return_to(checkpoint);
        Answer::Back
    }

    /// Loses the journal from this entry on, and withdraws the versions that came from there.
    fn lose_journal_from(&mut self, ticket: Ticket, entry: usize) {
        if self.keeps(Rule::BackWithdrawsLostVersions) {
            let cells = self.job_mut(ticket).withdraw_from(entry);
            self.mark_readers_of_withdrawn(ticket, &cells);
        }
        self.job_mut(ticket).journal.truncate(entry);
    }

    /// step or end, by the instruction of a running job.
    fn advance(&mut self, ticket: Ticket) -> Answer {
        let Some(instruction) = self.job(ticket).instruction() else {
            return Answer::Stuck;
        };
        match instruction.code() {
            Some(Code::Stop) => self.publish(ticket),
            Some(Code::Abandon) => self.abandon(ticket),
            _ => return self.step(ticket, instruction),
        }
        self.job_mut(ticket).phase = Phase::Ended;
        Answer::End
    }

    /// step: one instruction; nothing changes if an entry, a place or room is not there.
    fn step(&mut self, ticket: Ticket, instruction: Instruction) -> Answer {
        let job = self.job(ticket);
        let cell = cell_to_read(instruction, &job.state);
        let found = cell.map(|cell| self.find(ticket, cell));
        let value = found.map_or(0, Found::value);
        let Some((after, write)) = run(instruction, &job.state, value) else {
            return Answer::Stuck;
        };
        let lists = matches!(found, Some(Found::Version(..)));
        let read_room = !lists || job.reads.len() < MOST_READS;
        let write_room = write.is_none() || job.journal.len() < MOST_WRITES;
        if !job.state_fits(&after) || !read_room || !write_room {
            return Answer::Stuck;
        }
        if let (Some(cell), Some(found)) = (cell, found) {
            self.log.note(Event::Read(cell, found));
            if let Found::Version(source, value) = found {
                self.job_mut(ticket).list_read(cell, source, value);
            }
        }
        if let Some(write) = write {
            self.log.note(Event::Wrote(write));
            self.add_to_journal(ticket, write);
        }
        self.job_mut(ticket).state = after;
        Answer::Step
    }

    /// What a READ of a cell finds: the job's own value, failing that the public version with
    /// the greatest ticket below its own.
    fn find(&self, ticket: Ticket, cell: Cell) -> Found {
        let job = self.job(ticket);
        if let Some(entry) = job.last_entry(cell) {
            return Found::Journal(job.journal[entry].value);
        }
        if let Some(value) = job.listed_value(cell) {
            return Found::Listed(value);
        }
        let (source, value) = self.newest_version_below(ticket, cell);
        Found::Version(source, value)
    }

    /// WRITE only adds to the journal.
    fn add_to_journal(&mut self, ticket: Ticket, write: Write) {
        let keeps_every_write = self.keeps(Rule::JournalKeepsEveryWrite);
        let job = self.job_mut(ticket);
        match job.last_entry(write.cell) {
            Some(entry) if !keeps_every_write => job.journal[entry] = write,
            _ => job.journal.push(write),
        }
    }
}
