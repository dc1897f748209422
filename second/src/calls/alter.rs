//! Alterations of the block in work, as a careless caller would make them.

use super::alteration::{Alteration, Part};
use super::lengths::Length;
use super::player::Player;
use crate::counts::{Cell, Place, Ticket};
use crate::instruction::{Code, Instruction};
use crate::machine::Write;
use crate::work::{JobInWork, ListedRead, Phase};

/// The mark of a job that has none.
pub const UNMARKED: usize = 255;

impl Player {
    /// Makes an alteration; changes nothing if the block as it is does not have it, and says what
    /// was expected.
    pub fn alter(&mut self, alteration: &Alteration) -> Result<(), String> {
        let Alteration { part, values } = alteration;
        let number = |index: usize| values[index] as usize;
        if *part == Part::Count {
            return self.alter_length(Length::Jobs, number(0));
        }
        let ticket = self.ticket(number(0))?;
        match part {
            Part::Size => self.alter_length(Length::Size(ticket), number(1)),
            Part::Height => self.alter_length(Length::Height(ticket), number(1)),
            Part::Writes => self.alter_length(Length::Writes(ticket), number(1)),
            Part::Reads => self.alter_length(Length::Reads(ticket), number(1)),
            Part::Code => self.alter_code(ticket, number(1), values[2] as u8),
            Part::Operand => self.alter_operand(ticket, number(1), values[2]),
            Part::Checkpoint => self.alter_checkpoint(ticket, number(1), &values[2..]),
            _ => self.alter_job(ticket, *part, &values[1..]),
        }
    }

    /// The ticket of one of the jobs that there are.
    fn ticket(&self, number: usize) -> Result<Ticket, String> {
        let jobs = self.held(Length::Jobs);
        match (1..=jobs).contains(&number) {
            true => Ok(Ticket(number)),
            false => Err(format!("expected one of the block's {jobs} tickets")),
        }
    }

    /// A number from 0 among those that there are.
    fn among(&self, number: usize, length: Length, what: &str) -> Result<usize, String> {
        let held = self.held(length);
        match number < held {
            true => Ok(number),
            false => Err(format!("expected one of the job's {held} {what}")),
        }
    }

    fn alter_length(&mut self, length: Length, to: usize) -> Result<(), String> {
        self.lengths.alter(&mut self.block, length, to)
    }

    /// One of the job's instructions.
    fn instruction(&mut self, ticket: Ticket, place: usize) -> Result<&mut Instruction, String> {
        let place = self.among(place, Length::Size(ticket), "instructions")?;
        Ok(&mut self.block.job_mut(ticket).code[place])
    }

    /// The operand stays as it is, and fits in a byte unless it is a PUSH's.
    fn alter_code(&mut self, ticket: Ticket, place: usize, code: u8) -> Result<(), String> {
        let instruction = self.instruction(ticket, place)?;
        let Instruction { operand, .. } = *instruction;
        *instruction = in_a_byte(Instruction { code, operand })?;
        Ok(())
    }

    fn alter_operand(&mut self, ticket: Ticket, place: usize, operand: u64) -> Result<(), String> {
        let instruction = self.instruction(ticket, place)?;
        let Instruction { code, .. } = *instruction;
        *instruction = in_a_byte(Instruction { code, operand })?;
        Ok(())
    }

    /// A checkpoint's place, height, writes and listed reads.
    fn alter_checkpoint(
        &mut self,
        ticket: Ticket,
        read: usize,
        counts: &[u64],
    ) -> Result<(), String> {
        let read = self.among(read, Length::Reads(ticket), "listed reads")?;
        let number = |index: usize| counts[index] as usize;
        self.alter_length(Length::CheckpointHeight(ticket, read), number(1))?;
        let checkpoint = &mut self.block.job_mut(ticket).reads[read].checkpoint;
        checkpoint.state.place = Place(number(0));
        checkpoint.journal_length = number(2);
        checkpoint.listed_reads = number(3);
        Ok(())
    }

    /// The parts of one job that are no lengths.
    fn alter_job(&mut self, ticket: Ticket, part: Part, values: &[u64]) -> Result<(), String> {
        let mut job = self.block.job(ticket).clone();
        let number = |index: usize| values[index] as usize;
        match part {
            Part::Place => job.state.place = Place(number(0)),
            Part::Status => job.phase = phase_of(number(0)),
            Part::Mark => {
                job.marks.clear();
                job.marks
                    .extend((number(0) != UNMARKED).then_some(number(0)));
            }
            Part::Entry => {
                let entry = self.among(number(0), Length::Writes(ticket), "journal entries")?;
                let cell = Cell(values[1] as u16);
                let value = values[2];
                job.journal[entry] = Write { cell, value };
            }
            Part::Read => {
                let read = self.among(number(0), Length::Reads(ticket), "listed reads")?;
                let read = &mut job.reads[read];
                read.cell = Cell(values[1] as u16);
                read.source = Ticket(number(2));
                read.value = values[3];
            }
            _ => {
                let versions = job.public.len();
                let version = job.public.get_mut(number(0));
                *version.ok_or(format!("expected one of the job's {versions} versions"))? =
                    number(1);
                job.public.sort_unstable();
            }
        }
        self.test_no_two(ticket, &job)?;
        *self.block.job_mut(ticket) = job;
        Ok(())
    }

    /// A job has no two versions of one cell, and no two reads of one cell with different values.
    fn test_no_two(&self, ticket: Ticket, job: &JobInWork) -> Result<(), String> {
        let writes = self.held(Length::Writes(ticket));
        let held = job.shown().filter(|(entry, _)| *entry < writes);
        let mut cells: Vec<Cell> = held.map(|(_, write)| write.cell).collect();
        let versions = cells.len();
        cells.sort_unstable();
        cells.dedup();
        if cells.len() != versions {
            return Err("expected no two versions of one cell".to_string());
        }
        let reads = &job.reads[..self.held(Length::Reads(ticket))];
        let differs = |read: &ListedRead| job.listed_value(read.cell) != Some(read.value);
        match reads.iter().any(differs) {
            true => Err("expected no two listed reads of one cell with two values".to_string()),
            false => Ok(()),
        }
    }
}

/// The instruction, if its operand is one that the block has room for.
fn in_a_byte(instruction: Instruction) -> Result<Instruction, String> {
    match instruction.is(Code::Push) || instruction.operand < 256 {
        true => Ok(instruction),
        false => Err("expected an operand below 256, for the code is not PUSH's".to_string()),
    }
}

/// 0 is running, 1 ended, all others final.
fn phase_of(status: usize) -> Phase {
    match status {
        0 => Phase::Running,
        1 => Phase::Ended,
        _ => Phase::Final,
    }
}
