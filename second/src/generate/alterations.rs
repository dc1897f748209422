//! Alterations of a block in work, each value just inside or just outside of what fits.

use crate::calls::alter::UNMARKED;
use crate::calls::alteration::{Alteration, Part};
use crate::calls::lengths::Length;
use crate::calls::player::Player;
use crate::counts::Ticket;
use crate::instruction::{Code, CODES, MOST_ENTRIES, MOST_INSTRUCTIONS, MOST_READS, MOST_WRITES};
use crate::random::Random;
use crate::work::{JobInWork, Phase};

/// The statuses of running and ended jobs, and of final ones.
const STATUSES: [u64; 5] = [0, 1, 2, 3, 255];

/// So often each part is chosen.
const WEIGHTS: [(Part, usize); 14] = [
    (Part::Count, 1),
    (Part::Size, 2),
    (Part::Code, 1),
    (Part::Operand, 1),
    (Part::Place, 1),
    (Part::Height, 2),
    (Part::Status, 2),
    (Part::Entry, 3),
    (Part::Writes, 1),
    (Part::Read, 2),
    (Part::Reads, 2),
    (Part::Mark, 1),
    (Part::Version, 4),
    (Part::Checkpoint, 8),
];

/// Chooses alterations that the block in work has.
pub struct Chooser<'a> {
    pub random: &'a mut Random,
    pub player: &'a Player,
}

impl Chooser<'_> {
    /// Some alteration that the block may have.
    pub fn choose(&mut self) -> Option<Alteration> {
        let weighed = WEIGHTS
            .iter()
            .flat_map(|(part, weight)| vec![*part; *weight]);
        let part = self.random.pick(&weighed.collect::<Vec<Part>>());
        if part == Part::Count {
            return Some(Alteration::of_count(self.around(Length::Jobs)));
        }
        let ticket = self.job_for(part)?;
        let values = self.values(part, ticket)?;
        Some(Alteration::of_job(part, ticket, &values))
    }

    /// A job that has a part; for a length one that is full, or marked twice, if there is one.
    fn job_for(&mut self, part: Part) -> Option<Ticket> {
        let full = self.some_job(|job| match part {
            Part::Size => job.code.len() == MOST_INSTRUCTIONS,
            Part::Height => job.state.stack.len() == MOST_ENTRIES,
            Part::Writes => job.journal.len() == MOST_WRITES,
            Part::Reads => job.reads.len() == MOST_READS || job.marks.len() > 1,
            _ => false,
        });
        full.or_else(|| {
            self.some_job(|job| match part {
                Part::Version => !job.public.is_empty(),
                Part::Entry => !job.journal.is_empty(),
                Part::Read | Part::Mark => !job.reads.is_empty(),
                Part::Checkpoint => job.reads.len() > 1,
                _ => true,
            })
        })
    }

    /// One of the block's jobs that are like this.
    fn some_job(&mut self, is: impl Fn(&JobInWork) -> bool) -> Option<Ticket> {
        let tickets = (1..=self.player.held(Length::Jobs)).map(Ticket);
        let like: Vec<Ticket> = tickets.filter(|ticket| is(self.job(*ticket))).collect();
        (!like.is_empty()).then(|| self.random.pick(&like))
    }

    fn job(&self, ticket: Ticket) -> &JobInWork {
        self.player.block.job(ticket)
    }

    /// How many there are of something.
    fn held(&self, length: Length) -> u64 {
        self.player.held(length) as u64
    }

    /// New values for a part of a job; none if the job has no such part.
    fn values(&mut self, part: Part, ticket: Ticket) -> Option<Vec<u64>> {
        Some(match part {
            Part::Count => return None,
            Part::Size => vec![self.size(ticket)],
            Part::Height => vec![self.around(Length::Height(ticket))],
            Part::Writes => vec![self.around(Length::Writes(ticket))],
            Part::Reads => vec![self.around(Length::Reads(ticket))],
            Part::Code => vec![self.place(ticket)?, self.code()],
            Part::Operand => {
                let place = self.place(ticket)?;
                let code = self.job(ticket).code[place as usize].code();
                let size = self.held(Length::Size(ticket));
                vec![place, self.operand(code, place, size)]
            }
            Part::Place => vec![self.name(Length::Size(ticket))],
            Part::Status => vec![self.random.pick(&STATUSES)],
            Part::Mark => vec![self.name(Length::Reads(ticket))],
            Part::Entry => {
                let entry = self.number(self.held(Length::Writes(ticket)))?;
                vec![entry, self.cell(), self.value()]
            }
            Part::Read => {
                let read = self.number(self.held(Length::Reads(ticket)))?;
                vec![read, self.cell(), self.source(ticket), self.value()]
            }
            Part::Version => {
                let version = self.number(self.job(ticket).public.len() as u64)?;
                vec![version, self.name(Length::Writes(ticket))]
            }
            Part::Checkpoint => self.checkpoint(ticket)?,
        })
    }

    /// A number from 0 among so many.
    fn number(&mut self, count: u64) -> Option<u64> {
        (count > 0).then(|| self.random.below(count as usize) as u64)
    }

    /// A length: what it is, one less, at its limit, just past it, far past it.
    fn around(&mut self, length: Length) -> u64 {
        let (held, limit) = (self.held(length), length.limit() as u64);
        let less = held.saturating_sub(1);
        let lengths = [held, less, limit, limit + 1, limit + 1, 255];
        self.random.pick(&lengths)
    }

    /// A size, also one at whose end the job stands, or past whose end.
    fn size(&mut self, ticket: Ticket) -> u64 {
        let place = self.job(ticket).state.place.0 as u64;
        let around = self.around(Length::Size(ticket));
        let sizes = [around, around, place + 1, place + 1, place];
        self.random.pick(&sizes)
    }

    /// What names one of those that there are: any, the last, just past the last, far past it, or
    /// the mark that is none.
    fn name(&mut self, length: Length) -> u64 {
        let count = self.held(length);
        let any = self.random.below(count as usize) as u64;
        let last = count.saturating_sub(1);
        let names = [any, any, last, count, count, 254, UNMARKED as u64];
        self.random.pick(&names)
    }

    /// The place of an instruction, most often the one that comes next.
    fn place(&mut self, ticket: Ticket) -> Option<u64> {
        let size = self.player.held(Length::Size(ticket));
        let here = self.job(ticket).state.place.0;
        match here < size && self.random.chance(60) {
            true => Some(here as u64),
            false => self.number(size as u64),
        }
    }

    /// A code: any that stands, the last, or one past it.
    fn code(&mut self) -> u64 {
        let (any, _) = self.random.pick(&CODES);
        self.random.pick(&[any as u64, any as u64, 13, 14, 255])
    }

    /// An operand at the edges of its column, for a code at a place of a job so long.
    fn operand(&mut self, code: Option<Code>, place: u64, size: u64) -> u64 {
        match code {
            Some(Code::Push) => self.random.pick(&[0, 5, 255, 256, u64::MAX]),
            Some(Code::Dup | Code::Swap) => self.random.pick(&[0, 1, 2, 15, 16, 255]),
            Some(Code::Jump | Code::JumpZero) => {
                let later = self.random.between(place as usize + 1, size as usize) as u64;
                self.random.pick(&[place, place + 1, later, size - 1, size])
            }
            _ => self.random.pick(&[0, 0, 0, 1, 255]),
        }
    }

    /// A cell: one of the few that jobs fight over, the last, or one past it.
    fn cell(&mut self) -> u64 {
        let few = self.random.below(8) as u64;
        self.random.pick(&[few, few, few, 255, 256, 65_535])
    }

    /// A source: the start table, a ticket around the job's own, or one that no job has.
    fn source(&mut self, ticket: Ticket) -> u64 {
        let own = ticket.0 as u64;
        let sources = [0, 0, 1, own - 1, own, 16, 17, 255];
        self.random.pick(&sources)
    }

    fn value(&mut self) -> u64 {
        self.random.pick(&[0, 1, 7, 256, u64::MAX])
    }

    /// A checkpoint with one of its counts altered.
    fn checkpoint(&mut self, ticket: Ticket) -> Option<Vec<u64>> {
        let reads = self.held(Length::Reads(ticket));
        let read = self.number(reads)?;
        let next = match self.job(ticket).reads.get(read as usize + 1) {
            Some(next) if read + 1 < reads => next.checkpoint.journal_length as u64,
            _ => self.held(Length::Writes(ticket)),
        };
        let mut values = checkpoint_values(self.job(ticket), read);
        let height = Length::CheckpointHeight(ticket, read as usize);
        let listed = [0, read / 2, read, read + 1, read + 1, 255];
        match self.random.below(6) {
            0 => values[1] = self.name(Length::Size(ticket)),
            1 => values[2] = self.around(height),
            2 | 3 => values[3] = self.random.pick(&[0, next, next, next + 1, next + 1, 255]),
            _ => values[4] = self.random.pick(&listed),
        }
        Some(values)
    }

    /// The alterations that put another instruction at a place of a job.
    pub fn choose_instruction(&mut self) -> Option<Vec<Alteration>> {
        let ticket = self.some_job(|_| true)?;
        let place = self.place(ticket)?;
        let (code, _) = self.random.pick(&CODES);
        let size = self.held(Length::Size(ticket));
        let operand = self.operand(Some(code), place, size);
        Some(self.instruction(ticket, place, code, operand))
    }

    /// The alterations that let a job go on with an instruction for which its full list, journal
    /// or stack may have no room.
    pub fn choose_room(&mut self) -> Option<Vec<Alteration>> {
        let is_full = |job: &JobInWork| {
            let reads_or_writes = job.reads.len() == MOST_READS || job.journal.len() == MOST_WRITES;
            reads_or_writes || job.state.stack.len() == MOST_ENTRIES
        };
        let ticket = self.some_job(is_full)?;
        let place = self.job(ticket).state.place.0 as u64;
        let codes = [Code::Read, Code::Write, Code::Push, Code::Dup];
        let code = self.random.pick(&codes);
        let operand = u64::from(code.takes_operand());
        let is_there = place < self.held(Length::Size(ticket));
        is_there.then(|| self.instruction(ticket, place, code, operand))
    }

    /// The alterations that put an instruction in another's place.
    fn instruction(&self, ticket: Ticket, place: u64, code: Code, operand: u64) -> Vec<Alteration> {
        // An operand that only a PUSH has room for is lowered first.
        let lowered = self.job(ticket).code[place as usize].operand > 255;
        let values = [
            (Part::Operand, lowered.then_some(0)),
            (Part::Code, Some(code as u64)),
            (Part::Operand, Some(operand)),
        ];
        let alter = |(part, value): (Part, Option<u64>)| {
            Some(Alteration::of_job(part, ticket, &[place, value?]))
        };
        values.into_iter().filter_map(alter).collect()
    }

    /// Makes a job final that has made something public, whatever the lower ones are.
    pub fn choose_final(&mut self) -> Option<Alteration> {
        let ticket = self.some_job(|job| !job.public.is_empty() && job.phase != Phase::Final)?;
        let status = self.random.pick(&STATUSES[2..]);
        Some(Alteration::of_job(Part::Status, ticket, &[status]))
    }

    /// Lets a checkpoint name fewer reads than there were.
    pub fn choose_fewer_reads(&mut self) -> Option<Alteration> {
        let ticket = self.some_job(|job| (2..=MOST_READS).contains(&job.reads.len()))?;
        let reads = self.player.held(Length::Reads(ticket));
        let read = self.random.between(1, reads.saturating_sub(1));
        let mut values = checkpoint_values(self.job(ticket), read as u64);
        values[4] = self.random.below(read) as u64;
        Some(Alteration::of_job(Part::Checkpoint, ticket, &values))
    }
}

/// An alteration after which the job's next turn shows what another one did: it goes back to an
/// altered checkpoint, or ends again with altered versions.
pub fn consequence(altered: &Alteration) -> Option<Alteration> {
    let values = &altered.values;
    let ticket = Ticket(*values.first()? as usize);
    let (part, value) = match altered.part {
        Part::Checkpoint | Part::Read => (Part::Mark, values[1]),
        Part::Version | Part::Entry | Part::Writes => (Part::Status, 0),
        _ => return None,
    };
    Some(Alteration::of_job(part, ticket, &[value]))
}

/// A checkpoint's number and its counts as they are.
fn checkpoint_values(job: &JobInWork, read: u64) -> Vec<u64> {
    let checkpoint = &job.reads[read as usize].checkpoint;
    let counts = [
        read as usize,
        checkpoint.state.place.0,
        checkpoint.state.stack.len(),
        checkpoint.journal_length,
        checkpoint.listed_reads,
    ];
    counts.map(|count| count as u64).to_vec()
}

/// The alteration that puts right what this one breaks, for a block that has it.
pub fn undoing(player: &Player, alteration: &Alteration) -> Alteration {
    let Alteration { part, values } = alteration;
    let held = |length| player.held(length) as u64;
    if *part == Part::Count {
        return Alteration::of_count(held(Length::Jobs));
    }
    let ticket = Ticket(values[0] as usize);
    let job = player.block.job(ticket);
    let number = values.get(1).copied().unwrap_or_default();
    let instruction = || job.code[number as usize];
    let old = match part {
        Part::Count => Vec::new(),
        Part::Size => vec![held(Length::Size(ticket))],
        Part::Height => vec![held(Length::Height(ticket))],
        Part::Writes => vec![held(Length::Writes(ticket))],
        Part::Reads => vec![held(Length::Reads(ticket))],
        Part::Code => vec![number, u64::from(instruction().code)],
        Part::Operand => vec![number, instruction().operand],
        Part::Place => vec![job.state.place.0 as u64],
        Part::Status => vec![status_of(job.phase)],
        Part::Mark => vec![job.marks.first().copied().unwrap_or(UNMARKED) as u64],
        Part::Entry | Part::Read => old_item(job, *part, number),
        Part::Version => old_version(job, number, values[2]),
        Part::Checkpoint => checkpoint_values(job, number),
    };
    Alteration::of_job(*part, ticket, &old)
}

fn status_of(phase: Phase) -> u64 {
    STATUSES[phase as usize]
}

/// A journal entry or a listed read as it is.
fn old_item(job: &JobInWork, part: Part, number: u64) -> Vec<u64> {
    if part == Part::Entry {
        let write = job.journal[number as usize];
        return vec![number, u64::from(write.cell.0), write.value];
    }
    let read = &job.reads[number as usize];
    let source = read.source.0 as u64;
    vec![number, u64::from(read.cell.0), source, read.value]
}

/// A version as it is, and the number that it will have once it is altered.
fn old_version(job: &JobInWork, number: u64, altered: u64) -> Vec<u64> {
    let old = job.public[number as usize];
    let others = job.public.iter().filter(|entry| **entry != old);
    let before = others.filter(|entry| (**entry as u64) < altered).count();
    vec![before as u64, old as u64]
}
