//! What happened in a session, turn by turn: the engine's events, each joined to the turns it
//! came from.

use crate::checker::Refusal;
use crate::counts::{Cell, Place, Ticket};
use crate::engine::{Answer, Block};
use crate::instruction::Instruction;
use crate::log::{Before, Event, Found, Log, Return, ToldRead};
use crate::machine::{State, Write};
use crate::session::{cell_lines, open_session, turn_line};
use std::collections::BTreeMap;

/// One turn; its number in the session is its index from 1.
pub struct Turn {
    pub ticket: Ticket,
    pub answer: Answer,
    /// f after the turn.
    pub f: usize,
    /// Where the job stood before the turn and what it is after it; none without such a job.
    pub job: Option<Moved>,
    pub deeds: Vec<Deed>,
}

/// A job's place and instruction before a turn, and its state after it.
pub struct Moved {
    pub place: Place,
    pub instruction: Instruction,
    pub after: State,
}

/// One thing that a turn did.
pub enum Deed {
    /// A READ, and the turn that published or listed what it found; none for the start table
    /// and the journal.
    Read(Cell, Found, Option<usize>),
    Wrote(Write),
    Changed(Change),
    WentBack(Back),
}

/// A version that was published, left public or withdrawn, and who was marked by that.
pub struct Change {
    pub write: Write,
    pub how: How,
    pub marks: Vec<Mark>,
}

/// In which way the public version of a cell changed.
pub enum How {
    Newly,
    /// In place of the entry with this value.
    InPlaceOf(u64),
    /// By the same entry as before.
    Left,
    Withdrawn,
}

/// A higher job's listed read that was marked.
pub struct Mark {
    pub reader: Ticket,
    pub read: ToldRead,
    /// The turn that listed the read.
    pub listed: usize,
    /// Whether it had been marked before.
    pub again: bool,
}

/// What marked a read: a turn, its ticket, and what it did with the read's cell.
#[derive(Clone, Copy)]
pub struct Cause {
    pub turn: usize,
    pub ticket: Ticket,
    pub withdrew: bool,
}

/// A return to a checkpoint, the turn that had listed the marked read, and what had marked it.
pub struct Back {
    pub lost: Return,
    pub listed: usize,
    pub causes: Vec<Cause>,
}

/// A job's listed read of a cell, or its public version of it.
type Key = (Ticket, Cell);

/// A session that was played to its last turn.
pub struct Story {
    pub turns: Vec<Turn>,
    /// As the last turn left it.
    pub block: Block,
    memory: Memory,
}

/// What stands after the turns so far, with the turns it came from.
#[derive(Default)]
struct Memory {
    /// The turn of each listed read.
    listed: BTreeMap<Key, usize>,
    /// The value of each public version, and the turn that published it.
    public: BTreeMap<Key, (u64, usize)>,
    marks: BTreeMap<Key, Vec<Cause>>,
}

impl Story {
    /// Plays a session; a refusal if it is refused.
    pub fn of(input: &[u8]) -> Result<Story, Refusal> {
        let (mut block, tickets) = open_session(input, None)?;
        block.log = Log::kept();
        let mut story = Story {
            turns: Vec::new(),
            block,
            memory: Memory::default(),
        };
        for &ticket in tickets {
            story.give(Ticket(usize::from(ticket)));
        }
        Ok(story)
    }

    /// Gives a ticket the next turn.
    fn give(&mut self, ticket: Ticket) {
        let number = self.turns.len() + 1;
        let index = ticket.0.checked_sub(1);
        let before = index.and_then(|index| self.block.jobs.get(index));
        let stood = before.and_then(|job| Some((job.state.place, job.instruction()?)));
        let answer = self.block.turn(ticket);
        let job = stood.map(|(place, instruction)| Moved {
            place,
            instruction,
            after: self.block.job(ticket).state.clone(),
        });
        let events = self.block.log.take();
        self.turns.push(Turn {
            ticket,
            answer,
            f: self.block.final_jobs(),
            job,
            deeds: self.memory.deeds(number, ticket, events),
        });
    }

    /// The lines that playing the session prints.
    pub fn played(&self) -> String {
        let turns = self.turns.iter();
        let lines: String = turns
            .map(|turn| turn_line(turn.ticket, turn.answer, turn.f))
            .collect();
        lines + &cell_lines(&self.block.settled())
    }

    /// What marked a job's listed read of a cell, as it stands at the end.
    pub fn causes(&self, ticket: Ticket, cell: Cell) -> &[Cause] {
        self.memory.causes(ticket, cell)
    }

    /// The times that a job went back, each with its turn.
    pub fn backs(&self, ticket: Ticket) -> Vec<(usize, &Back)> {
        let turns = self.turns.iter().enumerate();
        let own = turns.filter(|(_, turn)| turn.ticket == ticket);
        own.filter_map(|(index, turn)| Some((index + 1, turn.back()?)))
            .collect()
    }
}

impl Turn {
    /// The return to a checkpoint, if the turn made one.
    pub fn back(&self) -> Option<&Back> {
        self.deeds.iter().find_map(|deed| match deed {
            Deed::WentBack(back) => Some(back),
            _ => None,
        })
    }

    /// What it published, left public or withdrew.
    pub fn changes(&self) -> impl Iterator<Item = &Change> {
        self.deeds.iter().filter_map(|deed| match deed {
            Deed::Changed(change) => Some(change),
            _ => None,
        })
    }
}

impl Memory {
    fn causes(&self, ticket: Ticket, cell: Cell) -> &[Cause] {
        self.marks.get(&(ticket, cell)).map_or(&[], Vec::as_slice)
    }

    /// The turn that listed a read which stands.
    fn listed(&self, ticket: Ticket, cell: Cell) -> usize {
        self.listed.get(&(ticket, cell)).copied().unwrap_or(0)
    }

    /// What a turn's events mean, with what stood before; what stands is then renewed.
    fn deeds(&mut self, turn: usize, ticket: Ticket, events: Vec<Event>) -> Vec<Deed> {
        let mut deeds = Vec::new();
        for event in events {
            let deed = match event {
                Event::Read(cell, found) => self.read(turn, ticket, cell, found),
                Event::Wrote(write) => Deed::Wrote(write),
                Event::Published(write, before) => self.published(turn, ticket, write, before),
                Event::Withdrew(cell) => self.withdrew(ticket, cell),
                Event::WentBack(lost) => self.went_back(ticket, lost),
                Event::Marked(reader, read) => {
                    self.marked(turn, ticket, reader, read, deeds.last_mut());
                    continue;
                }
            };
            deeds.push(deed);
        }
        deeds
    }

    fn read(&mut self, turn: usize, ticket: Ticket, cell: Cell, found: Found) -> Deed {
        let from = match found {
            Found::Journal(_) => None,
            Found::Listed(_) => Some(self.listed(ticket, cell)),
            Found::Version(source, _) => {
                self.listed.insert((ticket, cell), turn);
                self.public.get(&(source, cell)).map(|(_, turn)| *turn)
            }
        };
        Deed::Read(cell, found, from)
    }

    fn published(&mut self, turn: usize, ticket: Ticket, write: Write, before: Before) -> Deed {
        let key = (ticket, write.cell);
        let how = match (before, self.public.get(&key)) {
            (Before::SameEntry, _) => How::Left,
            (Before::AnotherEntry, Some((value, _))) => How::InPlaceOf(*value),
            _ => How::Newly,
        };
        if before != Before::SameEntry {
            self.public.insert(key, (write.value, turn));
        }
        Deed::Changed(Change::new(write, how))
    }

    fn withdrew(&mut self, ticket: Ticket, cell: Cell) -> Deed {
        let public = self.public.remove(&(ticket, cell));
        let (value, _) = public.unwrap_or_default();
        Deed::Changed(Change::new(Write { cell, value }, How::Withdrawn))
    }

    fn went_back(&mut self, ticket: Ticket, lost: Return) -> Deed {
        let first = lost.reads.first().map(|read| read.cell);
        let listed = first.map_or(0, |cell| self.listed(ticket, cell));
        let causes = first.map_or(Vec::new(), |cell| self.causes(ticket, cell).to_vec());
        for read in &lost.reads {
            self.listed.remove(&(ticket, read.cell));
            self.marks.remove(&(ticket, read.cell));
        }
        Deed::WentBack(Back {
            lost,
            listed,
            causes,
        })
    }

    /// Adds a mark to the publishing or withdrawing that came just before it.
    fn marked(
        &mut self,
        turn: usize,
        ticket: Ticket,
        reader: Ticket,
        read: ToldRead,
        last: Option<&mut Deed>,
    ) {
        let Some(Deed::Changed(change)) = last else {
            return;
        };
        let causes = self.marks.entry((reader, read.cell)).or_default();
        let again = !causes.is_empty();
        causes.push(Cause {
            turn,
            ticket,
            withdrew: matches!(change.how, How::Withdrawn),
        });
        change.marks.push(Mark {
            reader,
            read,
            listed: self.listed(reader, read.cell),
            again,
        });
    }
}

impl Change {
    fn new(write: Write, how: How) -> Change {
        let marks = Vec::new();
        Change { write, how, marks }
    }
}
