//! A block in work, and the serial run of a paper.

use crate::layout;
use crate::raw;
use crate::refusal::Refusal;
use crate::word::{Word, REFUSED_TURN};
use std::fmt;

/// A block in work: a start table, and the jobs of a paper with what they have done so far.
#[derive(Clone)]
pub struct Block {
    /// Boxed, so that handing a block on does not copy its 38,696 bytes.
    pub(crate) work: Box<layout::Block>,
}

impl Block {
    /// Opens a paper on a start table, every job fresh. Refuses 12, then 1 to 11 with field and
    /// place.
    pub fn open(start: &[u64], paper: &[u8]) -> Result<Block, Refusal> {
        let mut work = Box::new(raw::NOTHING_OPEN);
        Refusal::in_answer(raw::open(&mut work, start, paper))?;
        Ok(Block { work })
    }

    /// The number of jobs; their tickets are 1 to this number.
    #[must_use]
    pub fn jobs(&self) -> u8 {
        self.work.count
    }

    /// Gives a ticket one turn. Refuses 14, then 20; the block is then as it was.
    pub fn turn(&mut self, ticket: u8) -> Result<Word, Refusal> {
        // The word stands where a refusal has its number; 14 and 20 are no words.
        let answer = Refusal::read(raw::turn(&mut self.work, ticket));
        Word::of_byte(answer.number).ok_or(answer)
    }

    /// Gives each ticket its turn, in order, and writes a byte for each: see [`Word::of_byte`].
    /// Refuses 15 unless there are as many bytes as tickets; block and bytes are then as they were.
    pub fn take_turns(&mut self, tickets: &[u8], words: &mut [u8]) -> Result<(), Refusal> {
        Refusal::in_answer(raw::take_turns(&mut self.work, tickets, words))
    }

    /// Gives each ticket its turn, in order: its word, or none for a turn that was refused.
    #[must_use = "a refused turn is told by its missing word alone"]
    pub fn give_turns(&mut self, tickets: &[u8]) -> Vec<Option<Word>> {
        let mut words = vec![REFUSED_TURN; tickets.len()];
        // As many bytes as tickets: there is nothing to refuse.
        raw::take_turns(&mut self.work, tickets, &mut words);
        words.into_iter().map(Word::of_byte).collect()
    }

    /// Writes the settled table whole and answers f, the number of final jobs. Refuses 12, then 20;
    /// the table is then as it was.
    pub fn settled(&self, table: &mut [u64]) -> Result<u8, Refusal> {
        let answer = raw::settled(&self.work, table);
        Refusal::in_answer(answer)?;
        // f stands where a refusal has its field.
        Ok(Refusal::read(answer).field)
    }
}

/// The jobs in work are too much to print.
impl fmt::Debug for Block {
    fn fmt(&self, out: &mut fmt::Formatter<'_>) -> fmt::Result {
        out.debug_struct("Block")
            .field("jobs", &self.jobs())
            .finish_non_exhaustive()
    }
}

/// Runs all jobs of a paper one after another and writes the output table whole. Refuses 12 for
/// either table, then 1 to 11 with field and place; the output is then as it was.
pub fn run_serially(start: &[u64], output: &mut [u64], paper: &[u8]) -> Result<(), Refusal> {
    Refusal::in_answer(raw::run_serially(start, output, paper))
}
