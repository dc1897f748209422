//! Sessions, and what 01's program prints for them.

use super::settled;
use crate::{Block, Refusal, Word, CELLS};

/// A start table, a paper and tickets.
pub struct Session<'a> {
    pub start: [u64; CELLS],
    pub paper: &'a [u8],
    pub tickets: &'a [u8],
}

/// A way to give tickets their turns; no word for a turn that was refused.
pub type Give = fn(&mut Block, &[u8]) -> Vec<Option<Word>>;

/// One turn a call.
pub fn turn_by_turn(block: &mut Block, tickets: &[u8]) -> Vec<Option<Word>> {
    tickets
        .iter()
        .map(|ticket| block.turn(*ticket).ok())
        .collect()
}

/// A word's text, `none` for a turn that was refused.
pub fn text_of(word: Option<Word>) -> String {
    word.map_or("none".to_string(), |word| word.to_string())
}

impl<'a> Session<'a> {
    /// The parts of a session that is not malformed.
    pub fn split(bytes: &'a [u8]) -> Session<'a> {
        let mut start = [0; CELLS];
        let mut rest = bytes;
        while let Some(([0x01, 9, 0, cell, value @ ..], after)) = rest.split_first_chunk::<12>() {
            start[usize::from(*cell)] = u64::from_le_bytes(*value);
            rest = after;
        }
        let mut length = 0;
        while let [0x10, low, high, ..] = rest[length..] {
            length += 3 + usize::from(u16::from_le_bytes([low, high]));
        }
        let (paper, turns) = rest.split_at(length);
        let tickets = &turns[3..];
        Session {
            start,
            paper,
            tickets,
        }
    }

    pub fn open(&self) -> Result<Block, Refusal> {
        Block::open(&self.start, self.paper)
    }

    /// What 01's program prints for it, its turns given in this way.
    pub fn played(&self, give: Give) -> String {
        let mut block = match self.open() {
            Ok(block) => block,
            Err(refusal) => return refused_line(refusal),
        };
        let words = give(&mut block, self.tickets);
        self.turn_lines(&words) + &cell_lines(&block)
    }

    /// A line for each turn: the ticket, its word, and the number of final words so far.
    fn turn_lines(&self, words: &[Option<Word>]) -> String {
        let mut f = 0;
        let lines = self.tickets.iter().zip(words).map(|(ticket, word)| {
            f += usize::from(*word == Some(Word::Final));
            format!("{ticket} {} {f}\n", text_of(*word))
        });
        lines.collect()
    }
}

/// The line of a session that is refused.
fn refused_line(refusal: Refusal) -> String {
    let Refusal {
        number,
        field,
        place,
    } = refusal;
    format!("refused {number} {field} {place}\n")
}

/// A line for each settled cell that is not 0.
fn cell_lines(block: &Block) -> String {
    let (table, _) = settled(block);
    let cells = table.iter().enumerate().filter(|(_, value)| **value != 0);
    cells
        .map(|(cell, value)| format!("cell {cell} {value}\n"))
        .collect()
}
