//! Plays calls on one block in work, by document 01.

use super::alteration::Alteration;
use super::call::Call;
use super::lengths::{Length, Lengths};
use super::text::{bytes_word, cells_word};
use crate::checker::{verdict, Refusal};
use crate::counts::{Place, Table, Ticket};
use crate::engine::{Answer, Block};
use crate::serial::serial_tables;

/// Where a set of tickets will stand in an answer.
const NO_SET: &str = "-";

/// The refusal of a table that has not 256 cells.
const WRONG_TABLE: Refusal = Refusal {
    number: 12,
    field: 0,
    place: Place(0),
};

/// The block in work, and what its altered lengths were.
#[derive(Clone, Debug)]
pub struct Player {
    pub block: Block,
    pub lengths: Lengths,
}

impl Player {
    /// Before the first opening: the block of a refused one.
    pub fn new() -> Player {
        Player {
            block: refused_block(),
            lengths: Lengths::default(),
        }
    }

    /// The answer to a call, or what was expected in its place; then nothing has changed.
    pub fn play(&mut self, call: &Call) -> Result<String, String> {
        match call {
            Call::Open { start, paper } => Ok(self.open(start, paper)),
            Call::Turn(ticket) => Ok(self.turn(*ticket)),
            Call::Turns { tickets, length } => Ok(self.turns(tickets, *length)),
            Call::Settled(cells) => Ok(self.settled(*cells)),
            Call::Serial {
                start,
                output,
                paper,
            } => Ok(serial(start, *output, paper)),
            Call::Alter(alteration) => self.altered(alteration),
        }
    }

    /// How many there are of something, as long as it was not raised past its limit.
    pub fn held(&self, length: Length) -> usize {
        self.lengths.held(&self.block, length)
    }

    fn altered(&mut self, alteration: &Alteration) -> Result<String, String> {
        self.alter(alteration).map(|()| "alter".to_string())
    }

    /// Opens a paper on a start table: 12, then the checker's verdict.
    fn open(&mut self, start: &[u64], paper: &[u8]) -> String {
        *self = Player::new();
        let jobs = table_of(start).and_then(|start| Ok((start, verdict(paper)?)));
        match jobs {
            Ok((start, jobs)) => {
                self.block = Block::open(start, jobs, None);
                "open 0 0 0".to_string()
            }
            Err(refusal) => format!("open {}", refusal_words(refusal)),
        }
    }

    fn turn(&mut self, ticket: u8) -> String {
        let answer = self.block.turn(Ticket(usize::from(ticket)));
        let word = match answer {
            Answer::NoSuchTicket => "none14",
            Answer::Stuck => "none20",
            _ => answer.word(),
        };
        format!("turn {word} {NO_SET} {}", self.block.final_jobs())
    }

    /// 15 unless the answers have room for one byte a turn, and no more.
    fn turns(&mut self, tickets: &[u8], length: usize) -> String {
        if length != tickets.len() {
            return format!("turns 15 - {NO_SET} {}", self.block.final_jobs());
        }
        let byte = |ticket: &u8| byte_of(self.block.turn(Ticket(usize::from(*ticket))));
        let bytes: Vec<u8> = tickets.iter().map(byte).collect();
        let f = self.block.final_jobs();
        format!("turns 0 {} {NO_SET} {f}", bytes_word(&bytes))
    }

    fn settled(&self, cells: usize) -> String {
        match self.block.settled_on_request(cells) {
            Ok((f, table)) => format!("settled 0 {f} {}", cells_word(&table)),
            Err(number) => format!("settled {number} 0 -"),
        }
    }
}

/// A block of no jobs on a table of zeros.
fn refused_block() -> Block {
    Block::open([0; 256], Vec::new(), None)
}

/// The table that is lent, if it has 256 cells.
fn table_of(cells: &[u64]) -> Result<Table, Refusal> {
    cells.try_into().map_err(|_| WRONG_TABLE)
}

/// A refusal's number, field and place.
fn refusal_words(refusal: Refusal) -> String {
    let Refusal {
        number,
        field,
        place,
    } = refusal;
    format!("{number} {field} {}", place.0)
}

/// The byte of a turn in a list: the six words in the order of the rules, then refusals.
fn byte_of(answer: Answer) -> u8 {
    match answer {
        Answer::Idle => 0,
        Answer::Back => 1,
        Answer::Step => 2,
        Answer::End => 3,
        Answer::Final => 4,
        Answer::Wait => 5,
        Answer::NoSuchTicket | Answer::Stuck => 6,
    }
}

/// The serial run of a paper: 12 for either table, then the checker's verdict.
fn serial(start: &[u64], output: usize, paper: &[u8]) -> String {
    match serial_table(start, output, paper) {
        Ok(table) => format!("serial 0 0 0 {}", cells_word(&table)),
        Err(refusal) => format!("serial {} -", refusal_words(refusal)),
    }
}

/// The table after all jobs.
fn serial_table(start: &[u64], output: usize, paper: &[u8]) -> Result<Table, Refusal> {
    let start = table_of(start)?;
    table_of(&vec![0; output])?;
    let jobs = verdict(paper)?;
    let tables = serial_tables(&start, &jobs).unwrap_or_default();
    // No checked job is stuck, so that there is a table after the last one.
    Ok(tables.last().copied().unwrap_or(start))
}
