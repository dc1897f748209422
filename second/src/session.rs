//! Playing a session: the input's fields, the turns, and the text that is put out.

use crate::checker::{verdict, Refusal};
use crate::counts::{Place, Table, Ticket};
use crate::engine::{Answer, Block};
use crate::field::{split_field, Field, CELL_TAG, HEAD_BYTES, JOB_TAG, TAGS, TURNS_TAG};
use crate::instruction::low_byte_first;
use crate::rule::Rule;

/// At most so many bytes in a session.
pub const MOST_BYTES: usize = 16_384;
/// At most so many turns in a session.
pub const MOST_TURNS: usize = 4_000;

/// The contents of a start value's field: the cell, then 8 bytes of value.
pub const CELL_BYTES: usize = 9;

/// Refusal 13, the malformed session. 12 and above carry 0 and 0.
const MALFORMED: Refusal = Refusal {
    number: 13,
    field: 0,
    place: Place(0),
};

/// The three parts of a session that is not malformed.
pub struct Session<'a> {
    pub start: Table,
    pub paper: &'a [u8],
    pub turns: &'a [u8],
}

/// In which way a session is malformed.
#[derive(Clone, Copy, Debug, PartialEq, Eq)]
pub enum Fault {
    Empty,
    /// So many bytes in all.
    TooLarge(usize),
    /// So many bytes left for a head.
    CutHead(usize),
    /// The length that the head gives, and so many bytes left for it.
    CutContents(usize, usize),
    UnknownTag(u8),
    /// The length of a 0x01 field that is not 9.
    CellLength(usize),
    /// A cell, and the cell before it, which is not lower.
    CellOrder(u8, u8),
    CellAfterJob,
    NoTurns,
    /// So many turns.
    TooManyTurns(usize),
    /// So many bytes after the 0x02 field.
    BytesAfterTurns(usize),
}

/// The first breach of a session: the byte, counted from 0, and the fault there.
#[derive(Clone, Copy, Debug, PartialEq, Eq)]
pub struct Breach {
    pub byte: usize,
    pub fault: Fault,
}

/// The parts of a session; none if it is malformed, whatever the block may hold.
pub fn split_session(input: &[u8]) -> Option<Session<'_>> {
    split_or_breach(input).ok()
}

/// The parts of a session, or its first breach, whatever the block may hold.
pub fn split_or_breach(input: &[u8]) -> Result<Session<'_>, Breach> {
    split_parts(input).map_err(|(rest, fault)| Breach {
        byte: input.len() - rest.len(),
        fault,
    })
}

/// The bytes from a fault on, and the fault.
type At<'a> = (&'a [u8], Fault);

/// A part of a session and the bytes after it.
type Part<'a, T> = Result<(T, &'a [u8]), At<'a>>;

/// The parts one after the other; the input as a whole first.
fn split_parts(input: &[u8]) -> Result<Session<'_>, At<'_>> {
    if input.is_empty() {
        return Err((input, Fault::Empty));
    }
    if input.len() > MOST_BYTES {
        return Err((&input[MOST_BYTES..], Fault::TooLarge(input.len())));
    }
    let (start, after_cells) = split_cells(input)?;
    let (paper, after_paper) = split_paper(after_cells)?;
    let (turns, rest) = split_turns(after_paper)?;
    if !rest.is_empty() {
        return Err((rest, Fault::BytesAfterTurns(rest.len())));
    }
    Ok(Session {
        start,
        paper,
        turns,
    })
}

/// The first field, which has a tag that a session knows.
fn next_field(bytes: &[u8]) -> Part<'_, Field<'_>> {
    let Some(&tag) = bytes.first() else {
        return Err((bytes, Fault::NoTurns));
    };
    if !TAGS.contains(&tag) {
        return Err((bytes, Fault::UnknownTag(tag)));
    }
    split_field(bytes).ok_or_else(|| match bytes.split_at_checked(HEAD_BYTES) {
        None => (bytes, Fault::CutHead(bytes.len())),
        Some((head, rest)) => {
            let length = low_byte_first(&head[1..]) as usize;
            (bytes, Fault::CutContents(length, rest.len()))
        }
    })
}

/// The start table that the leading 0x01 fields give, cells strictly rising.
fn split_cells(input: &[u8]) -> Part<'_, Table> {
    let mut start = [0; 256];
    let mut above: Option<u8> = None;
    let mut rest = input;
    loop {
        let (field, after) = next_field(rest)?;
        if field.tag != CELL_TAG {
            return Ok((start, rest));
        }
        let Some((cell, value)) = cell_and_value(field) else {
            return Err((rest, Fault::CellLength(field.contents.len())));
        };
        if let Some(before) = above.filter(|before| cell <= *before) {
            return Err((rest, Fault::CellOrder(cell, before)));
        }
        start[usize::from(cell)] = value;
        above = Some(cell);
        rest = after;
    }
}

/// What a 0x01 field holds; none if its length is wrong.
pub fn cell_and_value(field: Field<'_>) -> Option<(u8, u64)> {
    if field.contents.len() != CELL_BYTES {
        return None;
    }
    let (cell, value) = field.contents.split_first()?;
    Some((*cell, low_byte_first(value)))
}

/// The block paper, which is all the 0x10 fields that follow each other.
fn split_paper(bytes: &[u8]) -> Part<'_, &[u8]> {
    let mut rest = bytes;
    loop {
        let (field, after) = next_field(rest)?;
        if field.tag != JOB_TAG {
            return Ok(bytes.split_at(bytes.len() - rest.len()));
        }
        rest = after;
    }
}

/// The tickets of the 0x02 field, which must come next.
fn split_turns(bytes: &[u8]) -> Part<'_, &[u8]> {
    let (field, after) = next_field(bytes)?;
    if field.tag != TURNS_TAG {
        return Err((bytes, Fault::CellAfterJob));
    }
    let turns = field.contents;
    match turns.len() <= MOST_TURNS {
        true => Ok((turns, after)),
        false => Err((bytes, Fault::TooManyTurns(turns.len()))),
    }
}

/// The block in work that a session opens, and its turns; a mutant may break a rule of the engine.
pub fn open_session(input: &[u8], broken: Option<Rule>) -> Result<(Block, &[u8]), Refusal> {
    let session = split_session(input).ok_or(MALFORMED)?;
    let jobs = verdict(session.paper)?;
    Ok((Block::open(session.start, jobs, broken), session.turns))
}

/// Everything that playing the session prints; a mutant may break a rule of the engine.
pub fn play(input: &[u8], broken: Option<Rule>) -> String {
    let (mut block, turns) = match open_session(input, broken) {
        Ok(opened) => opened,
        Err(refusal) => return refused(refusal),
    };
    let mut text = String::new();
    for &ticket in turns {
        let ticket = Ticket(usize::from(ticket));
        let answer = block.turn(ticket);
        text += &turn_line(ticket, answer, block.final_jobs());
    }
    text + &cell_lines(&block.settled())
}

/// The line for a turn, and f after it.
pub fn turn_line(ticket: Ticket, answer: Answer, f: usize) -> String {
    format!("{} {} {f}\n", ticket.0, answer.word())
}

/// The lines for the settled cells that are not 0.
pub fn cell_lines(settled: &Table) -> String {
    let cells = settled.iter().enumerate();
    cells
        .filter(|(_, value)| **value != 0)
        .map(|(cell, value)| format!("cell {cell} {value}\n"))
        .collect()
}

/// The line for a refusal.
pub fn refused(refusal: Refusal) -> String {
    let Refusal {
        number,
        field,
        place,
    } = refusal;
    format!("refused {number} {field} {}\n", place.0)
}
