//! One call, from its line and back to it.

use super::alteration::Alteration;
use super::text::{bytes, bytes_word, cells_word, count, table, words_of_call};
use crate::words::{Complaint, Word};
use std::fmt;

/// At most so many cells or bytes are lent, so that a line cannot ask for all the memory there is.
pub const MOST_LENT: usize = 1 << 20;

/// The calls that stand, as they are written.
const FORMS: [&str; 5] = [
    "open N CELLS PAPER",
    "turn T",
    "turns HEX LENGTH",
    "settled N",
    "serial N M CELLS PAPER",
];

/// A call of the library.
#[derive(Clone, Debug, PartialEq, Eq)]
pub enum Call {
    Open {
        start: Vec<u64>,
        paper: Vec<u8>,
    },
    Turn(u8),
    Turns {
        tickets: Vec<u8>,
        /// The length of the lent answer buffer.
        length: usize,
    },
    /// With the length of the lent table.
    Settled(usize),
    Serial {
        start: Vec<u64>,
        /// The length of the lent output table.
        output: usize,
        paper: Vec<u8>,
    },
    Alter(Alteration),
}

impl Call {
    /// The call that a line is, or what was expected in its place.
    pub fn parse(line: &str, number: usize) -> Result<Call, Complaint> {
        let words = words_of_call(line, number);
        let (name, values) = (words[0], &words[1..]);
        match (name.text, values) {
            ("alter", _) => Alteration::parse(name, values).map(Call::Alter),
            ("open", [n, cells, paper]) => Ok(Call::Open {
                start: table(*cells, count(*n, MOST_LENT)?)?,
                paper: bytes(*paper)?,
            }),
            ("turn", [ticket]) => Ok(Call::Turn(count(*ticket, 255)? as u8)),
            ("turns", [tickets, length]) => Ok(Call::Turns {
                tickets: bytes(*tickets)?,
                length: count(*length, MOST_LENT)?,
            }),
            ("settled", [n]) => Ok(Call::Settled(count(*n, MOST_LENT)?)),
            ("serial", [n, m, cells, paper]) => Ok(Call::Serial {
                start: table(*cells, count(*n, MOST_LENT)?)?,
                output: count(*m, MOST_LENT)?,
                paper: bytes(*paper)?,
            }),
            _ => Err(no_call(name)),
        }
    }
}

/// The complaint about a line that is none of the forms.
fn no_call(name: Word<'_>) -> Complaint {
    let with_name = |form: &&&str| form.split(' ').next() == Some(name.text);
    match FORMS.iter().find(with_name) {
        Some(form) => name.complaint(format!("expected `{form}`, parted by single spaces")),
        None => name.complaint(format!(
            "`{}` is no call: expected one of `{}`, `alter PART VALUES`",
            name.text,
            FORMS.join("`, `")
        )),
    }
}

impl fmt::Display for Call {
    fn fmt(&self, out: &mut fmt::Formatter<'_>) -> fmt::Result {
        match self {
            Call::Open { start, paper } => {
                let (cells, paper) = (cells_word(start), bytes_word(paper));
                write!(out, "open {} {cells} {paper}", start.len())
            }
            Call::Turn(ticket) => write!(out, "turn {ticket}"),
            Call::Turns { tickets, length } => {
                write!(out, "turns {} {length}", bytes_word(tickets))
            }
            Call::Settled(length) => write!(out, "settled {length}"),
            Call::Serial {
                start,
                output,
                paper,
            } => {
                let (cells, paper) = (cells_word(start), bytes_word(paper));
                write!(out, "serial {} {output} {cells} {paper}", start.len())
            }
            Call::Alter(alteration) => write!(out, "{alteration}"),
        }
    }
}
