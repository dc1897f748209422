//! What an `alter` line says: a part of the block in work and its new values.

use crate::counts::Ticket;
use crate::words::{Complaint, Word};
use std::fmt;

/// A part of the block that a careless caller may change.
#[derive(Clone, Copy, Debug, PartialEq, Eq, PartialOrd, Ord)]
pub enum Part {
    Count,
    Size,
    Code,
    Operand,
    Place,
    Height,
    Status,
    Entry,
    Writes,
    Read,
    Reads,
    Mark,
    Version,
    Checkpoint,
}

/// Every part with its form: CELL is up to 65,535, VALUE below 2^64, all others up to 255.
pub const PARTS: [(Part, &str); 14] = [
    (Part::Count, "count V"),
    (Part::Size, "size T V"),
    (Part::Code, "code T P V"),
    (Part::Operand, "operand T P VALUE"),
    (Part::Place, "place T V"),
    (Part::Height, "height T V"),
    (Part::Status, "status T V"),
    (Part::Entry, "entry T K CELL VALUE"),
    (Part::Writes, "writes T V"),
    (Part::Read, "read T K CELL SOURCE VALUE"),
    (Part::Reads, "reads T V"),
    (Part::Mark, "mark T V"),
    (Part::Version, "version T K V"),
    (
        Part::Checkpoint,
        "checkpoint T K PLACE HEIGHT WRITES LISTED",
    ),
];

/// A part and as many values as its form has.
#[derive(Clone, Debug, PartialEq, Eq)]
pub struct Alteration {
    pub part: Part,
    pub values: Vec<u64>,
}

impl Alteration {
    /// The alteration of the whole block's count.
    pub fn of_count(count: u64) -> Alteration {
        Alteration {
            part: Part::Count,
            values: vec![count],
        }
    }

    /// An alteration of the job with this ticket.
    pub fn of_job(part: Part, ticket: Ticket, values: &[u64]) -> Alteration {
        let mut all = vec![ticket.0 as u64];
        all.extend(values);
        Alteration { part, values: all }
    }

    /// The alteration that the words after `alter` say.
    pub fn parse(alter: Word<'_>, words: &[Word<'_>]) -> Result<Alteration, Complaint> {
        let Some((name, values)) = words.split_first() else {
            return Err(alter.complaint("expected `alter PART VALUES`"));
        };
        let named = |(_, form): &&(Part, &str)| form.split(' ').next() == Some(name.text);
        let Some((part, form)) = PARTS.iter().find(named) else {
            return Err(name.complaint(no_part(name.text)));
        };
        let limits = limits(form);
        if values.len() != limits.len() {
            return Err(name.complaint(format!("expected `alter {form}`")));
        }
        let values = values.iter().zip(limits);
        let values = values.map(|(value, most)| value.number(most));
        Ok(Alteration {
            part: *part,
            values: values.collect::<Result<_, _>>()?,
        })
    }

    /// Whether a line can say it.
    pub fn is_sayable(&self) -> bool {
        let (_, form) = PARTS[self.part as usize];
        let limits = limits(form);
        let mut within = self.values.iter().zip(&limits);
        self.values.len() == limits.len() && within.all(|(value, most)| value <= most)
    }
}

/// The largest number that each value of a form may be.
fn limits(form: &str) -> Vec<u64> {
    let most = |name| match name {
        "CELL" => 65_535,
        "VALUE" => u64::MAX,
        _ => 255,
    };
    form.split(' ').skip(1).map(most).collect()
}

/// The complaint about a part that does not stand.
fn no_part(name: &str) -> String {
    let forms = PARTS.map(|(_, form)| form).join("`, `");
    format!("`{name}` is no part: expected one of `{forms}`")
}

impl fmt::Display for Alteration {
    fn fmt(&self, out: &mut fmt::Formatter<'_>) -> fmt::Result {
        let (_, form) = PARTS[self.part as usize];
        write!(out, "alter {}", form.split(' ').next().unwrap_or_default())?;
        self.values
            .iter()
            .try_for_each(|value| write!(out, " {value}"))
    }
}
