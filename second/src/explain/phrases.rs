//! Words and short phrases that the explanations share.

use super::story::{Back, Cause};
use crate::counts::{Cell, Ticket};
use crate::log::ToldRead;

/// A job by its ticket.
pub fn job_name(ticket: Ticket) -> String {
    format!("job {}", ticket.0)
}

/// The source of a read.
pub fn source_name(source: Ticket) -> String {
    match source.0 {
        0 => "the start table".to_string(),
        _ => job_name(source),
    }
}

/// Items as a sentence has them: `a, b and c`.
pub fn in_words(items: impl IntoIterator<Item = String>) -> String {
    let items: Vec<String> = items.into_iter().collect();
    match items.as_slice() {
        [] => String::new(),
        [one] => one.clone(),
        [first @ .., last] => format!("{} and {last}", first.join(", ")),
    }
}

/// A count and its noun.
pub fn with_number(count: usize, one: &str, many: &str) -> String {
    match count {
        1 => format!("1 {one}"),
        _ => format!("{count} {many}"),
    }
}

/// Items after their noun: `read of cell 5`, `reads of cell 5 and cell 6`.
pub fn after_noun(one: &str, many: &str, items: Vec<String>) -> String {
    let noun = if items.len() == 1 { one } else { many };
    format!("{noun} {}", in_words(items))
}

/// A lost read: its cell, and what it had found.
pub fn read_name(read: &ToldRead) -> String {
    let (cell, value) = (read.cell.0, read.value);
    format!("cell {cell} ({value} from {})", source_name(read.source))
}

/// The jobs that someone waits for.
pub fn not_final(jobs: impl Iterator<Item = Ticket>) -> String {
    let names: Vec<String> = jobs.map(job_name).collect();
    let are = if names.len() == 1 { "is" } else { "are" };
    format!("{}, which {are} not final", in_words(names))
}

/// Why a read of a cell is marked: who published or withdrew the cell, and when.
pub fn causes_text(cell: Cell, causes: &[Cause]) -> String {
    in_words(causes.iter().map(|cause| {
        let did = if cause.withdrew {
            "withdrew"
        } else {
            "published"
        };
        let (job, turn) = (job_name(cause.ticket), cause.turn);
        format!("{job} {did} cell {} in turn {turn}", cell.0)
    }))
}

/// Why a job went back.
pub fn because(back: &Back) -> String {
    let first = back.lost.reads.first();
    first.map_or(String::new(), |read| causes_text(read.cell, &back.causes))
}
