//! One turn in words.

use super::phrases::{
    after_noun, because, in_words, job_name, not_final, read_name, source_name, with_number,
};
use super::story::{Back, Change, Deed, How, Mark, Moved, Story, Turn};
use crate::counts::{Cell, Ticket};
use crate::engine::Answer;
use crate::instruction::Code;
use crate::log::{Found, ToldRead};
use crate::machine::Write;

/// What the turn with this number from 1 did, in one line.
pub fn turn_text(story: &Story, number: usize) -> String {
    let jobs = story.block.jobs.len();
    format!(
        "turn {number}: {}",
        deed_text(&story.turns[number - 1], jobs)
    )
}

/// What a turn did, in a block of so many jobs.
fn deed_text(turn: &Turn, jobs: usize) -> String {
    let job = job_name(turn.ticket);
    match (turn.answer, &turn.job, turn.back()) {
        (Answer::Back, _, Some(back)) => back_text(turn, back),
        (Answer::Step, Some(moved), _) => format!("{}{}", stand(turn, moved), step(turn, moved)),
        (Answer::End, Some(moved), _) => format!("{}{}", stand(turn, moved), end(turn, moved)),
        (Answer::Idle, ..) => format!("{job} is final already; nothing changes"),
        (Answer::Final, ..) => {
            format!("{job} becomes final: it has ended, and every lower job is final")
        }
        (Answer::Wait, ..) => {
            let lower = (turn.f + 1..turn.ticket.0).map(Ticket);
            format!("{job} has ended and waits for {}", not_final(lower))
        }
        (Answer::NoSuchTicket, ..) => {
            let there = with_number(jobs, "job", "jobs");
            let ticket = turn.ticket.0;
            format!("refusal 14: no ticket {ticket}, the block has {there}; nothing changes")
        }
        _ => "refusal 20: the block does not fit its sizes; nothing changes".to_string(),
    }
}

/// Whose turn it was, and where the job stood.
fn stand(turn: &Turn, moved: &Moved) -> String {
    format!("{}, place {}: ", job_name(turn.ticket), moved.place.0)
}

/// What an instruction did.
fn step(turn: &Turn, moved: &Moved) -> String {
    let instruction = moved.instruction;
    match (turn.deeds.first(), instruction.code()) {
        (Some(Deed::Read(cell, found, from)), _) => read_text(*cell, *found, *from),
        (Some(Deed::Wrote(write)), _) => {
            let Write { cell, value } = write;
            format!("WRITE of {value} to cell {}, into its journal", cell.0)
        }
        (_, Some(Code::Jump | Code::JumpZero)) => {
            format!("{instruction}, goes on at place {}", moved.after.place.0)
        }
        (_, Some(Code::Push | Code::Pop)) => instruction.to_string(),
        _ => {
            let top = moved.after.stack.last().copied().unwrap_or_default();
            format!("{instruction}, leaves {top} on top")
        }
    }
}

/// What a READ found, where, and whether it was listed.
fn read_text(cell: Cell, found: Found, from: Option<usize>) -> String {
    let value = found.value();
    let turn = from.unwrap_or_default();
    let place = match found {
        Found::Journal(_) => "its own journal; not listed".to_string(),
        Found::Listed(_) => format!("its own read of turn {turn}; not listed again"),
        Found::Version(Ticket(0), _) => "the start table; listed with a checkpoint".to_string(),
        Found::Version(source, _) => {
            let source = job_name(source);
            format!("{source}'s version of turn {turn}; listed with a checkpoint")
        }
    };
    format!("READ of cell {} finds {value} in {place}", cell.0)
}

/// What a STOP or an ABANDON did.
fn end(turn: &Turn, moved: &Moved) -> String {
    let instruction = moved.instruction;
    let changes = changes_text(turn);
    match (changes.is_empty(), instruction.is(Code::Stop)) {
        (false, _) => format!("{instruction} {changes}"),
        (true, true) => format!("{instruction}, with nothing to publish"),
        (true, false) => format!("{instruction}, with nothing to withdraw"),
    }
}

/// Each version that a turn changed, and whom that marked.
fn changes_text(turn: &Turn) -> String {
    let mut clauses: Vec<String> = turn
        .changes()
        .map(|change| change_text(turn.ticket, change))
        .collect();
    if !clauses.is_empty() && turn.changes().all(|change| change.marks.is_empty()) {
        clauses.push("marks nobody".to_string());
    }
    clauses.join("; ")
}

fn change_text(by: Ticket, change: &Change) -> String {
    let Write { cell, value } = change.write;
    let cell = cell.0;
    let what = match change.how {
        How::Newly => format!("publishes cell {cell} as {value}, newly"),
        How::InPlaceOf(old) => {
            format!("publishes cell {cell} as {value}, in place of another entry ({old})")
        }
        How::Left => format!("leaves cell {cell} public as {value}, by the same entry"),
        How::Withdrawn => format!("withdraws cell {cell} ({value})"),
    };
    if change.marks.is_empty() {
        return what;
    }
    let marks = change.marks.iter().map(|mark| mark_text(by, change, mark));
    format!("{what}, and marks {}", in_words(marks))
}

/// Who was marked, at which read, and why.
fn mark_text(by: Ticket, change: &Change, mark: &Mark) -> String {
    let ToldRead {
        cell,
        source,
        value,
    } = mark.read;
    let why = match change.how {
        How::Withdrawn => "which is withdrawn".to_string(),
        _ if source != by => format!("which is older than {}'s", job_name(by)),
        How::Newly => "which was withdrawn before".to_string(),
        How::InPlaceOf(_) | How::Left => "which is replaced".to_string(),
    };
    let is_equal = value == change.write.value && !matches!(change.how, How::Withdrawn);
    let equal = match is_equal {
        true => "; an equal value marks all the same",
        false => "",
    };
    let again = match mark.again {
        true => "; it was marked there before",
        false => "",
    };
    let (reader, source) = (job_name(mark.reader), source_name(source));
    let (cell, turn) = (cell.0, mark.listed);
    let found = format!("{value} from {source}, {why}{equal}{again}");
    format!("{reader} at its read of cell {cell} in turn {turn} ({found})")
}

/// A return: where to, why, what was lost, what was withdrawn, and whom that marked.
fn back_text(turn: &Turn, back: &Back) -> String {
    let (job, place) = (job_name(turn.ticket), back.lost.place.0);
    let why = because(back);
    let reads = back.lost.reads.iter().map(read_name).collect();
    let mut lost = vec![after_noun("its read of", "its reads of", reads)];
    if !back.lost.entries.is_empty() {
        let entries = back.lost.entries.iter().map(entry_name).collect();
        lost.push(after_noun(
            "its journal entry",
            "its journal entries",
            entries,
        ));
    }
    let lost = lost.join(", and ");
    let withdrawn = match changes_text(turn) {
        nothing if nothing.is_empty() => "withdraws nothing".to_string(),
        changes => changes,
    };
    format!(
        "{job} goes back to its READ at place {place}, because {why}; loses {lost}; {withdrawn}"
    )
}

/// A journal entry.
fn entry_name(write: &Write) -> String {
    format!("cell {} as {}", write.cell.0, write.value)
}
