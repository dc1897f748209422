//! How a session stands after its last turn: the jobs, the cells, and what does not count yet.

use super::phrases::{because, causes_text, in_words, job_name, not_final, with_number};
use super::story::Story;
use crate::counts::{Cell, Ticket};
use crate::engine::Block;
use crate::instruction::Code;
use crate::work::{JobInWork, Phase};

/// A cell's start value, its settled value, and the job that this is from; ticket 0 for none.
pub struct Settled {
    pub cell: Cell,
    pub start: u64,
    pub value: u64,
    pub by: Ticket,
}

impl Settled {
    /// What it was, and who changed it.
    pub fn origin(&self) -> String {
        match self.by.0 {
            0 => "as at the start".to_string(),
            _ => format!("{} at the start; by {}", self.start, job_name(self.by)),
        }
    }
}

/// Every cell that is not 0, or of which a final job's version is settled; rising.
pub fn settled_cells(block: &Block) -> Vec<Settled> {
    let above_finals = Ticket(block.final_jobs() + 1);
    let settled = Cell::all().map(|cell| {
        let (by, value) = block.newest_version_below(above_finals, cell);
        let start = block.start[cell.index()];
        Settled {
            cell,
            start,
            value,
            by,
        }
    });
    settled
        .filter(|settled| settled.value != 0 || settled.by.0 > 0)
        .collect()
}

/// How many turns there were, and how many of the jobs are final.
pub fn summary(story: &Story) -> String {
    let turns = with_number(story.turns.len(), "turn", "turns");
    let jobs = with_number(story.block.jobs.len(), "job", "jobs");
    format!("{turns}; f is {} of {jobs}", story.block.final_jobs())
}

/// The sections after the turns.
pub fn ends_text(story: &Story, settled: &[Settled]) -> String {
    let block = &story.block;
    let mut text = format!("\n{}\n", summary(story));
    for ticket in (1..=block.jobs.len()).map(Ticket) {
        // An empty line parts the jobs from what stands before them.
        text += if ticket.0 == 1 { "\n" } else { "" };
        text += &job_text(story, ticket);
    }
    text + &cells_text(settled) + &not_counted_text(block)
}

/// How one job stands, and how often it went back.
fn job_text(story: &Story, ticket: Ticket) -> String {
    let backs = story.backs(ticket);
    let how_often = match backs.len() {
        0 => "never went back".to_string(),
        1 => "went back once:".to_string(),
        times => format!("went back {times} times:"),
    };
    let (job, standing) = (job_name(ticket), standing(story, ticket));
    let mut text = format!("{job}: {standing}; {how_often}\n");
    for (turn, back) in backs {
        text += &format!("  turn {turn}, because {}\n", because(back));
    }
    text
}

/// Where a job stands, and what it waits for.
fn standing(story: &Story, ticket: Ticket) -> String {
    let job = story.block.job(ticket);
    let end = end_text(job);
    if job.phase == Phase::Final {
        return format!("{end}; final");
    }
    let f = story.block.final_jobs();
    let marked = job.marks.first().and_then(|mark| job.reads.get(*mark));
    let waits = match (marked, job.phase) {
        (Some(read), _) => {
            let why = causes_text(read.cell, story.causes(ticket, read.cell));
            let place = read.checkpoint.state.place.0;
            format!("is marked, because {why}: its next turn goes back to place {place}")
        }
        (None, Phase::Running) => "waits for a turn".to_string(),
        _ if f + 1 == ticket.0 => "waits for a turn, which makes it final".to_string(),
        _ => format!("waits for {}", not_final((f + 1..ticket.0).map(Ticket))),
    };
    format!("{end}; not final; {waits}")
}

/// Whether a job stopped, abandoned or has not finished.
fn end_text(job: &JobInWork) -> String {
    let place = job.state.place.0;
    let instruction = job.instruction();
    match (job.phase, instruction) {
        (Phase::Running, Some(next)) => format!("not finished, at place {place} ({next})"),
        (_, Some(last)) if last.is(Code::Abandon) => format!("abandoned at place {place}"),
        _ => format!("stopped at place {place}"),
    }
}

/// Each cell of which a final job's version is settled.
fn cells_text(settled: &[Settled]) -> String {
    let mut text = String::new();
    for settled in settled.iter().filter(|settled| settled.by.0 > 0) {
        let Settled {
            cell,
            start,
            value,
            by,
        } = settled;
        let equal = if start == value {
            ", an equal value"
        } else {
            ""
        };
        let (cell, by) = (cell.0, job_name(*by));
        text += &format!("  cell {cell}: {start} at the start, {value} settled, by {by}{equal}\n");
    }
    match text.is_empty() {
        true => "\ncells settled by jobs: none\n".to_string(),
        false => format!("\ncells settled by jobs:\n{text}"),
    }
}

/// The public versions of jobs that are not final.
fn not_counted_text(block: &Block) -> String {
    let mut text = String::new();
    for ticket in (block.final_jobs() + 1..=block.jobs.len()).map(Ticket) {
        let job = block.job(ticket);
        let versions: Vec<String> = Cell::all()
            .filter_map(|cell| Some(format!("cell {} as {}", cell.0, job.public_value(cell)?)))
            .collect();
        if !versions.is_empty() {
            let (job, versions) = (job_name(ticket), in_words(versions));
            text += &format!("  {job}, which is not final: {versions}\n");
        }
    }
    match text.is_empty() {
        true => text,
        false => format!("\npublic, but not counted yet:\n{text}"),
    }
}
