//! A session's bytes, turned into the text form; whatever has no other form becomes `bytes`.

use crate::counts::Place;
use crate::field::{field_bytes, split_field, Field, CELL_TAG, JOB_TAG, TURNS_TAG};
use crate::instruction::{is_whole_job, job_from, Instruction, CODES};
use crate::session::cell_and_value;
use std::collections::BTreeSet;

/// Words on one line of `turns` or `bytes`.
const WORDS_PER_LINE: usize = 16;

/// The text form of any bytes; assembling it gives these bytes again.
pub fn disassemble(input: &[u8]) -> String {
    let mut text = String::new();
    let mut rest = input;
    while let Some((field, after)) = split_field(rest) {
        let Some(lines) = field_text(field) else {
            break;
        };
        text += &lines;
        rest = after;
        // `turns` lines in a row are one field, so that nothing but bytes may follow.
        if field.tag == TURNS_TAG {
            break;
        }
    }
    text + &bytes_text(rest)
}

/// The lines for one field, if its tag is one of the three.
fn field_text(field: Field<'_>) -> Option<String> {
    match (field.tag, cell_and_value(field)) {
        (CELL_TAG, Some((cell, value))) => Some(format!("cell {cell} {value}\n")),
        (JOB_TAG, _) if is_whole_job(field.contents) => Some(job_text(&job_from(field.contents))),
        (CELL_TAG | JOB_TAG, _) => field_bytes(field.tag, field.contents).map(|b| bytes_text(&b)),
        (TURNS_TAG, _) => Some(turns_text(field.contents)),
        _ => None,
    }
}

/// A job, with a label at each place that a sound jump names.
fn job_text(job: &[Instruction]) -> String {
    let labels: BTreeSet<u64> = job
        .iter()
        .enumerate()
        .filter(|(place, jump)| names_later_place(**jump, *place, job.len()))
        .map(|(_, jump)| jump.operand)
        .collect();
    let mut text = "job\n".to_string();
    for (place, instruction) in job.iter().enumerate() {
        if labels.contains(&(place as u64)) {
            text += &format!("p{place}:\n");
        }
        text += &instruction_text(*instruction, place, job.len());
    }
    text
}

/// Whether an instruction is a jump that leads to a later place in the job.
fn names_later_place(jump: Instruction, place: usize, length: usize) -> bool {
    let is_jump = jump.code().is_some_and(|code| code.is_jump());
    is_jump && jump.operand_fits(Place(place), length)
}

/// One instruction's line.
fn instruction_text(instruction: Instruction, place: usize, length: usize) -> String {
    let Instruction { code, operand } = instruction;
    match CODES.get(usize::from(code)) {
        Some((_, name)) if names_later_place(instruction, place, length) => {
            format!("  {name} p{operand}\n")
        }
        _ => format!("  {instruction}\n"),
    }
}

/// The tickets, runs of one ticket shortened.
fn turns_text(tickets: &[u8]) -> String {
    let words: Vec<String> = tickets
        .chunk_by(|one, next| one == next)
        .map(|run| match run {
            [ticket] => ticket.to_string(),
            _ => format!("{}x{}", run[0], run.len()),
        })
        .collect();
    match words.is_empty() {
        true => "turns\n".to_string(),
        false => lines_of("turns", &words),
    }
}

/// Bytes as they are; nothing at all for no bytes.
fn bytes_text(bytes: &[u8]) -> String {
    let words: Vec<String> = bytes.iter().map(|byte| format!("{byte:02x}")).collect();
    lines_of("bytes", &words)
}

/// Words on lines that all begin with the keyword.
fn lines_of(keyword: &str, words: &[String]) -> String {
    words
        .chunks(WORDS_PER_LINE)
        .map(|line| format!("{keyword} {}\n", line.join(" ")))
        .collect()
}
