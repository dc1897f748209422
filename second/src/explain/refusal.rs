//! A refused session in words: what its number means, where the fault is, and what to do.

use super::input::Handed;
use super::phrases::{in_words, with_number};
use crate::checker::{heights_brought, Refusal};
use crate::counts::Place;
use crate::field::{split_field, HEAD_BYTES};
use crate::instruction::{job_from, Code, Instruction, INSTRUCTION_BYTES, MOST_ENTRIES, MOST_JOBS};
use crate::session::{refused, split_or_breach, Breach, Fault, Session, MOST_BYTES};

/// What a refusal's number means, what is there, and what to do about it.
type Meaning = (&'static str, String, String);

/// The refusal's line with its meaning, then what is there and what to do about it.
pub fn refusal_text(handed: &Handed, refusal: Refusal) -> String {
    let (place, (meaning, here, to_do)) = match split_or_breach(&handed.bytes) {
        Err(breach) => of_session(handed, breach),
        Ok(session) => of_paper(handed, &session, refusal),
    };
    let line = refused(refusal);
    let line = line.trim_end();
    format!("{line}: {place}: {meaning}\n  here: {here}\n  to do: {to_do}\n")
}

/// `, line N` where a line of the text form gave this byte.
fn line_of(handed: &Handed, byte: usize) -> String {
    let line = handed.lines.as_ref().and_then(|lines| lines.of(byte));
    line.map_or(String::new(), |line| format!(", line {line}"))
}

/// 13: where the session is malformed, and in which way.
fn of_session(handed: &Handed, breach: Breach) -> (String, Meaning) {
    let (here, to_do) = (breach_text(breach.fault), mended_by(breach.fault));
    let line = line_of(handed, breach.byte);
    let place = format!("byte {} (counted from 0){line}", breach.byte);
    (place, ("the session is malformed", here, to_do.to_string()))
}

/// 3 to 11: the job, the place and the instruction at fault.
fn of_paper(handed: &Handed, session: &Session<'_>, refusal: Refusal) -> (String, Meaning) {
    let Refusal {
        number,
        field,
        place,
    } = refusal;
    // The paper ends where the head of the turns begins.
    let after_paper = handed.bytes.len() - HEAD_BYTES - session.turns.len();
    let (before, contents) = contents_of(session.paper, field);
    let head = after_paper - session.paper.len() + before;
    let job = job_from(contents);
    let instruction = job.get(place.0).copied().filter(|_| number > 4);
    match instruction {
        None => {
            let told = format!("job {field}{}", line_of(handed, head));
            (told, of_field(number, contents.len()))
        }
        Some(instruction) => {
            let byte = head + HEAD_BYTES + place.0 * INSTRUCTION_BYTES;
            let line = line_of(handed, byte);
            let told = format!("job {field}, place {} ({instruction}){line}", place.0);
            (told, of_instruction(number, &job, place, instruction))
        }
    }
}

/// The contents of the field with this number from 1, and how many bytes stand before its head.
fn contents_of(paper: &[u8], number: usize) -> (usize, &[u8]) {
    let mut rest = paper;
    for _ in 1..number {
        rest = split_field(rest).map_or(&[], |(_, after)| after);
    }
    let contents = split_field(rest).map_or(rest, |(field, _)| field.contents);
    (paper.len() - rest.len(), contents)
}

/// 3 and 4, which come before the job is looked at.
fn of_field(number: u8, length: usize) -> Meaning {
    match number {
        3 => (
            "a seventeenth job",
            format!("a job after {MOST_JOBS} others"),
            format!("keep to {MOST_JOBS} jobs: part them among several sessions"),
        ),
        _ => (
            "length 0, over 576, or not a multiple of 9",
            format!("contents of {}", with_number(length, "byte", "bytes")),
            "give the job 1 to 64 instructions of 9 bytes each".to_string(),
        ),
    }
}

/// 5 to 11, at an instruction of a job.
fn of_instruction(number: u8, job: &[Instruction], place: Place, at: Instruction) -> Meaning {
    let (meaning, here, to_do) = match number {
        5 => (
            "code above 13",
            format!("code {}", at.code),
            "give a code from 0 (STOP) to 13 (JUMPZERO)",
        ),
        6 => return operand_meaning(job.len(), place, at),
        7 => (
            "the last instruction would lead on",
            format!("{at} leads on to place {}, which is not there", job.len()),
            "put STOP or ABANDON after it",
        ),
        8 => (
            "no earlier place leads here",
            "every way through the job passes it by".to_string(),
            "drop it, or let an earlier jump lead to it",
        ),
        9 => return height_meaning(job, place, at),
        10 => (
            "two heights meet here",
            in_words(heights_brought(job, place).iter().map(|(from, height)| {
                let entries = with_number(*height as usize, "entry", "entries");
                format!("place {} brings {entries}", from.0)
            })),
            "let every way to this place bring as many entries, by a PUSH or a POP on one of them",
        ),
        _ => (
            "ninth READ or ninth WRITE",
            format!("the ninth {at} of the job"),
            "keep to 8 READ and 8 WRITE in a job: part it in two",
        ),
    };
    (meaning, here, to_do.to_string())
}

/// 6: what the operand's column asks for.
fn operand_meaning(length: usize, place: Place, at: Instruction) -> Meaning {
    let later = place.next().0;
    let to_do = match at.code() {
        Some(Code::Dup | Code::Swap) => "give it an operand from 1 to 15".to_string(),
        Some(Code::Jump | Code::JumpZero) if later == length => {
            "no later place is there to go to: put STOP or ABANDON after it".to_string()
        }
        Some(Code::Jump | Code::JumpZero) => {
            let last = length - 1;
            format!("give it a later place of the job, from {later} to the last, {last}")
        }
        _ => "give it no operand, or 0".to_string(),
    };
    let here = format!("the operand {}", at.operand);
    ("operand outside its column", here, to_do)
}

/// 9: how many entries there are.
fn height_meaning(job: &[Instruction], place: Place, at: Instruction) -> Meaning {
    let brought = heights_brought(job, place);
    let height = brought.first().map_or(0, |(_, height)| *height);
    let entries = |count: u64| with_number(count as usize, "entry", "entries");
    let (here, to_do) = match at.needs() > height {
        true => (
            format!("it needs {} and finds {height}", entries(at.needs())),
            "push what it needs before it".to_string(),
        ),
        false => (
            format!(
                "it finds {} and would leave {}",
                entries(height),
                at.leaves(height)
            ),
            format!("use up or drop entries before it: {MOST_ENTRIES} are the most"),
        ),
    };
    (
        "too few entries on the stack, or more than 16 left",
        here,
        to_do,
    )
}

/// What breaks the form of a session.
fn breach_text(fault: Fault) -> String {
    let bytes = |count| with_number(count, "byte", "bytes");
    match fault {
        Fault::Empty => "an empty input".to_string(),
        Fault::TooLarge(count) => {
            format!("too large an input, of {count} bytes where {MOST_BYTES} are the most")
        }
        Fault::CutHead(left) => format!("bad framing: {} left for a head of 3", bytes(left)),
        Fault::CutContents(length, left) => {
            let left = bytes(left);
            format!("bad framing: a field of length {length} with {left} left")
        }
        Fault::UnknownTag(tag) => format!("another tag: 0x{tag:02x}"),
        Fault::CellLength(length) => format!("a 0x01 field of length {length}"),
        Fault::CellOrder(cell, before) => {
            format!("cells not strictly rising: cell {cell} after cell {before}")
        }
        Fault::CellAfterJob => "another order: a 0x01 field after a job".to_string(),
        Fault::NoTurns => "no 0x02 field: the input ends".to_string(),
        Fault::TooManyTurns(turns) => format!("a longer 0x02 field, of {turns} turns"),
        Fault::BytesAfterTurns(count) => format!("{} after the 0x02 field", bytes(count)),
    }
}

/// What to do about a breach.
fn mended_by(fault: Fault) -> &'static str {
    match fault {
        Fault::Empty => "give at least a 0x02 field, the turns; was the file written?",
        Fault::TooLarge(_) => "part the jobs among several sessions",
        Fault::CutHead(_) => "give each field a tag and two bytes of length; was the file cut off?",
        Fault::CutContents(..) => {
            "correct the field's length, low byte first; was the file cut off?"
        }
        Fault::UnknownTag(_) => {
            "a field is 0x01 (a start value), 0x10 (a job) or 0x02 (the turns); \
             is the length of the field before it wrong?"
        }
        Fault::CellLength(_) => "a start value has 9 bytes: the cell, then 8 of value",
        Fault::CellOrder(..) => "give each cell once, in rising order",
        Fault::CellAfterJob => "give the start values before the first job",
        Fault::NoTurns => "end the session with a 0x02 field, the turns, which may be none",
        Fault::TooManyTurns(_) => "give at most 4,000 turns",
        Fault::BytesAfterTurns(_) => "end the session with its one 0x02 field",
    }
}
