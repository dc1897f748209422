//! The text form of a session, turned into the session's bytes.

use crate::field::{field_bytes, CELL_TAG, HEAD_BYTES, JOB_TAG, TURNS_TAG};
use crate::instruction::{job_bytes, Code, Instruction, Job, CODES, INSTRUCTION_BYTES};
use crate::nearest::no_such;
use crate::words::{lines_of_words, Complaint, Word};
use std::collections::BTreeMap;

/// Most bytes that a field's two-byte length can tell.
const LONGEST_CONTENTS: usize = 65_535;

/// The lines of a text that gave its bytes: a line's number, from its first byte on.
#[derive(Clone, Debug, Default, PartialEq, Eq)]
pub struct Lines {
    starts: Vec<(usize, usize)>,
    end: usize,
}

impl Lines {
    /// The line that gave this byte; none past the last byte.
    pub fn of(&self, byte: usize) -> Option<usize> {
        let given = self.starts.iter().rev().find(|(start, _)| *start <= byte);
        given.filter(|_| byte < self.end).map(|(_, line)| *line)
    }
}

/// A job whose lines are being read.
struct OpenJob<'a> {
    line: usize,
    code: Job,
    /// The line of each instruction.
    lines: Vec<usize>,
    labels: BTreeMap<&'a str, u64>,
    /// Jumps to a label: the jump's place and the word with the label's name.
    jumps: Vec<(usize, Word<'a>)>,
}

/// The field that the next line may add to.
enum Open<'a> {
    Nothing,
    Job(OpenJob<'a>),
    /// The first line and the tickets.
    Turns(usize, Vec<u8>),
}

struct Assembler<'a> {
    bytes: Vec<u8>,
    lines: Lines,
    open: Open<'a>,
}

/// The session's bytes, or the first complaint.
pub fn assemble(text: &str) -> Result<Vec<u8>, Complaint> {
    assemble_with_lines(text).map(|(bytes, _)| bytes)
}

/// The session's bytes with the lines that gave them, or the first complaint.
pub fn assemble_with_lines(text: &str) -> Result<(Vec<u8>, Lines), Complaint> {
    let mut assembler = Assembler {
        bytes: Vec::new(),
        lines: Lines::default(),
        open: Open::Nothing,
    };
    for words in lines_of_words(text) {
        assembler.line(&words)?;
    }
    assembler.close()?;
    assembler.lines.end = assembler.bytes.len();
    Ok((assembler.bytes, assembler.lines))
}

impl<'a> Assembler<'a> {
    /// Takes one line: labels, then a keyword or an instruction.
    fn line(&mut self, words: &[Word<'a>]) -> Result<(), Complaint> {
        let Some((first, rest)) = words.split_first() else {
            return Ok(());
        };
        if let Some(name) = first.text.strip_suffix(':') {
            self.label(first, name)?;
            return self.line(rest);
        }
        match first.text {
            "cell" => self.cell(first, rest),
            "job" => self.job(first, rest),
            "turns" => self.turns(first, rest),
            "bytes" => self.raw_bytes(first, rest),
            _ => self.instruction(first, rest),
        }
    }

    /// `cell NUMBER VALUE`: one 0x01 field.
    fn cell(&mut self, first: &Word<'a>, rest: &[Word<'a>]) -> Result<(), Complaint> {
        self.close()?;
        let [cell, value] = rest else {
            return Err(first.complaint("`cell` takes a cell number and a value"));
        };
        let mut contents = vec![cell.number(255)? as u8];
        contents.extend(value.number(u64::MAX)?.to_le_bytes());
        self.field(first.line, CELL_TAG, &contents);
        Ok(())
    }

    /// `job`: opens a 0x10 field, which the instruction lines after it fill.
    fn job(&mut self, first: &Word<'a>, rest: &[Word<'a>]) -> Result<(), Complaint> {
        self.close()?;
        self.open = Open::Job(OpenJob {
            line: first.line,
            code: Job::new(),
            lines: Vec::new(),
            labels: BTreeMap::new(),
            jumps: Vec::new(),
        });
        nothing_more(rest)
    }

    /// `turns TICKET TICKETxTIMES ..`: the 0x02 field; `turns` lines in a row are one field.
    fn turns(&mut self, first: &Word<'a>, rest: &[Word<'a>]) -> Result<(), Complaint> {
        if !matches!(self.open, Open::Turns(..)) {
            self.close()?;
            self.open = Open::Turns(first.line, Vec::new());
        }
        let Open::Turns(_, tickets) = &mut self.open else {
            return Ok(());
        };
        for word in rest {
            let (ticket, times) = repeated_ticket(word)?;
            tickets.extend(std::iter::repeat_n(ticket, times));
            if tickets.len() > LONGEST_CONTENTS {
                return Err(first.complaint("a field holds at most 65535 turns"));
            }
        }
        Ok(())
    }

    /// `bytes HEX HEX ..`: bytes as they are, outside any field of the text form.
    fn raw_bytes(&mut self, first: &Word<'a>, rest: &[Word<'a>]) -> Result<(), Complaint> {
        self.close()?;
        self.begins_here(first.line);
        for word in rest {
            self.bytes.push(word.hex_byte()?);
        }
        Ok(())
    }

    /// `NAME:`: names the place of the next instruction.
    fn label(&mut self, word: &Word<'a>, name: &'a str) -> Result<(), Complaint> {
        let Open::Job(job) = &mut self.open else {
            return Err(word.complaint("a label stands in a job"));
        };
        if !is_label(name) {
            return Err(word.complaint("a label is a letter, then letters, digits, `_` or `-`"));
        }
        let place = job.code.len() as u64;
        match job.labels.insert(name, place) {
            None => Ok(()),
            Some(_) => Err(word.complaint(format!("the label `{name}` stands in this job twice"))),
        }
    }

    /// `NAME`, `NAME OPERAND`, or `CODE NUMBER OPERAND` for a code that has no name.
    fn instruction(&mut self, first: &Word<'a>, rest: &[Word<'a>]) -> Result<(), Complaint> {
        let known = CODES.iter().find(|(_, name)| *name == first.text);
        let Open::Job(job) = &mut self.open else {
            let what = match known {
                Some(_) => "an instruction stands in a job".to_string(),
                None => no_such(first.text, "word of the text form", first_words()),
            };
            return Err(first.complaint(what));
        };
        let instruction = match (known, rest) {
            (Some((code, _)), _) => named_instruction(job, *code, first, rest)?,
            (None, [number, operand]) if first.text == "CODE" => Instruction {
                code: number.number(255)? as u8,
                operand: operand.number(u64::MAX)?,
            },
            (None, _) if first.text == "CODE" => {
                return Err(first.complaint("`CODE` takes a code and an operand"));
            }
            (None, _) => {
                return Err(first.complaint(no_such(first.text, "instruction", first_words())));
            }
        };
        job.code.push(instruction);
        job.lines.push(first.line);
        if job.code.len() * INSTRUCTION_BYTES > LONGEST_CONTENTS {
            return Err(first.complaint("a field holds at most 7281 instructions"));
        }
        Ok(())
    }

    /// Writes the open field, its labels now known.
    fn close(&mut self) -> Result<(), Complaint> {
        match std::mem::replace(&mut self.open, Open::Nothing) {
            Open::Nothing => {}
            Open::Turns(line, tickets) => self.field(line, TURNS_TAG, &tickets),
            Open::Job(mut job) => {
                for (place, word) in &job.jumps {
                    let Some(target) = job.labels.get(word.text) else {
                        let labels = job.labels.keys().copied();
                        return Err(word.complaint(no_such(
                            word.text,
                            "label in this job",
                            labels,
                        )));
                    };
                    job.code[*place].operand = *target;
                }
                let contents = self.bytes.len() + HEAD_BYTES;
                self.field(job.line, JOB_TAG, &job_bytes(&job.code));
                for (place, line) in job.lines.iter().enumerate() {
                    let byte = contents + place * INSTRUCTION_BYTES;
                    self.lines.starts.push((byte, *line));
                }
            }
        }
        Ok(())
    }

    /// Writes a field that this line began.
    fn field(&mut self, line: usize, tag: u8, contents: &[u8]) {
        self.begins_here(line);
        self.bytes
            .extend(field_bytes(tag, contents).unwrap_or_default());
    }

    /// The next byte is given by this line.
    fn begins_here(&mut self, line: usize) {
        self.lines.starts.push((self.bytes.len(), line));
    }
}

/// An instruction by name. Where the column says 0, an operand may be left out.
fn named_instruction<'a>(
    job: &mut OpenJob<'a>,
    code: Code,
    first: &Word<'a>,
    rest: &[Word<'a>],
) -> Result<Instruction, Complaint> {
    let Some((operand, more)) = rest.split_first() else {
        return match code.takes_operand() {
            true => Err(first.complaint(format!("`{}` takes an operand", first.text))),
            false => Ok(Instruction::new(code, 0)),
        };
    };
    nothing_more(more)?;
    if code.is_jump() && is_label(operand.text) {
        job.jumps.push((job.code.len(), *operand));
        return Ok(Instruction::new(code, 0));
    }
    Ok(Instruction::new(code, operand.number(u64::MAX)?))
}

/// The words that begin a line, beside the instructions' names.
const KEYWORDS: [&str; 5] = ["cell", "job", "turns", "bytes", "CODE"];

/// Every word that can begin a line.
fn first_words() -> impl Iterator<Item = &'static str> {
    let names = CODES.iter().map(|(_, name)| *name);
    names.chain(KEYWORDS)
}

/// Whether a word can be a label: so that no number is one.
fn is_label(name: &str) -> bool {
    let others = |byte: u8| byte.is_ascii_alphanumeric() || byte == b'_' || byte == b'-';
    name.starts_with(|first: char| first.is_ascii_alphabetic()) && name.bytes().all(others)
}

/// A ticket and how often: `3` or `3x20`.
fn repeated_ticket(word: &Word<'_>) -> Result<(u8, usize), Complaint> {
    let (ticket, times) = word.text.split_once('x').unwrap_or((word.text, "1"));
    let part = |text, column| Word {
        text,
        line: word.line,
        column,
    };
    let ticket_word = part(ticket, word.column);
    let times_word = part(times, word.column + ticket.chars().count() + 1);
    let ticket = ticket_word.number(255)? as u8;
    let times = times_word.number(LONGEST_CONTENTS as u64)? as usize;
    Ok((ticket, times))
}

/// A complaint about the first word, if there is any.
fn nothing_more(rest: &[Word<'_>]) -> Result<(), Complaint> {
    match rest.first() {
        None => Ok(()),
        Some(word) => Err(word.complaint(format!("`{}` is one word too many", word.text))),
    }
}
