//! The checker's verdict on a block paper: the first fault found is the answer.

use crate::counts::Place;
use crate::field::{split_field, JOB_TAG};
use crate::instruction::{
    is_whole_job, job_from, Code, Instruction, Job, INSTRUCTION_BYTES, MOST_ENTRIES,
    MOST_INSTRUCTIONS, MOST_JOBS, MOST_READS, MOST_WRITES,
};

/// A refusal's number, with the field's number from 1 and the place at fault.
#[derive(Clone, Copy, Debug, PartialEq, Eq)]
pub struct Refusal {
    pub number: u8,
    pub field: usize,
    pub place: Place,
}

/// A fault inside one job: the refusal's number and the place.
type Fault = (u8, Place);

/// The jobs of a paper, or its first fault: field by field 1, 2, 3, 4, then that field's job.
pub fn verdict(paper: &[u8]) -> Result<Vec<Job>, Refusal> {
    let mut jobs = Vec::new();
    let mut rest = paper;
    while !rest.is_empty() {
        let field = jobs.len() + 1;
        let (job, after) = first_job(rest, field).map_err(|(number, place)| Refusal {
            number,
            field,
            place,
        })?;
        jobs.push(job);
        rest = after;
    }
    Ok(jobs)
}

/// The job of the first field, which has this number, and the bytes after the field.
fn first_job(bytes: &[u8], number: usize) -> Result<(Job, &[u8]), Fault> {
    let Some((field, after)) = split_field(bytes) else {
        return Err((1, Place(0)));
    };
    if field.tag != JOB_TAG {
        return Err((2, Place(0)));
    }
    if number > MOST_JOBS {
        return Err((3, Place(0)));
    }
    let length = field.contents.len();
    let longest = MOST_INSTRUCTIONS * INSTRUCTION_BYTES;
    if length == 0 || length > longest || !is_whole_job(field.contents) {
        return Err((4, Place(0)));
    }
    let job = job_from(field.contents);
    check_instructions(&job)?;
    check_last(&job)?;
    check_heights(&job)?;
    Ok((job, after))
}

/// Place by place: 5, 6, 11.
fn check_instructions(job: &[Instruction]) -> Result<(), Fault> {
    let (mut reads, mut writes) = (0, 0);
    for (index, instruction) in job.iter().enumerate() {
        let place = Place(index);
        if instruction.code().is_none() {
            return Err((5, place));
        }
        if !instruction.operand_fits(place, job.len()) {
            return Err((6, place));
        }
        reads += usize::from(instruction.is(Code::Read));
        writes += usize::from(instruction.is(Code::Write));
        if reads > MOST_READS || writes > MOST_WRITES {
            return Err((11, place));
        }
    }
    Ok(())
}

/// 7: the last instruction would lead on. A jump there has no later place and is a 6 already.
fn check_last(job: &[Instruction]) -> Result<(), Fault> {
    match job.last().and_then(|last| last.code()) {
        Some(code) if code.leads_on() => Err((7, Place(job.len() - 1))),
        _ => Ok(()),
    }
}

/// Place by place: 8, 10, 9. Jumps lead to later places, so all who lead here come before.
fn check_heights(job: &[Instruction]) -> Result<(), Fault> {
    let mut heights = Heights::of_none(job.len());
    for (index, instruction) in job.iter().enumerate() {
        let place = Place(index);
        let Some(height) = heights.at(place) else {
            return Err((8, place));
        };
        let brought = &heights.brought[index];
        if brought.iter().any(|(_, other)| *other != height) {
            return Err((10, place));
        }
        if instruction.needs() > height || instruction.leaves(height) > MOST_ENTRIES as u64 {
            return Err((9, place));
        }
        heights.lead_on(place, *instruction, height);
    }
    Ok(())
}

/// The places that lead to each place so far, with the heights they bring.
struct Heights {
    brought: Vec<Vec<(Place, u64)>>,
}

impl Heights {
    /// Before any instruction of a job so long was looked at.
    fn of_none(length: usize) -> Heights {
        let brought = vec![Vec::new(); length];
        Heights { brought }
    }

    /// The height at a place, by the first that leads there; place 0 has height 0.
    fn at(&self, place: Place) -> Option<u64> {
        let brought = self.brought[place.0].first().map(|(_, height)| *height);
        brought.or((place.0 == 0).then_some(0))
    }

    /// Brings the height that an instruction leaves to all it leads to.
    fn lead_on(&mut self, place: Place, instruction: Instruction, height: u64) {
        for target in instruction.leads_to(place) {
            if let Some(brought) = self.brought.get_mut(target.0) {
                brought.push((place, instruction.leaves(height)));
            }
        }
    }
}

/// Who leads to a place that no fault comes before, with the heights they bring.
pub fn heights_brought(job: &[Instruction], here: Place) -> Vec<(Place, u64)> {
    let mut heights = Heights::of_none(job.len());
    for (index, instruction) in job.iter().enumerate().take(here.0) {
        let height = heights.at(Place(index)).unwrap_or_default();
        heights.lead_on(Place(index), *instruction, height);
    }
    heights.brought.swap_remove(here.0)
}
