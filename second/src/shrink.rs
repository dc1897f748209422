//! Makes a failing session smaller while it keeps failing.

use crate::field::{split_field, CELL_TAG, JOB_TAG, TURNS_TAG};
use crate::generate::spoil::{draft_bytes, Draft};
use crate::instruction::{is_whole_job, job_bytes, job_from, Code, INSTRUCTION_BYTES};
use std::ops::Range;

/// At most so many smaller sessions are tried, for each may start a process.
const MOST_TRIES: usize = 4_000;

/// One way to make a session smaller.
enum Cut {
    /// Bytes of a field's contents, by the field's number from 0.
    Contents(usize, Range<usize>),
    /// Whole fields; the turns of a job go with it, and higher tickets fall by one.
    Fields(Range<usize>),
    /// Instructions of a job, by the field's number; jumps past them come nearer.
    Instructions(usize, Range<usize>),
    /// Bytes of an input that is not made of fields.
    Bytes(Range<usize>),
}

/// The smallest session found that still fails the test.
pub fn shrink(input: &[u8], mut fails: impl FnMut(&[u8]) -> bool) -> Vec<u8> {
    let mut smallest = input.to_vec();
    let mut position = 0;
    let mut helped = false;
    for _ in 0..MOST_TRIES {
        let Some(cut) = cuts(&smallest).into_iter().nth(position) else {
            // All were tried: once more from the first if any helped.
            if !helped {
                break;
            }
            (position, helped) = (0, false);
            continue;
        };
        let smaller = apply(&smallest, cut);
        if smaller.len() < smallest.len() && fails(&smaller) {
            // The next cut of the smaller session stands at about the same position.
            smallest = smaller;
            helped = true;
        } else {
            position += 1;
        }
    }
    smallest
}

/// The fields of an input; none if its framing is bad.
fn drafts_of(input: &[u8]) -> Option<Vec<Draft>> {
    let mut drafts = Vec::new();
    let mut rest = input;
    while !rest.is_empty() {
        let (field, after) = split_field(rest)?;
        drafts.push(Draft {
            tag: field.tag,
            contents: field.contents.to_vec(),
        });
        rest = after;
    }
    Some(drafts)
}

/// Every cut of a session, the largest of each kind first.
fn cuts(input: &[u8]) -> Vec<Cut> {
    let Some(drafts) = drafts_of(input) else {
        return halves(input.len()).map(Cut::Bytes).collect();
    };
    let mut cuts: Vec<Cut> = halves(drafts.len()).map(Cut::Fields).collect();
    // The turns, which come last, first: most of them can go at once.
    for (index, draft) in drafts.iter().enumerate().rev() {
        let length = draft.contents.len();
        if draft.tag == JOB_TAG && is_whole_job(&draft.contents) {
            let count = length / INSTRUCTION_BYTES;
            let runs = halves(count).chain(windows(count));
            cuts.extend(runs.map(|places| Cut::Instructions(index, places)));
        } else if draft.tag != CELL_TAG {
            cuts.extend(halves(length).map(|range| Cut::Contents(index, range)));
        }
    }
    cuts
}

/// Ranges that cover a length: all of it, its halves, quarters, down to single items.
fn halves(length: usize) -> impl Iterator<Item = Range<usize>> {
    let sizes = std::iter::successors(Some(length), |size| (*size > 1).then_some(size.div_ceil(2)));
    sizes.filter(|size| *size > 0).flat_map(move |size| {
        let starts = (0..length).step_by(size);
        starts.map(move |start| start..(start + size).min(length))
    })
}

/// Runs of up to six items, for a few instructions in a row may belong together.
fn windows(length: usize) -> impl Iterator<Item = Range<usize>> {
    let sizes = (1..=length.min(6)).rev();
    sizes.flat_map(move |size| (0..=length - size).map(move |start| start..start + size))
}

/// The input after a cut.
fn apply(input: &[u8], cut: Cut) -> Vec<u8> {
    let mut drafts = drafts_of(input).unwrap_or_default();
    match cut {
        Cut::Bytes(range) => return [&input[..range.start], &input[range.end..]].concat(),
        Cut::Contents(index, range) => drop(drafts[index].contents.drain(range)),
        Cut::Instructions(index, places) => cut_instructions(&mut drafts[index], places),
        Cut::Fields(range) => range.rev().for_each(|index| cut_field(&mut drafts, index)),
    }
    draft_bytes(&drafts)
}

/// Drops a field and, for a job, what the turns say of it.
fn cut_field(drafts: &mut Vec<Draft>, index: usize) {
    let is_job = |draft: &&Draft| draft.tag == JOB_TAG;
    let ticket = drafts[..=index].iter().filter(is_job).count() as u8;
    let dropped = drafts.remove(index);
    if dropped.tag != JOB_TAG {
        return;
    }
    for draft in drafts.iter_mut().filter(|draft| draft.tag == TURNS_TAG) {
        draft.contents.retain(|turn| *turn != ticket);
        for turn in draft.contents.iter_mut().filter(|turn| **turn > ticket) {
            *turn -= 1;
        }
    }
}

/// Drops instructions of a job.
fn cut_instructions(draft: &mut Draft, places: Range<usize>) {
    let mut job = job_from(&draft.contents);
    for place in places.rev() {
        job.remove(place);
        for jump in &mut job {
            let is_jump = jump.code().is_some_and(Code::is_jump);
            if is_jump && jump.operand > place as u64 {
                jump.operand -= 1;
            }
        }
    }
    draft.contents = job_bytes(&job);
}
