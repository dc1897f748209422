//! Malformed sessions: each kind of breach that refusal 13 names.

use super::spoil::{draft_bytes, Draft};
use crate::field::{split_field, CELL_TAG, HEAD_BYTES, JOB_TAG, TURNS_TAG};
use crate::instruction::INSTRUCTION_BYTES;
use crate::random::Random;
use crate::session::{CELL_BYTES, MOST_BYTES, MOST_TURNS};

/// Makes malformed bytes of a session's drafts, of which the last is the 0x02 field.
pub type Breach = fn(&mut Random, Vec<Draft>) -> Vec<u8>;

/// Every kind of breach.
pub const BREACHES: [Breach; 18] = [
    other_tag,
    extra_field,
    wrong_cell_length,
    equal_cells,
    falling_cells,
    cell_after_job,
    cell_after_turns,
    job_after_turns,
    turns_before_job,
    all_reversed,
    no_turns,
    second_turns,
    too_many_turns,
    cut_short,
    bytes_after,
    wrong_head,
    too_large,
    any_bytes,
];

/// A field with a start value.
fn cell_draft(cell: u8) -> Draft {
    let mut contents = vec![7; CELL_BYTES];
    contents[0] = cell;
    let tag = CELL_TAG;
    Draft { tag, contents }
}

/// A field with the job STOP.
fn job_draft() -> Draft {
    Draft {
        tag: JOB_TAG,
        contents: vec![0; INSTRUCTION_BYTES],
    }
}

/// A tag that no field has.
fn strange_tag(random: &mut Random) -> u8 {
    random.pick(&[0x00, 0x03, 0x0f, 0x11, 0x12, 0x81, 0xff])
}

/// The bytes of some drafts and then others.
fn both(mut first: Vec<Draft>, second: Vec<Draft>) -> Vec<u8> {
    first.extend(second);
    draft_bytes(&first)
}

fn other_tag(random: &mut Random, mut drafts: Vec<Draft>) -> Vec<u8> {
    let index = random.below(drafts.len());
    drafts[index].tag = strange_tag(random);
    draft_bytes(&drafts)
}

fn extra_field(random: &mut Random, mut drafts: Vec<Draft>) -> Vec<u8> {
    let at = random.below(drafts.len() + 1);
    let tag = strange_tag(random);
    let contents = vec![0; random.below(12)];
    drafts.insert(at, Draft { tag, contents });
    draft_bytes(&drafts)
}

fn wrong_cell_length(random: &mut Random, drafts: Vec<Draft>) -> Vec<u8> {
    let mut cell = cell_draft(0);
    cell.contents.resize(random.pick(&[0, 1, 8, 10, 18]), 0);
    both(vec![cell], drafts)
}

fn equal_cells(random: &mut Random, drafts: Vec<Draft>) -> Vec<u8> {
    let cell = random.next() as u8;
    both(vec![cell_draft(cell), cell_draft(cell)], drafts)
}

fn falling_cells(random: &mut Random, drafts: Vec<Draft>) -> Vec<u8> {
    let above = random.between(1, 255);
    let below = random.below(above);
    both(
        vec![cell_draft(above as u8), cell_draft(below as u8)],
        drafts,
    )
}

fn cell_after_job(_: &mut Random, mut drafts: Vec<Draft>) -> Vec<u8> {
    let turns = drafts.split_off(drafts.len() - 1);
    drafts.extend([job_draft(), cell_draft(255)]);
    both(drafts, turns)
}

fn cell_after_turns(_: &mut Random, drafts: Vec<Draft>) -> Vec<u8> {
    both(drafts, vec![cell_draft(255)])
}

fn job_after_turns(_: &mut Random, drafts: Vec<Draft>) -> Vec<u8> {
    both(drafts, vec![job_draft()])
}

fn turns_before_job(random: &mut Random, mut drafts: Vec<Draft>) -> Vec<u8> {
    let turns = drafts.split_off(drafts.len() - 1);
    drafts.push(job_draft());
    let after = drafts.split_off(random.below(drafts.len()));
    drafts.extend(turns);
    both(drafts, after)
}

fn all_reversed(_: &mut Random, mut drafts: Vec<Draft>) -> Vec<u8> {
    // At least one job, so that the 0x02 field is not alone.
    drafts.insert(0, job_draft());
    drafts.reverse();
    draft_bytes(&drafts)
}

fn no_turns(_: &mut Random, mut drafts: Vec<Draft>) -> Vec<u8> {
    drafts.pop();
    draft_bytes(&drafts)
}

fn second_turns(random: &mut Random, drafts: Vec<Draft>) -> Vec<u8> {
    let contents = vec![1; random.below(4)];
    let tag = TURNS_TAG;
    both(drafts, vec![Draft { tag, contents }])
}

fn too_many_turns(random: &mut Random, mut drafts: Vec<Draft>) -> Vec<u8> {
    let length = MOST_TURNS + random.pick(&[1, 2, 96, 1_000]);
    if let Some(turns) = drafts.last_mut() {
        turns.contents.resize(length, 1);
    }
    draft_bytes(&drafts)
}

fn cut_short(random: &mut Random, drafts: Vec<Draft>) -> Vec<u8> {
    let mut bytes = draft_bytes(&drafts);
    bytes.truncate(random.below(bytes.len()));
    bytes
}

fn bytes_after(random: &mut Random, drafts: Vec<Draft>) -> Vec<u8> {
    let mut bytes = draft_bytes(&drafts);
    let length = bytes.len() + random.between(1, 4);
    bytes.resize(length, random.pick(&[0x00, 0x02, 0x10]));
    bytes
}

/// One bit of a head is another: a wrong tag, or a length that tells too much or too little.
fn wrong_head(random: &mut Random, drafts: Vec<Draft>) -> Vec<u8> {
    let mut bytes = draft_bytes(&drafts);
    let at = some_head(random, &bytes) + random.below(HEAD_BYTES);
    bytes[at] ^= 1 << random.below(8);
    bytes
}

/// Where the head of some field begins.
fn some_head(random: &mut Random, bytes: &[u8]) -> usize {
    let mut heads = Vec::new();
    let mut rest = bytes;
    while let Some((_, after)) = split_field(rest) {
        heads.push(bytes.len() - rest.len());
        rest = after;
    }
    random.pick(&heads)
}

fn too_large(random: &mut Random, drafts: Vec<Draft>) -> Vec<u8> {
    let mut bytes = draft_bytes(&drafts);
    let size = random.pick(&[MOST_BYTES + 1, MOST_BYTES + 2, 20_000, 70_000]);
    bytes.resize(size, random.pick(&[0x00, 0x02, 0x10]));
    bytes
}

/// Bytes that look like tags and short lengths.
fn any_bytes(random: &mut Random, _: Vec<Draft>) -> Vec<u8> {
    let length = random.below(40);
    (0..length).map(|_| random.next() as u8 & 0x13).collect()
}
