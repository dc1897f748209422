//! The tests: 01's own lines first, then what this program adds.

mod calls;
mod comparison;
mod draw;
mod edge;
mod engine;
mod errors;
mod examples;
mod explain;
mod faults;
mod generators;
mod header;
mod machine;
mod malformed;
mod manual;
mod scripts;
mod text_form;
mod usage;

use crate::assemble::assemble;
use crate::papers::verdict_line;
use crate::rule::Rule;
use crate::session::play;
use std::path::Path;

/// The bytes that a text assembles to.
fn bytes(text: &str) -> Vec<u8> {
    assemble(text).unwrap_or_else(|complaint| panic!("{complaint}\n{text}"))
}

/// What playing a session in the text form prints.
fn played(text: &str) -> String {
    play(&bytes(text), None)
}

/// What a mutant prints for it.
fn played_by_mutant(text: &str, broken: Rule) -> String {
    play(&bytes(text), Some(broken))
}

/// The checker's line for the paper that job texts make, instructions parted by commas.
fn checked(jobs: &[&str]) -> String {
    verdict_line(&paper(jobs))
}

/// The paper that job texts make.
fn paper(jobs: &[&str]) -> Vec<u8> {
    bytes(&job_lines(jobs))
}

/// The session of job texts with these turns, all cells 0.
fn session(jobs: &[&str], turns: &str) -> String {
    job_lines(jobs) + "turns " + turns
}

/// Job texts in the text form, a line for each instruction.
fn job_lines(jobs: &[&str]) -> String {
    let lines = |job: &&str| format!("job\n{}\n", job.replace(", ", "\n"));
    jobs.iter().map(lines).collect()
}

/// Output lines parted by a slash, as 01 writes them.
fn lines(told: &str) -> String {
    told.split(" / ").map(|line| format!("{line}\n")).collect()
}

/// The text of an example.
fn example(name: &str) -> String {
    let folder = Path::new(env!("CARGO_MANIFEST_DIR")).join("../examples");
    let path = folder.join(name).with_extension("session");
    std::fs::read_to_string(path).expect("the example")
}
