//! Papers in text: hex bytes, `#` comments, and a lone `.` after each paper.

use crate::checker::verdict;
use crate::session::refused;
use crate::words::{lines_of_words, Complaint};

/// Bytes on one line of text.
const BYTES_PER_LINE: usize = 27;

/// The papers that a text holds.
pub fn papers_from(text: &str) -> Result<Vec<Vec<u8>>, Complaint> {
    let mut papers = Vec::new();
    let mut paper = Vec::new();
    let mut last = None;
    for word in lines_of_words(text).into_iter().flatten() {
        if word.text == "." {
            papers.push(std::mem::take(&mut paper));
        } else {
            paper.push(word.hex_byte()?);
        }
        last = Some(word);
    }
    match last {
        Some(word) if word.text != "." => Err(word.complaint("no `.` after the last paper")),
        _ => Ok(papers),
    }
}

/// The text that holds one paper.
pub fn paper_text(paper: &[u8]) -> String {
    let mut text = String::new();
    for bytes in paper.chunks(BYTES_PER_LINE) {
        let words: Vec<String> = bytes.iter().map(|byte| format!("{byte:02x}")).collect();
        text += &words.join(" ");
        text.push('\n');
    }
    text + ".\n"
}

/// The checker's verdict on a paper, as one line.
pub fn verdict_line(paper: &[u8]) -> String {
    match verdict(paper) {
        Ok(jobs) => format!("passes {}\n", jobs.len()),
        Err(refusal) => refused(refusal),
    }
}
