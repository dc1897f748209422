//! A session as it is handed in: as text or as bytes, told apart by looking.

use crate::assemble::{assemble_with_lines, Lines};
use crate::field::TAGS;
use crate::words::text_of;

/// A session's bytes, and the lines that gave them if it was text.
pub struct Handed {
    pub bytes: Vec<u8>,
    pub lines: Option<Lines>,
}

impl Handed {
    /// Bytes begin with a tag, and text does not; a complaint if it is neither.
    pub fn from(input: Vec<u8>) -> Result<Handed, String> {
        if input.first().is_some_and(|first| TAGS.contains(first)) {
            let (bytes, lines) = (input, None);
            return Ok(Handed { bytes, lines });
        }
        let assembled = text_of(&input).and_then(assemble_with_lines);
        let (bytes, lines) = assembled.map_err(|complaint| {
            format!("no session: it begins with no tag (01, 10 or 02), and as text: {complaint}")
        })?;
        let lines = Some(lines);
        Ok(Handed { bytes, lines })
    }
}
