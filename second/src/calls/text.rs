//! The words of a call: numbers, bytes and cells, both ways.

use crate::words::{Complaint, Word};

/// The word for no bytes and for no cells.
const NOTHING: &str = "-";

/// The words of a line, which single spaces part.
pub fn words_of_call(text: &str, line: usize) -> Vec<Word<'_>> {
    let whole = Word {
        text,
        line,
        column: 1,
    };
    pieces(whole, ' ')
}

/// The pieces of a word that a character parts.
fn pieces(word: Word<'_>, parting: char) -> Vec<Word<'_>> {
    let mut column = word.column;
    let piece = |text| {
        let piece = Word {
            text,
            column,
            ..word
        };
        column += piece.text.chars().count() + 1;
        piece
    };
    word.text.split(parting).map(piece).collect()
}

/// The word as a number of things at hand.
pub fn count(word: Word<'_>, most: usize) -> Result<usize, Complaint> {
    Ok(word.number(most as u64)? as usize)
}

/// The word as bytes, two hex digits each.
pub fn bytes(word: Word<'_>) -> Result<Vec<u8>, Complaint> {
    if word.text == NOTHING {
        return Ok(Vec::new());
    }
    if word.text.is_empty() || !word.text.is_ascii() {
        return Err(word.complaint("expected bytes of two hex digits, or `-` for none"));
    }
    let byte = |start: usize| {
        let end = word.text.len().min(start + 2);
        let pair = Word {
            text: &word.text[start..end],
            column: word.column + start,
            ..word
        };
        pair.hex_byte()
    };
    (0..word.text.len()).step_by(2).map(byte).collect()
}

/// The word as a table of so many cells, those that it does not name being 0.
pub fn table(word: Word<'_>, length: usize) -> Result<Vec<u64>, Complaint> {
    let mut table = vec![0; length];
    if word.text == NOTHING {
        return Ok(table);
    }
    let mut least = 0;
    for pair in pieces(word, ',') {
        let parts = pieces(pair, '=');
        let [cell, value] = parts[..] else {
            return Err(pair.complaint("expected `cell=value`"));
        };
        let Some(most) = length.checked_sub(1) else {
            return Err(cell.complaint("a table of no cells has none to name"));
        };
        let index = count(cell, most)?;
        if index < least {
            return Err(cell.complaint("expected cells that rise"));
        }
        table[index] = value.number(u64::MAX)?;
        least = index + 1;
    }
    Ok(table)
}

/// The word for bytes.
pub fn bytes_word(bytes: &[u8]) -> String {
    match bytes.is_empty() {
        true => NOTHING.to_string(),
        false => bytes.iter().map(|byte| format!("{byte:02x}")).collect(),
    }
}

/// The word for the cells of a table that are not 0.
pub fn cells_word(table: &[u64]) -> String {
    let cells = table.iter().enumerate();
    let named = cells.filter(|(_, value)| **value != 0);
    let words: Vec<String> = named
        .map(|(cell, value)| format!("{cell}={value}"))
        .collect();
    match words.is_empty() {
        true => NOTHING.to_string(),
        false => words.join(","),
    }
}
