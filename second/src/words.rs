//! Text taken apart into words that know their line and column, for the text forms.

use std::fmt;

/// One word of a line; line and column count from 1, columns in characters.
#[derive(Clone, Copy, Debug)]
pub struct Word<'a> {
    pub text: &'a str,
    pub line: usize,
    pub column: usize,
}

/// What is wrong with a text, and where.
#[derive(Clone, Debug, PartialEq, Eq)]
pub struct Complaint {
    pub line: usize,
    pub column: usize,
    pub what: String,
}

impl fmt::Display for Complaint {
    fn fmt(&self, out: &mut fmt::Formatter<'_>) -> fmt::Result {
        write!(
            out,
            "line {}, column {}: {}",
            self.line, self.column, self.what
        )
    }
}

impl Word<'_> {
    /// A complaint about this word.
    pub fn complaint(&self, what: impl Into<String>) -> Complaint {
        Complaint {
            line: self.line,
            column: self.column,
            what: what.into(),
        }
    }

    /// The word as a decimal number up to `most`.
    pub fn number(&self, most: u64) -> Result<u64, Complaint> {
        let digits = !self.text.is_empty() && self.text.bytes().all(|byte| byte.is_ascii_digit());
        let number = self.text.parse().ok().filter(|number| *number <= most);
        match number {
            Some(number) if digits => Ok(number),
            _ => Err(self.complaint(format!("`{}` is not a number from 0 to {most}", self.text))),
        }
    }

    /// The word as a byte of two hex digits.
    pub fn hex_byte(&self) -> Result<u8, Complaint> {
        let digits = self.text.len() == 2 && self.text.bytes().all(|byte| byte.is_ascii_hexdigit());
        match u8::from_str_radix(self.text, 16) {
            Ok(byte) if digits => Ok(byte),
            _ => Err(self.complaint(format!("`{}` is not a byte of two hex digits", self.text))),
        }
    }
}

/// What some editors put before a text; it is no part of the text.
const BYTE_ORDER_MARK: &[u8] = b"\xef\xbb\xbf";

/// The text that bytes hold, or a complaint about the first byte that is not UTF-8.
pub fn text_of(bytes: &[u8]) -> Result<&str, Complaint> {
    let bytes = bytes.strip_prefix(BYTE_ORDER_MARK).unwrap_or(bytes);
    std::str::from_utf8(bytes).map_err(|error| {
        let sound = String::from_utf8_lossy(&bytes[..error.valid_up_to()]);
        let line_start = sound.rfind('\n').map_or(0, |newline| newline + 1);
        Complaint {
            line: sound.matches('\n').count() + 1,
            column: sound[line_start..].chars().count() + 1,
            what: "not UTF-8 text".to_string(),
        }
    })
}

/// The words of each line that has any; `#` starts a comment up to the end of the line.
pub fn lines_of_words(text: &str) -> Vec<Vec<Word<'_>>> {
    text.lines()
        .enumerate()
        .map(|(index, line)| words_of_line(line, index + 1))
        .filter(|words| !words.is_empty())
        .collect()
}

/// The words of one line.
fn words_of_line(line_text: &str, line: usize) -> Vec<Word<'_>> {
    let told = line_text.split('#').next().unwrap_or_default();
    let mut words = Vec::new();
    let mut column = 1;
    for text in told.split(char::is_whitespace) {
        if !text.is_empty() {
            words.push(Word { text, line, column });
        }
        // One character of white space parts this piece from the next.
        column += text.chars().count() + 1;
    }
    words
}
