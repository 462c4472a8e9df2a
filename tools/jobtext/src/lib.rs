//! Jobs of the program `prove` and proof records, between text and bytes.
//!
//! The text of a job is its words in decimal, separated by white space or commas; `#` begins a comment that ends with the line. A
//! negative number is read modulo p, however small it is: -1 is p - 1, and -p is 0. That is for field words: a size, an entry count,
//! a row or a column is never negative. A number of p or more stays as it is, for the program to refuse.

#![forbid(unsafe_code)]

mod jobs;
mod records;

pub use jobs::{pack, show, MATRICES};
pub use records::{record, record_fault, show_record};

use std::fmt;

/// The column at which a comment stands after a short field.
const COMMENT_COLUMN: usize = 34;

/// A field of a job: its words, and a comment that names it.
pub struct Field {
    pub words: Vec<u32>,
    comment: String,
}

impl Field {
    pub fn new(comment: &str, words: &[u32]) -> Field {
        Field { words: words.to_vec(), comment: comment.to_string() }
    }
}

impl fmt::Display for Field {
    fn fmt(&self, text: &mut fmt::Formatter) -> fmt::Result {
        let words: Vec<String> = self.words.iter().map(u32::to_string).collect();
        write!(text, "{:COMMENT_COLUMN$} # {}", words.join(" "), self.comment)
    }
}

/// What is wrong with a text, and where: line and column count from 1.
#[derive(Debug, PartialEq, Eq)]
pub struct TextError {
    pub line: usize,
    pub column: usize,
    pub problem: String,
}

impl fmt::Display for TextError {
    fn fmt(&self, text: &mut fmt::Formatter) -> fmt::Result {
        write!(text, "line {}, column {}: {}", self.line, self.column, self.problem)
    }
}

/// The little-endian bytes of words.
pub fn bytes(words: &[u32]) -> Vec<u8> {
    words.iter().flat_map(|word| word.to_le_bytes()).collect()
}

/// The whole words of bytes.
fn words(bytes: &[u8]) -> Vec<u32> {
    bytes.chunks_exact(4).map(|word| u32::from_le_bytes([word[0], word[1], word[2], word[3]])).collect()
}

/// The parts of a line between white space and commas, each with its column.
fn parts(line: &str) -> impl Iterator<Item = (usize, &str)> {
    let parts = line.split(|sign: char| sign.is_whitespace() || sign == ',').filter(|part| !part.is_empty());
    parts.map(|part| {
        let start = part.as_ptr() as usize - line.as_ptr() as usize;
        (line[..start].chars().count() + 1, part)
    })
}

/// The word that a number without a sign stands for.
fn word(number: &str) -> Result<u32, String> {
    if number.is_empty() || !number.bytes().all(|byte| byte.is_ascii_digit()) {
        return Err(format!("'{number}' is not a number"));
    }
    number.parse().map_err(|_| format!("{number} is 2^32 or more"))
}

/// A text of fields that are taken from words in order, with what is missing once the words end.
struct Shown {
    rest: Vec<u32>,
    text: String,
    missing: Vec<String>,
}

impl Shown {
    fn new(bytes: &[u8]) -> Shown {
        Shown { rest: words(bytes), text: String::new(), missing: Vec::new() }
    }

    /// Takes a field of so many words.
    fn take(&mut self, name: &str, length: u64) {
        let given = self.rest.len().min(usize::try_from(length).unwrap_or(usize::MAX));
        let after = self.rest.split_off(given);
        let field = Field::new(name, &std::mem::replace(&mut self.rest, after));
        let lacking = length - given as u64;
        if given > 0 || length == 0 {
            self.text.push_str(&format!("{field}\n"));
        }
        if lacking > 0 {
            self.missing.push(format!("{lacking} of {length} words of {name}"));
        }
    }
}
