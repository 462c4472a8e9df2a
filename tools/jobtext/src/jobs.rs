//! Jobs: text to bytes and back.

use crate::{bytes, parts, word, words, Shown, TextError};
use second::MODULUS;

/// What the three words of an entry are, by matrix.
pub const MATRICES: [&str; 3] = ["A: row, column, value", "B: row, column, value", "C: row, column, value"];
/// The words before the entries: three sizes and three entry counts.
const HEAD: usize = 6;

/// What the next word of a job is called, by the words before it; nothing for a field word.
fn no_field_word(before: &[u32]) -> Option<&'static str> {
    let entry_words = || 3 * before[3..HEAD].iter().map(|&count| u64::from(count)).sum::<u64>();
    match before.len() {
        0..=2 => Some("a size"),
        3..=5 => Some("an entry count"),
        place if (place - HEAD) as u64 >= entry_words() => None,
        place => [Some("a row"), Some("a column"), None][(place - HEAD) % 3],
    }
}

/// The word that a number in a job's text stands for, after the words before it.
fn job_word(number: &str, before: &[u32]) -> Result<u32, String> {
    let Some(digits) = number.strip_prefix('-') else { return word(number) };
    if digits.is_empty() || !digits.bytes().all(|byte| byte.is_ascii_digit()) {
        return Err(format!("'{number}' is not a number"));
    }
    if let Some(name) = no_field_word(before) {
        return Err(format!("{number} is {name}, and only field words can be negative"));
    }
    let modulus = u64::from(MODULUS);
    let remainder = digits.bytes().fold(0, |rest, digit| (10 * rest + u64::from(digit - b'0')) % modulus);
    Ok(((modulus - remainder) % modulus) as u32)
}

/// The bytes of a job's text.
pub fn pack(text: &str) -> Result<Vec<u8>, TextError> {
    let mut packed = Vec::new();
    for (place, line) in text.lines().enumerate() {
        let numbers = line.split('#').next().unwrap_or("");
        for (column, number) in parts(numbers) {
            let word = job_word(number, &packed);
            packed.push(word.map_err(|problem| TextError { line: place + 1, column, problem })?);
        }
    }
    Ok(bytes(&packed))
}

/// Takes a matrix's entries, each a field.
fn take_entries(shown: &mut Shown, matrix: usize, count: u32) {
    let (mut left, name) = (u64::from(count), MATRICES[matrix]);
    while left > 0 && shown.rest.len() >= 3 {
        shown.take(name, 3);
        left -= 1;
    }
    if left > 0 {
        shown.take(name, 3 * left);
    }
}

/// The text of a job, a field to a line; of any bytes, as far as they go.
pub fn show(job: &[u8]) -> String {
    let mut shown = Shown::new(job);
    let (head, columns) = (words(job), u64::from(shown.rest.get(1).copied().unwrap_or(0)));
    shown.take("|R| |C| |X|", 3);
    shown.take("entries of A, B, C", 3);
    if head.len() >= HEAD {
        for matrix in 0..3 {
            take_entries(&mut shown, matrix, head[3 + matrix]);
        }
        let fields =
            [("z", columns), ("r", 1), ("m", 2 * columns), ("alpha", 1), ("eta", 3), ("beta", 1), ("delta", 3)];
        for (name, length) in fields {
            shown.take(name, length);
        }
        shown.take("gamma", 1);
    } else {
        shown.missing.push("all after them".to_string());
    }
    let over = shown.rest.len() as u64;
    if over > 0 {
        shown.take("left over", over);
    }
    let part = &job[job.len() / 4 * 4..];
    if !part.is_empty() {
        shown.text.push_str(&format!("# {} bytes of a word: {part:?}\n", part.len()));
    }
    for missing in &shown.missing {
        shown.text.push_str(&format!("# missing: {missing}\n"));
    }
    shown.text
}
