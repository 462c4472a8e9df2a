//! Proof records: made from a job and the lines that `prove` printed for it, and shown as text.

use crate::{parts, word, words, Shown, TextError};
use second::Refusal;

/// The names of the record's sections.
const SECTIONS: [&str; 11] = ["w", "m", "h0", "s", "g1", "h1", "o", "ga", "gb", "gc", "h2"];
/// The names of the trailer's sizes.
const SIZES: [&str; 6] = ["|R|", "|C|", "|X|", "|K_A|", "|K_B|", "|K_C|"];
/// The words and the bytes of the trailer, and the places of its sizes and of its last word.
const TRAILER_WORDS: usize = 18;
const TRAILER_BYTES: usize = 72;
const TRAILER_SIZES: usize = 11;
const TRAILER_LAST: usize = 17;
/// The most entries of a matrix.
const MAX_ENTRIES: u32 = 1024;

/// The six sizes of a job: |K_M| is the smallest size not below the entry count.
fn job_sizes(job: &[u8]) -> Result<[u32; 6], String> {
    let [r, c, x, counts @ ..] = words(job)
        .get(..6)
        .and_then(|head| <[u32; 6]>::try_from(head).ok())
        .ok_or_else(|| format!("the job has {} bytes: it ends before its sizes and entry counts", job.len()))?;
    for (matrix, count) in ["A", "B", "C"].into_iter().zip(counts) {
        if count > MAX_ENTRIES {
            return Err(format!("the job has {count} entries of {matrix}: over 1,024"));
        }
    }
    let [a, b, d] = counts.map(u32::next_power_of_two);
    Ok([r, c, x, a, b, d])
}

/// What is wrong with a size that is refused, by its place among the six.
fn size_fault(place: usize, size: u32) -> String {
    let name = SIZES[place];
    let above = if name == "|X|" { ", or above |C|" } else { "" };
    format!("{name} is {size}, which is no power of two from 1 to 1,024{above}")
}

/// The words of a printed line that begins with a section's name.
fn section(number: usize, name: &str, line: &str) -> Result<Vec<u32>, TextError> {
    let fault = |(column, problem)| TextError { line: number, column, problem };
    let mut parts = parts(line);
    let first = parts.next();
    if first.is_none_or(|(_, part)| part != name) {
        return Err(fault((1, format!("'{line}' where section {name} should stand"))));
    }
    parts.map(|(column, part)| word(part).map_err(|problem| fault((column, problem)))).collect()
}

/// The eleven sections of what `prove` printed, which must end in its verdict.
fn sections(printed: &str) -> Result<Vec<Vec<u32>>, String> {
    let lines: Vec<&str> = printed.lines().collect();
    let first = lines.first().copied().unwrap_or("");
    if first.is_empty() || first.starts_with("refused") || first.starts_with("job too") {
        return Err(format!("there is no proof: prove printed '{first}'"));
    }
    let line = |place: usize| lines.get(place).copied().unwrap_or("");
    let sections = SECTIONS.into_iter().enumerate().map(|(place, name)| section(place + 1, name, line(place)));
    let sections: Result<Vec<_>, TextError> = sections.collect();
    let sections = sections.map_err(|error| error.to_string())?;
    if line(SECTIONS.len()) != "verdict accept" || lines.len() > SECTIONS.len() + 1 {
        return Err(format!("line {}: 'verdict accept' should stand here, and nothing after it", SECTIONS.len() + 1));
    }
    Ok(sections)
}

/// The record of a job's proof: the job gives the six sizes, the lines that `prove` printed give the sections. That the lines are
/// those of this job is judged by the sections' lengths alone.
pub fn record(job: &[u8], printed: &str) -> Result<Vec<u8>, String> {
    let sizes = job_sizes(job)?;
    let sections = sections(printed)?;
    let mut record = vec![0; 4 * sections.iter().map(Vec::len).sum::<usize>() + TRAILER_BYTES];
    let slices: [&[u32]; 11] = std::array::from_fn(|place| sections[place].as_slice());
    second::write_record(sizes, slices, &mut record).map_err(|Refusal { number, position }| {
        let what = match number {
            4 => size_fault(position, sizes[position]),
            5 => format!(
                "section {} has {} words, which the job's sizes do not give",
                SECTIONS[position],
                sections[position].len()
            ),
            _ => format!("word {position} of the sections is {}: p or more", slices.concat()[position]),
        };
        format!("refused {number} {position}: {what}")
    })?;
    Ok(record)
}

/// What is wrong with the end of a record, refusal 2.
fn end_fault(record: &[u8]) -> String {
    let length = record.len();
    match words(record).last() {
        Some(last) if length >= TRAILER_BYTES && length.is_multiple_of(4) => {
            format!("the last word is {last}, and the length less 72 is {}", length - TRAILER_BYTES)
        }
        _ if length < TRAILER_BYTES => format!("{length} bytes are under the 72 of a trailer"),
        _ => format!("{length} bytes are not whole words"),
    }
}

/// What is wrong with a word of a record's trailer, refusal 3.
fn trailer_fault(record: &[u8], place: usize) -> String {
    let trailer = &words(record)[record.len() / 4 - TRAILER_WORDS..];
    let word = trailer[place];
    match place {
        TRAILER_LAST => format!("the sections have {word} bytes, which the sizes do not give"),
        TRAILER_SIZES.. => size_fault(place - TRAILER_SIZES, word),
        _ => format!("the start of section {} is {word}, which the sizes do not give", SECTIONS[place]),
    }
}

/// Why bytes are no record: the refusal's number and position, and what they mean.
pub fn record_fault(record: &[u8]) -> Option<String> {
    let Refusal { number, position } = second::read_record(record).err()?;
    let what = match number {
        2 => end_fault(record),
        3 => trailer_fault(record, position),
        _ => format!("word {position} is {}: p or more", words(record)[position]),
    };
    Some(format!("refused {number} {position}: {what}"))
}

/// The text of a proof record, a section to a line, then its trailer; of any other bytes, their words and the fault.
pub fn show_record(record: &[u8]) -> String {
    let mut shown = Shown::new(record);
    if let Some(fault) = record_fault(record) {
        shown.take("words", record.len() as u64 / 4);
        return format!("{}# {fault}\n", shown.text);
    }
    for (number, name) in SECTIONS.into_iter().enumerate() {
        let length = second::section(record, number).map_or(0, <[u8]>::len);
        shown.take(name, length as u64 / 4);
    }
    shown.take("starts of the sections, in bytes", SECTIONS.len() as u64);
    shown.take("|R| |C| |X| |K_A| |K_B| |K_C|", SIZES.len() as u64);
    shown.take("start of the trailer, in bytes", 1);
    shown.text
}
