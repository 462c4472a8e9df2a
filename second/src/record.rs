//! The proof record: eleven sections of little-endian words without gaps, then the trailer of 18 words.

use crate::message;
use crate::refusal::{self, Refusal};

/// The trailer's length in bytes.
pub(crate) const TRAILER_BYTES: usize = 72;

/// The whole words of bytes.
pub(crate) fn words(bytes: &[u8]) -> impl Iterator<Item = u32> + '_ {
    bytes.chunks_exact(4).map(|word| u32::from_le_bytes([word[0], word[1], word[2], word[3]]))
}

/// The byte starts of the eleven sections and of the trailer, from allowed sizes.
pub(crate) fn starts(sizes: [u32; 6]) -> [usize; 12] {
    let mut starts = [0; 12];
    for (place, length) in message::lengths(sizes).into_iter().enumerate() {
        starts[place + 1] = starts[place] + 4 * length;
    }
    starts
}

/// The six sizes of a trailer.
pub(crate) fn trailer_sizes(trailer: &[u32; 18]) -> [u32; 6] {
    [11, 12, 13, 14, 15, 16].map(|place| trailer[place])
}

/// The last 18 words of a record that has them.
fn trailer_words(bytes: &[u8]) -> [u32; 18] {
    let mut trailer = [0; 18];
    let tail = &bytes[bytes.len() - TRAILER_BYTES..];
    for (place, word) in trailer.iter_mut().zip(words(tail)) {
        *place = word;
    }
    trailer
}

/// Sizes in trailer order; sections w, m, h0, s, g1, h1, o, ga, gb, gc, h2.
pub fn write_record(sizes: [u32; 6], sections: [&[u32]; 11], lent_bytes: &mut [u8]) -> Result<(), Refusal> {
    refusal::sizes(&sizes)?;
    let starts = starts(sizes);
    let lengths = message::lengths(sizes).into_iter();
    let mut fits: Vec<bool> = lengths.zip(sections).map(|(length, section)| section.len() == length).collect();
    fits.push(lent_bytes.len() == starts[11] + TRAILER_BYTES);
    refusal::lists(&fits)?;
    refusal::words(sections.concat())?;
    let starts = starts.map(|start| start as u32);
    let words = sections.concat().into_iter();
    let words = words.chain(starts[..11].iter().copied()).chain(sizes).chain([starts[11]]);
    for (place, word) in lent_bytes.chunks_exact_mut(4).zip(words) {
        place.copy_from_slice(&word.to_le_bytes());
    }
    Ok(())
}

/// The six sizes of a record, read from its last word back, after the checks 2 and 3.
fn sizes_at_end(bytes: &[u8]) -> Result<[u32; 6], Refusal> {
    refusal::record_end(bytes)?;
    let trailer = trailer_words(bytes);
    refusal::trailer(&trailer)?;
    Ok(trailer_sizes(&trailer))
}

/// Check 6 of the words before a record's trailer.
fn check_words(bytes: &[u8]) -> Result<(), Refusal> {
    refusal::words(words(&bytes[..bytes.len() - TRAILER_BYTES]))
}

/// The six sizes of a record.
pub fn read_record(bytes: &[u8]) -> Result<[u32; 6], Refusal> {
    let sizes = sizes_at_end(bytes)?;
    check_words(bytes)?;
    Ok(sizes)
}

/// A section of a record, numbered from 0 to 10, as that part of the caller's bytes.
pub fn section(bytes: &[u8], number: usize) -> Result<&[u8], Refusal> {
    let starts = starts(sizes_at_end(bytes)?);
    refusal::section_number(number)?;
    check_words(bytes)?;
    Ok(&bytes[starts[number]..starts[number + 1]])
}
