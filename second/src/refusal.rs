//! Refusals: a number and a position. Each row of document 01's table, with the rows that document 02
//! adds, is one function, which gives the first place at fault.

use crate::blinding::Reserved;
use crate::circuit::Circuit;
use crate::domain::{self, Domain};
use crate::field::{Element, MODULUS};
use crate::polynomial;
use crate::record;

/// The number of a row of the table, and a position from 0.
#[derive(Clone, Copy, Debug, PartialEq, Eq)]
pub struct Refusal {
    pub number: u32,
    pub position: usize,
}

/// The refusal with a number at the position of the first fault, if there is one.
fn refuse_at(number: u32, fault: Option<usize>) -> Result<(), Refusal> {
    match fault {
        Some(position) => Err(Refusal { number, position }),
        None => Ok(()),
    }
}

/// The refusal with a number at position 0 unless a condition holds.
fn refuse_unless(number: u32, condition: bool) -> Result<(), Refusal> {
    refuse_at(number, if condition { None } else { Some(0) })
}

/// The place of the first size that is not allowed, or of |X| where it is above |C|, the size before it.
fn size_fault(sizes: &[u32]) -> Option<usize> {
    (0..sizes.len()).find(|&place| !domain::is_size(sizes[place]) || place == 2 && sizes[2] > sizes[1])
}

/// 1: a step out of turn.
pub(crate) fn turn(in_turn: bool) -> Result<(), Refusal> {
    refuse_unless(1, in_turn)
}

/// 2: under 72 bytes, not whole words, or a last word other than length - 72.
pub(crate) fn record_end(bytes: &[u8]) -> Result<(), Refusal> {
    let last = record::words(bytes).last();
    let whole = bytes.len() >= record::TRAILER_BYTES && bytes.len().is_multiple_of(4);
    let agrees = last.map(|word| u64::from(word) + record::TRAILER_BYTES as u64);
    refuse_unless(2, whole && agrees == Some(bytes.len() as u64))
}

/// 3: a size, then a start, then a total length that is at fault, in the trailer's 18 words.
pub(crate) fn trailer(words: &[u32; 18]) -> Result<(), Refusal> {
    let sizes = record::trailer_sizes(words);
    refuse_at(3, size_fault(&sizes).map(|place| place + 11))?;
    let starts = record::starts(sizes);
    let differs = |place: usize, start: usize| words[place] as usize != start;
    refuse_at(3, (0..11).find(|&place| differs(place, starts[place])))?;
    refuse_at(3, Some(17).filter(|&place| differs(place, starts[11])))
}

/// 4: a size not allowed, or |X| (place 2) above |C| (place 1).
pub(crate) fn sizes(sizes: &[u32]) -> Result<(), Refusal> {
    refuse_at(4, size_fault(sizes))
}

/// 5: a list or lent slice that does not fit.
pub(crate) fn lists(fits: &[bool]) -> Result<(), Refusal> {
    refuse_at(5, fits.iter().position(|&fit| !fit))
}

/// 5: a section number above 10, which names a list that is not there.
pub(crate) fn section_number(number: usize) -> Result<(), Refusal> {
    refuse_at(5, Some(number).filter(|&number| number > 10))
}

/// 6: a field word of p or more.
pub(crate) fn words(words: impl IntoIterator<Item = u32>) -> Result<(), Refusal> {
    refuse_at(6, words.into_iter().position(|word| word >= MODULUS))
}

/// 12, after the words: an inverse asked of 0.
pub(crate) fn inverse(found: Option<Element>) -> Result<Element, Refusal> {
    found.ok_or(Refusal { number: 12, position: 0 })
}

/// 7: an entry with a row or column past its domain, with value 0, or not above the entry before it in its matrix.
pub(crate) fn entries(sizes: [u32; 3], lists: [&[u32]; 3]) -> Result<(), Refusal> {
    let mut faults = Vec::new();
    for list in lists {
        let mut before = None;
        for entry in list.chunks_exact(3) {
            let place = (entry[0], entry[1]);
            let outside = entry[0] >= sizes[0] || entry[1] >= sizes[1];
            faults.push(outside || entry[2] == 0 || Some(place) <= before);
            before = Some(place);
        }
    }
    refuse_at(7, faults.iter().position(|&fault| fault))
}

/// 7: a row past its domain, or of no matrix.
pub(crate) fn row(is_there: bool) -> Result<(), Refusal> {
    refuse_unless(7, is_there)
}

/// 14, after the entries: an entry added where one stands, or removed where none stands.
pub(crate) fn place(is_right: bool) -> Result<(), Refusal> {
    refuse_unless(14, is_right)
}

/// 15, after the entries: no three columns to reserve, or an entry in the reserved row or columns.
pub(crate) fn blinding(free: Option<Reserved>) -> Result<Reserved, Refusal> {
    free.ok_or(Refusal { number: 15, position: 0 })
}

/// 8: a mask polynomial whose values over C do not add to 0.
pub(crate) fn mask(mask: &[Element], columns: &Domain) -> Result<(), Refusal> {
    let points = columns.elements().iter();
    let total: Element = points.map(|&point| polynomial::value_at(mask, point)).sum();
    refuse_unless(8, total == Element::ZERO)
}

/// 13, after the mask: a z or x that does not begin with 1, the constant of column 0.
pub(crate) fn constant(words: &[u32]) -> Result<(), Refusal> {
    refuse_unless(13, words.first() == Some(&1))
}

/// 9: an assignment that fails a row.
pub(crate) fn assignment(circuit: &Circuit, assignment: &[Element]) -> Result<(), Refusal> {
    let [a, b, c] = &circuit.matrices;
    let [a, b, c] = [a, b, c].map(|matrix| circuit.row_sums(matrix, assignment));
    refuse_at(9, (0..a.len()).find(|&row| a[row] * b[row] != c[row]))
}

/// 10: a challenge in its forbidden domain; α has position 0, β 1, γ 2.
pub(crate) fn challenge(position: usize, challenge: Element, forbidden: &Domain) -> Result<(), Refusal> {
    refuse_at(10, Some(position).filter(|_| forbidden.contains(challenge)))
}

/// 11: a declared length above that of the table of messages.
pub(crate) fn declared_lengths(declared: &[u32], limits: &[usize]) -> Result<(), Refusal> {
    let mut pairs = declared.iter().zip(limits);
    refuse_at(11, pairs.position(|(&length, &limit)| length as usize > limit))
}
