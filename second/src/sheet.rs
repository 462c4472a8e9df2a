//! The program `sheet`: circuits as text, one a line, to a table with a row for each figure and a column for each circuit.

use crate::field::MODULUS;
use crate::large::Large;
use crate::refusal::{self, Refusal};
use std::fmt::Display;

/// The most bytes of a text.
const TEXT_LIMIT: usize = 2048;
/// The most circuits of a text.
const CIRCUIT_LIMIT: usize = 16;
/// The most entries of a matrix, which is also the largest size.
const ENTRY_LIMIT: u128 = 1024;
/// The bytes of a word and of the record's trailer of 18 words.
const WORD_BYTES: u128 = 4;
const TRAILER_BYTES: u128 = 18 * WORD_BYTES;
/// p.
const P: u128 = MODULUS as u128;

/// What is given of a circuit: |R|, |C|, |X| and the entry counts of A, B, C.
struct Given {
    rows: u128,
    columns: u128,
    public: u128,
    entries: [u128; 3],
}

/// A figure's name, its number for a circuit, and the theorem behind it.
type Row<Number> = (&'static str, fn(&Given) -> Number, &'static str);

/// The rows of the table for one circuit and for single checks, in order.
const ROWS: [Row<u128>; 35] = [
    ("|R|", |g| g.rows, "given"),
    ("|C|", |g| g.columns, "given"),
    ("|X|", |g| g.public, "given"),
    ("entries of A", |g| g.entries[0], "given"),
    ("entries of B", |g| g.entries[1], "given"),
    ("entries of C", |g| g.entries[2], "given"),
    ("size of K_A", |g| g.places(0), "sizeFor"),
    ("size of K_B", |g| g.places(1), "sizeFor"),
    ("size of K_C", |g| g.places(2), "sizeFor"),
    ("size of K", Given::most_places, "largest"),
    ("words of w", |g| g.section(0), "rules-kept"),
    ("words of m", |g| g.section(1), "rules-kept"),
    ("words of h0", |g| g.section(2), "rules-kept"),
    ("words of s", |g| g.section(3), "rules-kept"),
    ("words of g1", |g| g.section(4), "rules-kept"),
    ("words of h1", |g| g.section(5), "rules-kept"),
    ("words of o", |g| g.section(6), "rules-kept"),
    ("words of ga", |g| g.section(7), "rules-kept"),
    ("words of gb", |g| g.section(8), "rules-kept"),
    ("words of gc", |g| g.section(9), "rules-kept"),
    ("words of h2", |g| g.section(10), "rules-kept"),
    ("bytes of the record", Given::record_bytes, "read-written"),
    ("degree of Row", |g| 2 * g.rows - 2, "row-means"),
    ("allowed points of Row", |g| P - g.rows, "allowed-points"),
    ("degree of Line", |g| 2 * g.columns - 1, "line-means"),
    ("allowed points of Line", |g| P - g.columns, "allowed-points"),
    ("degree of Matrix for A", |g| 2 * g.places(0) - 2, "matrix-means"),
    ("degree of Matrix for B", |g| 2 * g.places(1) - 2, "matrix-means"),
    ("degree of Matrix for C", |g| 2 * g.places(2) - 2, "matrix-means"),
    ("degree of Matrix joined", |g| 2 * g.most_places() - 2, "values-caught"),
    ("allowed points of Matrix", |g| P - g.most_places(), "allowed-points"),
    ("triples of eta", |_| P.pow(3), "all-triples"),
    ("triples of eta that save a false sum", |_| P.pow(2), "sums-caught"),
    ("triples of delta", |_| P.pow(3), "all-triples"),
    ("triples of delta that save a false matrix value, at most", |_| P.pow(2), "values-caught"),
];

/// The rows after them, for whole conversations without a witness.
const TUPLE_ROWS: [Row<Large>; 8] = [
    ("allowed challenge tuples", Given::tuples, "allowed-tuples"),
    ("tuples that alpha saves, at most", |g| g.saved(0), "saved-by-alpha"),
    ("tuples that eta saves, at most", |g| g.saved(1), "saved-by-eta"),
    ("tuples that beta saves, at most", |g| g.saved(2), "saved-by-beta"),
    ("tuples that delta saves, at most", |g| g.saved(3), "saved-by-delta"),
    ("tuples that gamma saves, at most", |g| g.saved(4), "saved-by-gamma"),
    ("tuples accepted without a witness, at most", Given::accepted, "few-accepted"),
    ("tuples accepted without a witness, at most one in", Given::one_in, "one-in"),
];

/// The rows after them, for the honest prover's masks: exponents of p.
const MASK_ROWS: [Row<u128>; 2] = [
    ("masks, as a power of p", |g| 2 * g.columns, "all-masks"),
    ("masks for one list of openings, as a power of p", |g| (2 * g.columns).saturating_sub(3), "any-three"),
];

/// The last rows, for repeated conversations.
const REPEAT_ROWS: [Row<usize>; 2] = [
    ("conversations for at most one false proof in 2^64", |g| g.conversations(u64::MAX.into()), "one-list-in"),
    ("conversations for at most one false proof in 2^128", |g| g.conversations(u128::MAX), "one-list-in"),
];

impl Given {
    /// The circuit of a line's numbers: refusal 4 for a size, then 5 for a count over 1,024.
    fn new(numbers: [u128; 6]) -> Result<Given, Refusal> {
        let [rows, columns, public, a, b, c] = numbers;
        refusal::sizes(&[rows, columns, public].map(|size| u32::try_from(size).unwrap_or(u32::MAX)))?;
        refusal::lists(&[a, b, c].map(|count| count <= ENTRY_LIMIT))?;
        Ok(Given { rows, columns, public, entries: [a, b, c] })
    }

    /// |K_M|: the smallest size not below the entry count.
    fn places(&self, matrix: usize) -> u128 {
        self.entries[matrix].max(1).next_power_of_two()
    }

    /// |K|: the largest |K_M|.
    fn most_places(&self) -> u128 {
        self.places(0).max(self.places(1)).max(self.places(2))
    }

    /// The words of a section of the record: w, m, h0, s, g1, h1, o, ga, gb, gc, h2.
    fn section(&self, section: usize) -> u128 {
        match section {
            0 => self.columns - self.public + 1,
            1 => 2 * self.columns,
            2 => self.rows - 1,
            4 => self.columns - 1,
            5 => self.columns,
            7..=9 => self.places(section - 7) - 1,
            10 => self.most_places() - 1,
            _ => 3,
        }
    }

    /// How many challenges α, η, β, δ and γ are allowed.
    fn challenges(&self) -> [u128; 5] {
        [P - self.rows, P.pow(3), P - self.columns, P.pow(3), P - self.most_places()]
    }

    /// N: how many tuples of challenges are allowed.
    fn tuples(&self) -> Large {
        Large::product(&self.challenges())
    }

    /// N with the factor of one challenge replaced by how many of these save a false claim at most.
    fn saved(&self, challenge: usize) -> Large {
        let saving = [2 * self.rows - 2, P.pow(2), 2 * self.columns - 1, P.pow(2), 2 * self.most_places() - 2];
        let mut factors = self.challenges();
        factors[challenge] = saving[challenge];
        Large::product(&factors)
    }

    /// The sum of the five counts.
    fn accepted(&self) -> Large {
        (1..5).fold(self.saved(0), |sum, challenge| sum.plus(&self.saved(challenge)))
    }

    /// The largest k with k times the sum at most N.
    fn one_in(&self) -> Large {
        self.tuples().over(&self.accepted())
    }

    /// The smallest k for which the k-th power of "one in" is above a number: as many digits as the number has in that base.
    fn conversations(&self, number: u128) -> usize {
        Large::from(number).digits_in(&self.one_in())
    }

    fn record_bytes(&self) -> u128 {
        let words: u128 = (0..11).map(|section| self.section(section)).sum();
        WORD_BYTES * words + TRAILER_BYTES
    }
}

/// A number of digits alone; one past 128 bits is as good as the largest.
fn number(digits: &[u8]) -> Option<u128> {
    digits.iter().try_fold(0u128, |number, &digit| {
        digit.is_ascii_digit().then(|| number.saturating_mul(10).saturating_add(u128::from(digit - b'0')))
    })
}

/// What a line holds: nothing, a circuit, or what is wrong with it.
fn line(line: &[u8]) -> Result<Option<Given>, String> {
    let words = line.split(|&byte| matches!(byte, b' ' | b'\t' | b'\r')).filter(|word| !word.is_empty());
    let numbers: Option<Vec<u128>> = words.map(number).collect();
    let numbers = numbers.unwrap_or_else(|| vec![0]); // one number is as wrong as a word that is none
    if numbers.is_empty() {
        return Ok(None);
    }
    let Ok(six) = <[u128; 6]>::try_from(numbers) else {
        return Err("six numbers are |R| |C| |X| and the entry counts of A, B, C".to_string());
    };
    let circuit = Given::new(six).map_err(|Refusal { number, position }| format!("refused {number} {position}"))?;
    Ok(Some(circuit))
}

/// Rows of the table for the circuits.
fn rows<Number: Display>(rows: &[Row<Number>], circuits: &[Given]) -> String {
    let row = |(name, figure, source): &Row<Number>| {
        let numbers: String = circuits.iter().map(|circuit| format!("\t{}", figure(circuit))).collect();
        format!("{name}{numbers}\t{source}\n")
    };
    rows.iter().map(row).collect()
}

/// The text that the program prints for a text.
pub fn sheet(text: &[u8]) -> String {
    if text.len() > TEXT_LIMIT {
        return format!("sheet reads at most {TEXT_LIMIT} bytes\n");
    }
    let mut circuits = Vec::new();
    for (place, bytes) in text.split(|&byte| byte == b'\n').enumerate() {
        match line(bytes) {
            Ok(circuit) => circuits.extend(circuit),
            Err(message) => return format!("line {}: {message}\n", place + 1),
        }
    }
    if circuits.is_empty() {
        return "sheet reads one circuit a line: |R| |C| |X| and the entry counts of A, B, C\n".to_string();
    }
    if circuits.len() > CIRCUIT_LIMIT {
        return format!("sheet takes at most {CIRCUIT_LIMIT} circuits\n");
    }
    rows(&ROWS, &circuits)
        + &rows(&TUPLE_ROWS, &circuits)
        + &rows(&MASK_ROWS, &circuits)
        + &rows(&REPEAT_ROWS, &circuits)
}
