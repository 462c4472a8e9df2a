//! The calls on a circuit that grows as functions of its words in memory, whether or not calls made them: a
//! direct rendering of how the words are read and changed. Nothing but the words is looked at, and every word
//! may be anything.
//!
//! A matrix has as many entries as its total says, but not over 1,024. Row 0 begins at entry 0, and each other
//! row where the one before it ends: as many entries on as that one's count says, but not past the total.

use crate::growing::{counts_place, entries_place, total_place, GrowingCircuit, CIRCUIT_WORDS, ENTRY_WORDS, MOST};
use crate::index;
use crate::refusal::{self, Refusal};

/// A circuit's words.
#[derive(Clone, Debug, PartialEq, Eq)]
pub struct CircuitWords(Vec<u32>);

impl CircuitWords {
    pub fn from_words(words: &[u32; CIRCUIT_WORDS]) -> CircuitWords {
        CircuitWords(words.to_vec())
    }

    /// A beginning sets every word, whatever the words were before.
    pub fn begin(&mut self, begun: Result<GrowingCircuit, Refusal>) -> Result<(), Refusal> {
        self.0 = begun?.words();
        Ok(())
    }

    pub fn words(&self) -> &[u32] {
        &self.0
    }

    /// Puts an entry at its place: those from there up to the total move on by one.
    pub fn add(&mut self, matrix: u32, entry: [u32; ENTRY_WORDS]) -> Result<(), Refusal> {
        let [row, column, value] = entry;
        let [rows, columns, public] = self.sizes();
        let number = matrix as usize;
        refusal::lists(&[matrix < 3 && (self.0[total_place(number)] as usize) < MOST])?;
        refusal::words([value])?;
        refusal::entries([rows.min(MOST as u32), columns, public], [&entry, &[], &[]])?;
        refusal::place(!self.is_occupied(matrix, row, column))?;
        let total = self.total(number);
        let count = self.row_length(number, row as usize);
        let from = entries_place(number) + ENTRY_WORDS * self.place_of(number, row as usize, column);
        let to = entries_place(number) + ENTRY_WORDS * total;
        self.0.copy_within(from..to, from + ENTRY_WORDS);
        self.0[from..from + ENTRY_WORDS].copy_from_slice(&entry);
        self.0[total_place(number)] = total as u32 + 1;
        self.0[counts_place(number) + row as usize] = count as u32 + 1;
        Ok(())
    }

    /// Takes an entry from its place: those after it up to the total move back by one, with zeros after them.
    pub fn remove(&mut self, matrix: u32, row: u32, column: u32) -> Result<(), Refusal> {
        refusal::place(self.is_occupied(matrix, row, column))?;
        let number = matrix as usize;
        let total = self.total(number);
        let count = self.row_length(number, row as usize);
        let from = entries_place(number) + ENTRY_WORDS * self.place_of(number, row as usize, column);
        let to = entries_place(number) + ENTRY_WORDS * total;
        self.0.copy_within(from + ENTRY_WORDS..to, from);
        self.0[to - ENTRY_WORDS..to].fill(0);
        self.0[total_place(number)] = total as u32 - 1;
        self.0[counts_place(number) + row as usize] = count as u32 - 1;
        Ok(())
    }

    /// Where the entries of a row stand: the first word, and how many words.
    pub fn find_row(&self, matrix: u32, row: u32) -> Result<(usize, usize), Refusal> {
        let (number, place) = (matrix as usize, row as usize);
        refusal::row(matrix < 3 && place < MOST && row < self.sizes()[0])?;
        let start = entries_place(number) + ENTRY_WORDS * self.row_start(number, place);
        Ok((start, ENTRY_WORDS * self.row_length(number, place)))
    }

    /// The index polynomials of the entries up to each total.
    pub fn index(&self, lent: [&mut [u32]; 12]) -> Result<(), Refusal> {
        index::index(self.sizes(), self.lists(), lent)
    }

    /// |R|, |C|, |X|, as they stand.
    pub fn sizes(&self) -> [u32; 3] {
        [self.0[0], self.0[1], self.0[2]]
    }

    /// The parts of memory that hold the entries of A, B and C.
    pub fn lists(&self) -> [&[u32]; 3] {
        [0, 1, 2].map(|number| &self.0[entries_place(number)..][..ENTRY_WORDS * self.total(number)])
    }

    /// How many entries matrix 0, 1 or 2 has.
    fn total(&self, number: usize) -> usize {
        (self.0[total_place(number)] as usize).min(MOST)
    }

    /// The entry with which a row below 1,024 begins, or at which the last one ends.
    fn row_start(&self, number: usize, row: usize) -> usize {
        let counts = &self.0[counts_place(number)..][..row];
        counts.iter().fold(0, |start, &count| (start + count as usize).min(self.total(number)))
    }

    /// How many entries a row has.
    fn row_length(&self, number: usize, row: usize) -> usize {
        self.row_start(number, row + 1) - self.row_start(number, row)
    }

    fn column_at(&self, number: usize, place: usize) -> u32 {
        self.0[entries_place(number) + ENTRY_WORDS * place + 1]
    }

    /// The place of a column in a row, by halving: where columns rise, that of the first one not below it.
    fn place_of(&self, number: usize, row: usize, column: u32) -> usize {
        let mut start = self.row_start(number, row);
        let mut count = self.row_length(number, row);
        while count > 0 {
            let half = count / 2;
            if self.column_at(number, start + half) < column {
                start += half + 1;
                count -= half + 1;
            } else {
                count = half;
            }
        }
        start
    }

    /// Whether an entry stands at a row and column: one of the row has this column at the column's place.
    fn is_occupied(&self, matrix: u32, row: u32, column: u32) -> bool {
        let (number, row) = (matrix as usize, row as usize);
        if number >= 3 || row >= MOST {
            return false;
        }
        let place = self.place_of(number, row, column);
        place < self.row_start(number, row + 1) && self.column_at(number, place) == column
    }
}
