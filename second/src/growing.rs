//! Circuits that grow by the entry (document 02, request 3): three lists of entries in order, to which an
//! entry is added and from which one is taken. No total and no count is kept: what is asked is found by
//! going through a list, also where the circuit is written out as the words that it has in memory.

use crate::circuit;
use crate::index;
use crate::refusal::{self, Refusal};

/// The most entries of a matrix and the most rows, and so the stored counts and the room for entries.
pub(crate) const MOST: usize = 1024;
/// The words of an entry: row, column, value.
pub(crate) const ENTRY_WORDS: usize = 3;
/// The words of a matrix: the total, the counts, and the entries with zeros after the last.
const MATRIX_WORDS: usize = 1 + MOST + ENTRY_WORDS * MOST;
/// The words of a circuit in memory: the three sizes and the three matrices.
pub const CIRCUIT_WORDS: usize = 3 + 3 * MATRIX_WORDS;

/// A circuit that grows.
#[derive(Clone, Debug, PartialEq, Eq)]
pub struct GrowingCircuit {
    sizes: [u32; 3],
    /// Row, column and value of each entry, rising by row and then column.
    matrices: [Vec<[u32; ENTRY_WORDS]>; 3],
}

/// The word that holds the total of matrix 0, 1 or 2.
pub(crate) fn total_place(matrix: usize) -> usize {
    3 + MATRIX_WORDS * matrix
}

/// The word that holds the count of a matrix's first row.
pub(crate) fn counts_place(matrix: usize) -> usize {
    total_place(matrix) + 1
}

/// The word with which a matrix's entries begin.
pub(crate) fn entries_place(matrix: usize) -> usize {
    counts_place(matrix) + MOST
}

/// A circuit without entries, of sizes |R|, |C|, |X|.
pub fn begin(sizes: [u32; 3]) -> Result<GrowingCircuit, Refusal> {
    begin_from(sizes, [&[], &[], &[]])
}

/// A circuit of sizes |R|, |C|, |X| with the entries of lists that the indexer takes.
pub fn begin_from(sizes: [u32; 3], entries: [&[u32]; 3]) -> Result<GrowingCircuit, Refusal> {
    refusal::sizes(&sizes)?;
    refusal::lists(&entries.map(circuit::fits))?;
    refusal::words(circuit::value_words(&entries))?;
    refusal::entries(sizes, entries)?;
    let entry = |words: &[u32]| [words[0], words[1], words[2]];
    Ok(GrowingCircuit { sizes, matrices: entries.map(|list| list.chunks_exact(ENTRY_WORDS).map(entry).collect()) })
}

impl GrowingCircuit {
    /// Puts an entry, its row, column and value, into a matrix.
    pub fn add(&mut self, matrix: u32, entry: [u32; ENTRY_WORDS]) -> Result<(), Refusal> {
        let [row, column, value] = entry;
        refusal::lists(&[self.list(matrix).is_some_and(|list| list.len() < MOST)])?;
        refusal::words([value])?;
        refusal::entries(self.sizes, [&entry, &[], &[]])?;
        refusal::place(self.find(matrix, row, column).is_none())?;
        let list = &mut self.matrices[matrix as usize];
        list.push(entry);
        list.sort();
        Ok(())
    }

    /// Takes the entry at a row and column out of a matrix.
    pub fn remove(&mut self, matrix: u32, row: u32, column: u32) -> Result<(), Refusal> {
        let found = self.find(matrix, row, column);
        refusal::place(found.is_some())?;
        self.matrices[matrix as usize].retain(|entry| entry[..2] != [row, column]);
        Ok(())
    }

    /// Where the entries of a row stand in the circuit's memory: the first word, and how many words.
    pub fn find_row(&self, matrix: u32, row: u32) -> Result<(usize, usize), Refusal> {
        let length = self.row(matrix, row)?.len();
        let before = self.matrices[matrix as usize].iter().filter(|entry| entry[0] < row).count();
        Ok((entries_place(matrix as usize) + ENTRY_WORDS * before, length))
    }

    /// The words of a row's entries, by column.
    pub fn row(&self, matrix: u32, row: u32) -> Result<Vec<u32>, Refusal> {
        let list = self.list(matrix).filter(|_| row < self.sizes[0]);
        refusal::row(list.is_some())?;
        Ok(list.into_iter().flatten().filter(|entry| entry[0] == row).flatten().copied().collect())
    }

    /// The index polynomials: the twelve lent slices are row, col, rowcol, rowcolval of A, then of B, then of C.
    pub fn index(&self, lent: [&mut [u32]; 12]) -> Result<(), Refusal> {
        let lists = self.lists();
        index::index(self.sizes, lists.each_ref().map(Vec::as_slice), lent)
    }

    /// |R|, |C|, |X|.
    pub fn sizes(&self) -> [u32; 3] {
        self.sizes
    }

    /// The entry lists of A, B and C.
    pub fn lists(&self) -> [Vec<u32>; 3] {
        self.matrices.each_ref().map(|list| list.concat())
    }

    /// The circuit as it stands in memory: the sizes; for each matrix the total, the count of each row, and the
    /// entries with zeros after the last.
    pub fn words(&self) -> Vec<u32> {
        let mut words = self.sizes.to_vec();
        for list in &self.matrices {
            let mut counts = [0; MOST];
            list.iter().for_each(|entry| counts[entry[0] as usize] += 1);
            words.push(list.len() as u32);
            words.extend(counts);
            words.extend(list.concat());
            words.extend(vec![0; ENTRY_WORDS * (MOST - list.len())]);
        }
        words
    }

    /// A matrix's entries, where there is such a matrix.
    fn list(&self, matrix: u32) -> Option<&Vec<[u32; ENTRY_WORDS]>> {
        self.matrices.get(matrix as usize)
    }

    /// The entry at a row and column of a matrix, where one stands.
    fn find(&self, matrix: u32, row: u32, column: u32) -> Option<&[u32; ENTRY_WORDS]> {
        self.list(matrix)?.iter().find(|entry| entry[..2] == [row, column])
    }
}
