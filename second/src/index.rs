//! The indexer: row, col, rowcol and rowcolval polynomials of the three matrices.

use crate::circuit::{self, Circuit, Matrix};
use crate::field::{self, Element};
use crate::polynomial::{self, Polynomial};
use crate::refusal::{self, Refusal};

/// A matrix's index polynomials, each of length |K_M|.
pub(crate) struct MatrixIndex {
    pub row: Polynomial,
    pub column: Polynomial,
    pub product: Polynomial,
    pub weighted: Polynomial,
}

impl MatrixIndex {
    /// Interpolates the entries in order; places after the last entry have row, column and product 1,
    /// and weighted value 0.
    pub fn new(circuit: &Circuit, matrix: &Matrix) -> MatrixIndex {
        let size = matrix.places.size();
        let mut row = vec![Element::ONE; size];
        let mut column = vec![Element::ONE; size];
        let mut product = vec![Element::ONE; size];
        let mut weighted = vec![Element::ZERO; size];
        for (place, entry) in matrix.entries.iter().enumerate() {
            row[place] = circuit.rows.element(entry.row);
            column[place] = circuit.columns.element(entry.column);
            product[place] = row[place] * column[place];
            weighted[place] = product[place] * entry.value;
        }
        let interpolated = |values: &[Element]| polynomial::interpolation(&matrix.places, values);
        MatrixIndex {
            row: interpolated(&row),
            column: interpolated(&column),
            product: interpolated(&product),
            weighted: interpolated(&weighted),
        }
    }

    /// The four polynomials in order.
    pub fn polynomials(&self) -> [&Polynomial; 4] {
        [&self.row, &self.column, &self.product, &self.weighted]
    }
}

/// The twelve lent slices are row, col, rowcol, rowcolval of A, then of B, then of C.
pub fn index(sizes: [u32; 3], entries: [&[u32]; 3], lent: [&mut [u32]; 12]) -> Result<(), Refusal> {
    refusal::sizes(&sizes)?;
    let mut fits = entries.map(circuit::fits).to_vec();
    for (place, slice) in lent.iter().enumerate() {
        fits.push(slice.len() == circuit::places_size(entries[place / 4]) as usize);
    }
    refusal::lists(&fits)?;
    refusal::words(circuit::value_words(&entries))?;
    let circuit = Circuit::admit(sizes, entries)?;
    let indices = circuit.matrices.each_ref();
    let indices = indices.map(|matrix| MatrixIndex::new(&circuit, matrix));
    let polynomials = indices.iter().flat_map(MatrixIndex::polynomials);
    for (slice, polynomial) in lent.into_iter().zip(polynomials) {
        field::fill(slice, polynomial);
    }
    Ok(())
}
