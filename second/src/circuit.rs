//! The circuit: its three domains and three matrices, and what the matrices give.

use crate::domain::Domain;
use crate::field::Element;
use crate::refusal::{self, Refusal};

/// The most entries of a matrix.
const ENTRY_LIMIT: usize = 1024;

/// An entry of a matrix.
pub(crate) struct Entry {
    pub row: usize,
    pub column: usize,
    pub value: Element,
}

/// A matrix: its entries in order, and the domain K_M of their places.
pub(crate) struct Matrix {
    pub entries: Vec<Entry>,
    pub places: Domain,
}

/// A circuit that the refusals let through.
pub(crate) struct Circuit {
    pub rows: Domain,
    pub columns: Domain,
    pub public: Domain,
    pub matrices: [Matrix; 3],
}

/// Whether an entry list is whole entries and not too many.
pub(crate) fn fits(list: &[u32]) -> bool {
    list.len().is_multiple_of(3) && is_count(list.len() / 3)
}

/// Whether a number of entries is allowed.
pub(crate) fn is_count(count: usize) -> bool {
    count <= ENTRY_LIMIT
}

/// |K_M| of an entry list; of a list that is too long, the largest size.
pub(crate) fn places_size(list: &[u32]) -> u32 {
    let count = (list.len() / 3).min(ENTRY_LIMIT);
    count.next_power_of_two() as u32
}

/// |R|, |C|, |X| and the three |K_M|, in trailer order.
pub(crate) fn six_sizes(sizes: [u32; 3], lists: [&[u32]; 3]) -> [u32; 6] {
    let [rows, columns, public] = sizes;
    let [a, b, c] = lists.map(places_size);
    [rows, columns, public, a, b, c]
}

/// The field words of three entry lists, in order.
pub(crate) fn value_words<'a>(lists: &'a [&'a [u32]; 3]) -> impl Iterator<Item = u32> + 'a {
    lists.iter().flat_map(|list| list.iter().skip(2).step_by(3).copied())
}

/// The words of an assignment at the public columns: the multiples of |C|/|X|.
pub(crate) fn public_words(sizes: [u32; 3], assignment: &[u32]) -> Vec<u32> {
    let step = (sizes[1] / sizes[2]) as usize;
    assignment.iter().step_by(step).copied().collect()
}

impl Matrix {
    fn new(list: &[u32]) -> Matrix {
        let entries = list.chunks_exact(3).map(|words| Entry {
            row: words[0] as usize,
            column: words[1] as usize,
            value: Element::new(words[2]),
        });
        Matrix { entries: entries.collect(), places: Domain::new(places_size(list)) }
    }
}

impl Circuit {
    /// The circuit of allowed sizes and fitting lists whose words are below p, or refusal 7.
    pub fn admit(sizes: [u32; 3], lists: [&[u32]; 3]) -> Result<Circuit, Refusal> {
        refusal::entries(sizes, lists)?;
        let [rows, columns, public] = sizes.map(Domain::new);
        Ok(Circuit { rows, columns, public, matrices: lists.map(Matrix::new) })
    }

    /// K, the largest K_M.
    pub fn largest_places(&self) -> &Domain {
        let [a, b, c] = self.matrices.each_ref().map(|matrix| &matrix.places);
        let first = if a.size() >= b.size() { a } else { b };
        if first.size() >= c.size() {
            first
        } else {
            c
        }
    }

    /// The values of ẑ_M on R: each row's sum of values times the assignment at their columns.
    pub fn row_sums(&self, matrix: &Matrix, assignment: &[Element]) -> Vec<Element> {
        let mut sums = vec![Element::ZERO; self.rows.size()];
        for entry in &matrix.entries {
            sums[entry.row] = sums[entry.row] + entry.value * assignment[entry.column];
        }
        sums
    }

    /// The values of M̂(α,Y) on C.
    pub fn column_sums_at(&self, matrix: &Matrix, alpha: Element) -> Vec<Element> {
        let mut sums = vec![Element::ZERO; self.columns.size()];
        for entry in &matrix.entries {
            let term = entry.value * self.rows.lagrange_at(entry.row, alpha);
            sums[entry.column] = sums[entry.column] + term;
        }
        sums
    }

    /// M̂(α,β).
    pub fn matrix_at(&self, matrix: &Matrix, alpha: Element, beta: Element) -> Element {
        let terms = matrix.entries.iter().map(|entry| {
            let row = self.rows.lagrange_at(entry.row, alpha);
            entry.value * row * self.columns.lagrange_at(entry.column, beta)
        });
        terms.sum()
    }
}
