//! Blinding (document 02, request 4): the last row and the three highest columns that are not public become
//! those of the blinding words ρ_A, ρ_B, ρ_C. A, B and C get an entry of value 1 in that row at the lowest,
//! middle and highest of the columns, and z gets the words there.

use crate::circuit;
use crate::growing::ENTRY_WORDS;
use crate::refusal::{self, Refusal};

/// The row and the columns that are reserved.
pub(crate) struct Reserved {
    row: u32,
    /// Of A, B and C, rising.
    columns: [u32; 3],
}

impl Reserved {
    /// From allowed sizes, where at least three columns are not public: not a multiple of |C|/|X|.
    fn new(sizes: [u32; 3]) -> Option<Reserved> {
        let [rows, columns, public] = sizes;
        let step = columns / public;
        let private: Vec<u32> = (0..columns).filter(|column| !column.is_multiple_of(step)).collect();
        let highest = private.last_chunk()?;
        Some(Reserved { row: rows - 1, columns: *highest })
    }

    /// Whether no entry of three lists stands in the row or in one of the columns.
    fn are_free(&self, lists: [&[u32]; 3]) -> bool {
        let mut entries = lists.into_iter().flat_map(|list| list.chunks_exact(ENTRY_WORDS));
        entries.all(|entry| entry[0] != self.row && !self.columns.contains(&entry[1]))
    }
}

/// Whether an entry list is whole entries and has room for one more.
fn has_room(list: &[u32]) -> bool {
    list.len().is_multiple_of(ENTRY_WORDS) && circuit::is_count(list.len() / ENTRY_WORDS + 1)
}

/// Fills the lent slices with the blinded entry lists of A, B and C, an entry longer each, and with the blinded
/// assignment.
pub fn blind(
    sizes: [u32; 3],
    entries: [&[u32]; 3],
    assignment: &[u32],
    rho: [u32; 3],
    lent_entries: [&mut [u32]; 3],
    lent_assignment: &mut [u32],
) -> Result<(), Refusal> {
    refusal::sizes(&sizes)?;
    let columns = sizes[1] as usize;
    let mut fits = entries.map(has_room).to_vec();
    fits.push(assignment.len() == columns);
    fits.extend(lent_entries.iter().zip(entries).map(|(lent, list)| lent.len() == list.len() + ENTRY_WORDS));
    fits.push(lent_assignment.len() == columns);
    refusal::lists(&fits)?;
    refusal::words(circuit::value_words(&entries).chain(assignment.iter().copied()).chain(rho))?;
    refusal::entries(sizes, entries)?;
    let reserved = refusal::blinding(Reserved::new(sizes).filter(|reserved| reserved.are_free(entries)))?;
    refusal::constant(assignment)?;
    lent_assignment.copy_from_slice(assignment);
    for (matrix, lent) in lent_entries.into_iter().enumerate() {
        let column = reserved.columns[matrix];
        lent.copy_from_slice(&[entries[matrix], &[reserved.row, column, 1]].concat());
        lent_assignment[column as usize] = rho[matrix];
    }
    Ok(())
}
