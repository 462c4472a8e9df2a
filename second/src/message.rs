//! The table of messages: the eleven sections in record order, their names and lengths.

pub(crate) const WITNESS: usize = 0;
pub(crate) const MASK: usize = 1;
pub(crate) const ROW_QUOTIENT: usize = 2;
pub(crate) const SUMS: usize = 3;
pub(crate) const LINE_REMAINDER: usize = 4;
pub(crate) const LINE_QUOTIENT: usize = 5;
pub(crate) const VALUES: usize = 6;
pub(crate) const MATRIX_REMAINDERS: [usize; 3] = [7, 8, 9];
pub(crate) const JOINED_QUOTIENT: usize = 10;

/// The sections' names, as the program prints them.
pub(crate) const NAMES: [&str; 11] = ["w", "m", "h0", "s", "g1", "h1", "o", "ga", "gb", "gc", "h2"];

/// The sections' lengths in words, from allowed sizes |R|, |C|, |X|, |K_A|, |K_B|, |K_C|.
pub(crate) fn lengths(sizes: [u32; 6]) -> [usize; 11] {
    let [rows, columns, public, a, b, c] = sizes.map(|size| size as usize);
    [columns - public + 1, 2 * columns, rows - 1, 3, columns - 1, columns, 3, a - 1, b - 1, c - 1, a.max(b).max(c) - 1]
}
