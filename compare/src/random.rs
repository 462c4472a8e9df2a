//! Seeded random words, sizes and satisfied circuits.
//!
//! The environment variable SEED is the seed of all tests, a number below 2^56 (1 by default). COUNT is how many times the random
//! part of each test is done, at least 1 (1 by default): 100 makes a long run.

use crate::blinding::free_columns;
use crate::case::Case;
use second::MODULUS;
use std::collections::{BTreeMap, BTreeSet};

/// The most entries of a matrix.
const ENTRY_LIMIT: u64 = 1024;

/// Words at the boundaries of the field, of the sizes and of 32 bits.
pub const BOUNDARY_WORDS: [u32; 7] = [0, 1, 2, MODULUS - 1, MODULUS, MODULUS + 1, u32::MAX];
/// All sizes.
pub const SIZES: [u32; 11] = [1, 2, 4, 8, 16, 32, 64, 128, 256, 512, 1024];
/// Numbers that are no sizes, and near ones or far.
pub const NO_SIZES: [u32; 10] = [0, 3, 5, 6, 1023, 1025, 2048, 1 << 31, (1 << 31) + 1, u32::MAX];

/// A number of the environment, 1 by default.
fn setting(name: &str) -> u64 {
    let Ok(text) = std::env::var(name) else {
        return 1;
    };
    text.parse().unwrap_or_else(|_| panic!("{name} is {text}, not a number below 2^64"))
}

/// How many times a random test is done, from its default number.
pub fn count(default: u64) -> u64 {
    let times = setting("COUNT");
    assert_ne!(times, 0, "COUNT is 0, and nothing would be compared: it must be at least 1");
    default.checked_mul(times).unwrap_or_else(|| panic!("COUNT is {times}, which is too large"))
}

/// How many comparisons a random test has made. A test that ends without any fails.
#[derive(Default)]
pub struct Compared(u64);

impl Compared {
    pub fn one(&mut self) {
        self.0 += 1;
    }
}

impl Drop for Compared {
    fn drop(&mut self) {
        assert!(std::thread::panicking() || self.0 > 0, "the test has compared nothing");
    }
}

/// Marsaglia's xorshift with 64 bits.
pub struct Random(u64);

impl Random {
    /// Different for each seed and each test, of which there are fewer than 256: the factor is odd, so it keeps them apart.
    pub fn new(test: u64) -> Random {
        let seed = setting("SEED");
        assert!(seed < 1 << 56, "SEED is {seed}: it must be below 2^56");
        let mut random = Random((seed << 8 | test).wrapping_mul(0x9e37_79b9_7f4a_7c15) | 1);
        random.next();
        random
    }

    /// Any 64 bits but 0.
    fn next(&mut self) -> u64 {
        self.0 ^= self.0 << 13;
        self.0 ^= self.0 >> 7;
        self.0 ^= self.0 << 17;
        self.0
    }

    pub fn below(&mut self, bound: u64) -> u64 {
        (self.next() >> 11) % bound
    }

    pub fn place(&mut self, length: usize) -> usize {
        self.below(length as u64) as usize
    }

    pub fn one_in(&mut self, times: u64) -> bool {
        self.below(times) == 0
    }

    pub fn one_of<T: Copy>(&mut self, list: &[T]) -> T {
        list[self.place(list.len())]
    }

    /// Any 32 bits.
    pub fn any(&mut self) -> u32 {
        (self.next() >> 20) as u32
    }

    /// A field word.
    pub fn word(&mut self) -> u32 {
        self.below(u64::from(MODULUS)) as u32
    }

    pub fn nonzero(&mut self) -> u32 {
        1 + self.below(u64::from(MODULUS) - 1) as u32
    }

    pub fn words(&mut self, length: usize) -> Vec<u32> {
        (0..length).map(|_| self.word()).collect()
    }

    /// Public words that an opening takes: the constant 1, then any.
    pub fn public_words(&mut self, length: usize) -> Vec<u32> {
        after_constant(length as u32, |_| self.word())
    }

    pub fn three(&mut self) -> [u32; 3] {
        [self.word(), self.word(), self.word()]
    }

    /// The numbers below a bound, in any order.
    pub fn order(&mut self, bound: usize) -> Vec<u32> {
        let mut order: Vec<u32> = (0..bound as u32).collect();
        for place in (1..order.len()).rev() {
            order.swap(place, self.place(place + 1));
        }
        order
    }

    /// A word at a boundary, small, an element of a domain, a size or near one, or anything.
    pub fn damaged(&mut self) -> u32 {
        match self.below(6) {
            0 | 1 => self.one_of(&BOUNDARY_WORDS),
            2 => self.below(12) as u32,
            3 => self.root(),
            4 => {
                let size = self.one_of(&SIZES);
                self.one_of(&[size, size + 1, size - 1])
            }
            _ => self.any(),
        }
    }

    /// An element of one of the domains.
    pub fn root(&mut self) -> u32 {
        let size = self.one_of(&SIZES);
        self.one_of(&elements(size))
    }

    /// A word outside the domain of a size.
    pub fn outside(&mut self, size: u32) -> u32 {
        loop {
            let word = self.word();
            if power(u64::from(word), u64::from(size)) != 1 {
                return word;
            }
        }
    }

    /// |R|, |C|, |X|, each up to 2^most.
    pub fn sizes(&mut self, most: u64) -> [u32; 3] {
        let columns = self.below(most + 1);
        [self.below(most + 1), columns, self.below(columns + 1)].map(|place| 1 << place)
    }

    /// Six sizes up to 2^most, in trailer order.
    pub fn six_sizes(&mut self, most: u64) -> [u32; 6] {
        let [rows, columns, public] = self.sizes(most);
        let [a, b, c] = [(); 3].map(|()| 1 << self.below(most + 1));
        [rows, columns, public, a, b, c]
    }

    /// A number of entries: none, all that may be, about a power of two, or any.
    fn entry_count(&mut self, most: u64) -> usize {
        let near = 1 << self.below(11);
        let count = match self.below(6) {
            0 => 0,
            1 => most,
            2 => near,
            3 => near + 1,
            _ => self.below(most + 1),
        };
        count.min(most) as usize
    }

    /// An entry list with random places and values.
    fn matrix(&mut self, rows: u32, columns: u32, count: usize) -> Vec<u32> {
        let mut places = BTreeSet::new();
        while places.len() < count {
            places.insert((self.below(u64::from(rows)) as u32, self.below(u64::from(columns)) as u32));
        }
        places.into_iter().flat_map(|(row, column)| [row, column, self.nonzero()]).collect()
    }

    /// An assignment of words, with zeros here and there.
    fn assignment(&mut self, columns: u32) -> Vec<u32> {
        after_constant(columns, |_| if self.one_in(8) { 0 } else { self.word() })
    }

    /// A matrix C with which the assignment satisfies every row: one entry in a row that needs any, or two where there is place,
    /// and entries at zeros of the assignment.
    fn closing_matrix(&mut self, rows: u32, a: &[u32], b: &[u32], z: &[u32]) -> Vec<u32> {
        let filled: Vec<usize> = (0..z.len()).filter(|&column| z[column] != 0).collect();
        let zeros: Vec<usize> = (0..z.len()).filter(|&column| z[column] == 0).collect();
        let [left, right] = [a, b].map(|list| row_sums(list, rows, z));
        let mut list = Vec::new();
        for (row, (&left, &right)) in (0..).zip(left.iter().zip(&right)) {
            let mut wanted = times(left, right);
            let mut entries = BTreeSet::new();
            if wanted != 0 {
                let last = self.one_of(&filled);
                let first = self.one_of(&filled);
                if rows < 512 && first < last {
                    let value = self.nonzero();
                    entries.insert((first, value));
                    wanted = minus(wanted, times(u64::from(value), u64::from(z[first])));
                }
                if wanted != 0 {
                    entries.insert((last, over(wanted, u64::from(z[last])) as u32));
                }
            }
            if rows < 256 && !zeros.is_empty() && self.one_in(4) {
                entries.insert((self.one_of(&zeros), self.nonzero()));
            }
            list.extend(entries.into_iter().flat_map(|(column, value)| [row, column as u32, value]));
        }
        list
    }

    /// A mask polynomial whose values over C add to 0: the coefficients 0 and |C| are opposite.
    fn mask(&mut self, columns: u32) -> Vec<u32> {
        let mut mask = self.words(2 * columns as usize);
        mask[columns as usize] = minus(0, u64::from(mask[0])) as u32;
        mask
    }

    /// A satisfied case with sizes up to 2^most.
    pub fn case(&mut self, most: u64) -> Case {
        let sizes = self.sizes(most);
        let limit = ENTRY_LIMIT.min(2 << most);
        self.case_of(sizes, limit)
    }

    /// A satisfied case of given sizes with at most so many entries in A and in B.
    pub fn case_of(&mut self, sizes: [u32; 3], limit: u64) -> Case {
        let [rows, columns, _] = sizes;
        let most = limit.min(u64::from(rows) * u64::from(columns));
        let [a, b] = [self.entry_count(most), self.entry_count(most)].map(|count| self.matrix(rows, columns, count));
        let assignment = self.assignment(columns);
        self.closed(sizes, a, b, assignment)
    }

    /// A satisfied case of given sizes with at most so many entries in A and in B, without any in the last row and in the columns
    /// that blinding reserves: that of fewer rows and columns, with its columns moved apart.
    pub fn case_to_blind(&mut self, sizes: [u32; 3], limit: u64) -> Case {
        let free = free_columns(sizes[1], sizes[2]);
        let (rows, columns) = (sizes[0] - 1, free.len() as u32);
        let most = limit.min(u64::from(rows) * u64::from(columns));
        let [a, b] = [self.entry_count(most), self.entry_count(most)].map(|count| self.matrix(rows, columns, count));
        let words = self.assignment(columns);
        let c = self.closing_matrix(rows, &a, &b, &words);
        let apart = |entry: &[u32]| [entry[0], free[entry[1] as usize], entry[2]];
        let entries = [a, b, c].map(|list| list.chunks(3).flat_map(apart).collect());
        let mut assignment = self.words(sizes[1] as usize);
        free.iter().zip(words).for_each(|(&column, word)| assignment[column as usize] = word);
        self.with_challenges(sizes, entries, assignment)
    }

    /// A satisfied case of given sizes and numbers of entries. Every fourth word of the assignment is 0: there C has the entries
    /// that no row needs, so its number must be at least that of the rows with entries of both A and B.
    pub fn case_of_counts(&mut self, sizes: [u32; 3], counts: [usize; 3]) -> Case {
        let [rows, columns, _] = sizes;
        let assignment = after_constant(columns, |column| if column % 4 == 1 { 0 } else { self.nonzero() });
        let [a, b] = [0, 1].map(|matrix| self.matrix(rows, columns, counts[matrix]));
        let [left, right] = [&a, &b].map(|list| row_sums(list, rows, &assignment));
        assert!(counts[2] <= (rows * (columns / 4)) as usize, "too many entries of C for its rows and columns");
        let fourth = |random: &mut Random| 4 * random.below(u64::from(columns / 4)) as u32;
        let mut entries = BTreeMap::new();
        for (row, (&left, &right)) in (0..).zip(left.iter().zip(&right)) {
            let (product, column) = (times(left, right), fourth(self));
            if product != 0 {
                entries.insert((row, column), over(product, u64::from(assignment[column as usize])) as u32);
            }
        }
        while entries.len() < counts[2] {
            let place = (self.below(u64::from(rows)) as u32, fourth(self) + 1);
            entries.insert(place, self.nonzero());
        }
        let c: Vec<u32> = entries.into_iter().flat_map(|((row, column), value)| [row, column, value]).collect();
        assert_eq!(c.len(), 3 * counts[2], "more rows need an entry of C");
        self.with_challenges(sizes, [a, b, c], assignment)
    }

    /// A satisfied case with |R| = |C| = size, as many entries in each matrix, and |X| a quarter of it.
    pub fn full_case(&mut self, size: u32) -> Case {
        let assignment = after_constant(size, |_| self.nonzero());
        let [a, b] = [(); 2].map(|()| {
            let rows = 0..size;
            rows.flat_map(|row| [row, self.below(u64::from(size)) as u32, self.nonzero()]).collect::<Vec<u32>>()
        });
        let [left, right] = [&a, &b].map(|list| row_sums(list, size, &assignment));
        let products = left.iter().zip(&right).map(|(&left, &right)| times(left, right));
        let c = (0..size).zip(products).flat_map(|(row, product)| {
            let column = self.place(size as usize);
            [row, column as u32, over(product, u64::from(assignment[column])) as u32]
        });
        let c = c.collect();
        self.with_challenges([size, size, (size / 4).max(1)], [a, b, c], assignment)
    }

    fn closed(&mut self, sizes: [u32; 3], a: Vec<u32>, b: Vec<u32>, assignment: Vec<u32>) -> Case {
        let c = self.closing_matrix(sizes[0], &a, &b, &assignment);
        self.with_challenges(sizes, [a, b, c], assignment)
    }

    fn with_challenges(&mut self, sizes: [u32; 3], entries: [Vec<u32>; 3], assignment: Vec<u32>) -> Case {
        let [rows, columns, _] = sizes;
        let mut case = Case::new(sizes, entries, assignment);
        case.mask_word = self.word();
        case.mask = self.mask(columns);
        let gamma = self.outside(case.largest_places());
        let (eta, delta) = (self.three(), self.three());
        let (alpha, beta) = (self.outside(rows), self.outside(columns));
        case.challenges = [alpha, eta[0], eta[1], eta[2], beta, delta[0], delta[1], delta[2], gamma];
        case
    }
}

/// An assignment or its public words: the constant 1 in column 0, then a word for each place after it.
fn after_constant(length: u32, word: impl FnMut(u32) -> u32) -> Vec<u32> {
    [1].into_iter().chain((1..length).map(word)).collect()
}

/// The elements of the domain of a size, in order.
pub fn elements(size: u32) -> Vec<u32> {
    let generator = power(31, (u64::from(MODULUS) - 1) / u64::from(size));
    (0..u64::from(size)).map(|exponent| power(generator, exponent) as u32).collect()
}

/// Each row's sum of values times the assignment at their columns.
fn row_sums(list: &[u32], rows: u32, z: &[u32]) -> Vec<u64> {
    let mut sums = vec![0; rows as usize];
    for entry in list.chunks(3) {
        let sum = &mut sums[entry[0] as usize];
        *sum = (*sum + times(u64::from(entry[2]), u64::from(z[entry[1] as usize]))) % u64::from(MODULUS);
    }
    sums
}

fn minus(a: u64, b: u64) -> u64 {
    (a + u64::from(MODULUS) - b) % u64::from(MODULUS)
}

fn times(a: u64, b: u64) -> u64 {
    a * b % u64::from(MODULUS)
}

fn power(base: u64, exponent: u64) -> u64 {
    match exponent {
        0 => 1,
        _ if exponent.is_multiple_of(2) => power(times(base, base), exponent / 2),
        _ => times(base, power(base, exponent - 1)),
    }
}

fn over(a: u64, b: u64) -> u64 {
    times(a, power(b, u64::from(MODULUS) - 2))
}
