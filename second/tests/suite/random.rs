//! Seeded random circuits with satisfying assignments, masks and allowed challenges.
//!
//! The environment variable SEED is the seed of all tests, a number below 2^56 (1 by default). COUNT is how many times the random
//! part of each test is done, at least 1 (1 by default).

use crate::arithmetic::{minus, over, plus, power, times, P};
use crate::case::Case;
use std::collections::BTreeSet;

/// A number of the environment, 1 by default.
fn setting(name: &str) -> u64 {
    let Ok(text) = std::env::var(name) else {
        return 1;
    };
    text.parse().unwrap_or_else(|_| panic!("{name} is {text}, not a number below 2^64"))
}

/// How many times a random test is done, from its default number.
pub fn count(default: u64) -> u64 {
    let times = setting("COUNT");
    assert_ne!(times, 0, "COUNT is 0, and nothing would be checked: it must be at least 1");
    default.checked_mul(times).unwrap_or_else(|| panic!("COUNT is {times}, which is too large"))
}

/// How many checks a random test has made. A test that ends without any fails.
#[derive(Default)]
pub struct Checked(u64);

impl Checked {
    pub fn one(&mut self) {
        self.0 += 1;
    }
}

impl Drop for Checked {
    fn drop(&mut self) {
        assert!(std::thread::panicking() || self.0 > 0, "the test has checked nothing");
    }
}

/// Marsaglia's xorshift with 64 bits.
pub struct Random(u64);

impl Random {
    /// Different for each seed and each test, of which there are fewer than 256: the factor is odd, so it keeps them apart.
    pub fn new(test: u64) -> Random {
        let seed = setting("SEED");
        assert!(seed < 1 << 56, "SEED is {seed}: it must be below 2^56");
        let mut random = Random((seed << 8 | test).wrapping_mul(0x9e37_79b9_7f4a_7c15) | 1);
        random.next();
        random
    }

    pub fn next(&mut self) -> u64 {
        self.0 ^= self.0 << 13;
        self.0 ^= self.0 >> 7;
        self.0 ^= self.0 << 17;
        self.0
    }

    pub fn below(&mut self, bound: u64) -> u64 {
        (self.next() >> 11) % bound
    }

    pub fn word(&mut self) -> u32 {
        self.below(P) as u32
    }

    /// The numbers below a bound, in any order.
    pub fn order(&mut self, bound: u32) -> Vec<u32> {
        let mut order: Vec<u32> = (0..bound).collect();
        for place in (1..order.len()).rev() {
            order.swap(place, self.below(place as u64 + 1) as usize);
        }
        order
    }

    fn nonzero(&mut self) -> u32 {
        (1 + self.below(P - 1)) as u32
    }

    pub fn words(&mut self, count: usize) -> Vec<u32> {
        (0..count).map(|_| self.word()).collect()
    }

    fn three(&mut self) -> [u32; 3] {
        [self.word(), self.word(), self.word()]
    }

    /// A word outside the domain of a size.
    fn outside(&mut self, size: usize) -> u32 {
        loop {
            let word = self.word();
            if power(u64::from(word), size as u64) != 1 {
                return word;
            }
        }
    }

    /// An entry list with random places and values.
    fn matrix(&mut self, rows: u32, columns: u32, count: usize) -> Vec<u32> {
        let mut places = BTreeSet::new();
        while places.len() < count {
            places.insert((self.below(u64::from(rows)) as u32, self.below(u64::from(columns)) as u32));
        }
        let entries = places.into_iter();
        entries.flat_map(|(row, column)| [row, column, self.nonzero()]).collect()
    }

    /// A matrix C such that the assignment satisfies every row, with one entry or two in a row that needs any.
    fn closing_matrix(&mut self, rows: u32, a: &[u32], b: &[u32], z: &[u32]) -> Vec<u32> {
        let filled: Vec<usize> = (0..z.len()).filter(|&column| z[column] != 0).collect();
        let mut list = Vec::new();
        for row in 0..rows {
            let wanted = times(row_sum(a, row, z), row_sum(b, row, z));
            if wanted == 0 {
                continue;
            }
            let last = filled[self.below(filled.len() as u64) as usize];
            let mut rest = wanted;
            if last > 0 && rows <= 512 {
                let first = self.below(last as u64) as usize;
                let value = self.nonzero();
                let left = minus(wanted, times(u64::from(value), u64::from(z[first])));
                if left != 0 {
                    list.extend([row, first as u32, value]);
                    rest = left;
                }
            }
            list.extend([row, last as u32, over(rest, u64::from(z[last])) as u32]);
        }
        list
    }

    /// A mask polynomial whose values over C add to 0: the coefficients 0 and |C| are opposite.
    fn mask(&mut self, columns: usize) -> Vec<u32> {
        let mut mask = self.words(2 * columns);
        mask[columns] = minus(0, u64::from(mask[0])) as u32;
        mask
    }

    /// A satisfied case of given sizes, with at most so many entries in A and B.
    pub fn case(&mut self, sizes: [u32; 3], most_entries: u64) -> Case {
        let [rows, columns, _] = sizes;
        let most = most_entries.min(u64::from(rows) * u64::from(columns));
        let counts = [self.below(most + 1) as usize, self.below(most + 1) as usize];
        let [a, b] = counts.map(|count| self.matrix(rows, columns, count));
        let assignment = assignment(columns, || if self.below(8) == 0 { 0 } else { self.word() });
        self.case_of(sizes, a, b, assignment)
    }

    /// A satisfied case of size 1,024 in everything, with 1,024 entries in each matrix.
    pub fn largest_case(&mut self) -> Case {
        let assignment = assignment(1024, || self.nonzero());
        let [a, b] = [(); 2].map(|()| {
            let places = 0..1024;
            places.flat_map(|row| [row, self.below(1024) as u32, self.nonzero()]).collect::<Vec<u32>>()
        });
        self.case_of([1024, 1024, 256], a, b, assignment)
    }

    fn case_of(&mut self, sizes: [u32; 3], a: Vec<u32>, b: Vec<u32>, assignment: Vec<u32>) -> Case {
        let c = self.closing_matrix(sizes[0], &a, &b, &assignment);
        self.with_challenges(sizes, [a, b, c], assignment)
    }

    /// A case of this circuit and assignment, with random masks and allowed challenges.
    pub fn with_challenges(&mut self, sizes: [u32; 3], entries: [Vec<u32>; 3], assignment: Vec<u32>) -> Case {
        let case = Case {
            sizes,
            entries,
            assignment,
            mask_word: self.word(),
            mask: self.mask(sizes[1] as usize),
            alpha: self.outside(sizes[0] as usize),
            eta: self.three(),
            beta: self.outside(sizes[1] as usize),
            delta: self.three(),
            gamma: 0,
        };
        self.with_gamma(case)
    }

    /// The case with another γ, outside its K.
    pub fn with_gamma(&mut self, case: Case) -> Case {
        Case { gamma: self.outside(case.largest_places()), ..case }
    }

    /// Three sizes, each up to 2^most, the third at most the second.
    pub fn sizes(&mut self, most: u64) -> [u32; 3] {
        let columns = self.below(most + 1);
        let public = self.below(columns + 1);
        [self.below(most + 1), columns, public].map(|place| 1 << place)
    }
}

/// The constant 1 in column 0, and a word for each other column.
fn assignment(columns: u32, mut word: impl FnMut() -> u32) -> Vec<u32> {
    (0..columns).map(|column| if column == 0 { 1 } else { word() }).collect()
}

/// The sum of a row's values, each times the assignment at its column.
fn row_sum(list: &[u32], row: u32, z: &[u32]) -> u64 {
    let entries = list.chunks(3).filter(|entry| entry[0] == row);
    let terms = entries.map(|entry| times(u64::from(entry[2]), u64::from(z[entry[1] as usize])));
    terms.fold(0, plus)
}
