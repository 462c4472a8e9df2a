//! The rules of the table of messages as polynomial identities: both sides, by the definitions of
//! document 01, at more points than their degree.

use crate::arithmetic::{
    combination, elements, interpolated, lagrange, minus, over, plus, times, total, value_at, vanishing,
};
use crate::case::{Case, Proof};

/// A proof with its case, and the most points to try.
pub struct Rules<'a> {
    pub case: &'a Case,
    pub proof: &'a Proof,
    pub most_points: usize,
}

impl Rules<'_> {
    pub fn check(&self) {
        self.check_lengths();
        self.check_witness();
        self.check_rows();
        self.check_line();
        self.check_values();
        self.check_matrices();
        self.check_joined();
        self.check_openings();
    }

    fn sizes(&self) -> [usize; 3] {
        self.case.sizes.map(|size| size as usize)
    }

    /// Points 0, 1, 2, ... of a number, or spread ones where there are too many.
    fn points(&self, count: usize) -> Vec<u64> {
        match count <= self.most_points {
            true => (0..count as u64).collect(),
            false => (0..self.most_points as u64).map(|place| place * 123_456_789).collect(),
        }
    }

    fn message(&self, section: usize, point: u64) -> u64 {
        value_at(&self.proof.sections[section], point)
    }

    fn check_lengths(&self) {
        assert_eq!(self.proof.sections.each_ref().map(Vec::len), self.case.lengths());
    }

    /// ẑ at a point: ŵ v_X + x̂.
    fn assignment(&self, point: u64) -> u64 {
        let masked = times(self.message(0, point), vanishing(self.sizes()[2], point));
        plus(masked, interpolated(&self.case.public_words(), point))
    }

    /// ẑ is the interpolation of z on C plus r × v_C.
    fn check_witness(&self) {
        let columns = self.sizes()[1];
        for point in self.points(columns + 1) {
            let mask = times(u64::from(self.case.mask_word), vanishing(columns, point));
            let expected = plus(interpolated(&self.case.assignment, point), mask);
            assert_eq!(self.assignment(point), expected);
        }
        assert_eq!(self.proof.sections[1], self.case.mask);
    }

    /// ẑ_M at a point.
    fn rows_at(&self, point: u64) -> [u64; 3] {
        let weights = lagrange(self.sizes()[0], point);
        let z = &self.case.assignment;
        self.case.lists().map(|list| {
            let entries = list.chunks(3);
            total(entries.map(|entry| {
                let value = times(u64::from(entry[2]), u64::from(z[entry[1] as usize]));
                times(value, weights[entry[0] as usize])
            }))
        })
    }

    fn check_rows(&self) {
        let rows = self.sizes()[0];
        for point in self.points(2 * rows - 1) {
            let [a, b, c] = self.rows_at(point);
            let right = times(self.message(2, point), vanishing(rows, point));
            assert_eq!(minus(times(a, b), c), right);
        }
        let sums: Vec<u64> = self.proof.sections[3].iter().map(|&word| u64::from(word)).collect();
        assert_eq!(sums, self.rows_at(u64::from(self.case.alpha)));
    }

    /// M̂(α,Y) at a point.
    fn matrices_at(&self, point: u64) -> [u64; 3] {
        let [rows, columns, _] = self.sizes();
        let row_weights = lagrange(rows, u64::from(self.case.alpha));
        let column_weights = lagrange(columns, point);
        self.case.lists().map(|list| {
            let entries = list.chunks(3);
            total(entries.map(|entry| {
                let weight = times(row_weights[entry[0] as usize], column_weights[entry[1] as usize]);
                times(u64::from(entry[2]), weight)
            }))
        })
    }

    fn words(&self, section: usize) -> [u64; 3] {
        [0, 1, 2].map(|place| u64::from(self.proof.sections[section][place]))
    }

    fn check_line(&self) {
        let columns = self.sizes()[1];
        let sum = over(combination(self.case.eta, self.words(3)), columns as u64);
        for point in self.points(2 * columns) {
            let joined = combination(self.case.eta, self.matrices_at(point));
            let left = plus(value_at(&self.case.mask, point), times(joined, self.assignment(point)));
            let quotient = times(self.message(5, point), vanishing(columns, point));
            let right = plus(quotient, times(point, self.message(4, point)));
            assert_eq!(left, plus(right, sum));
        }
    }

    fn check_values(&self) {
        assert_eq!(self.words(6), self.matrices_at(u64::from(self.case.beta)));
    }

    /// a_M - b_M (Y g_M + ω_M/|K_M|) at a point.
    fn matrix_excess(&self, index: &[Vec<u32>; 12], matrix: usize, point: u64) -> u64 {
        let [rows, columns, _] = self.sizes();
        let (alpha, beta) = (u64::from(self.case.alpha), u64::from(self.case.beta));
        let [row, column, product, weighted] = [0, 1, 2, 3].map(|place| value_at(&index[4 * matrix + place], point));
        let a = times(times(vanishing(rows, alpha), vanishing(columns, beta)), weighted);
        let inner = minus(minus(times(alpha, beta), times(alpha, column)), times(beta, row));
        let b = times(times(rows as u64, columns as u64), plus(inner, product));
        let share = over(self.words(6)[matrix], u64::from(self.case.places()[matrix]));
        let fraction = plus(times(point, self.message(7 + matrix, point)), share);
        minus(a, times(b, fraction))
    }

    /// Each matrix's excess is a multiple of v_{K_M}: it is 0 on K_M.
    fn check_matrices(&self) {
        let index = self.case.index().unwrap();
        for matrix in 0..3 {
            let places = elements(self.case.places()[matrix] as usize);
            for point in places.into_iter().take(self.most_points) {
                assert_eq!(self.matrix_excess(&index, matrix, point), 0);
            }
        }
    }

    /// Σ δ_M (|K_M|/|K|) h_M v_K = h2 v_K outside K, with h_M v_{K_M} the excess.
    fn check_joined(&self) {
        let index = self.case.index().unwrap();
        let largest = self.case.largest_places();
        let points = self.points(3 * largest + 1).into_iter();
        for point in points.filter(|&point| vanishing(largest, point) != 0) {
            let quotients = [0, 1, 2].map(|matrix| {
                let size = self.case.places()[matrix];
                let quotient = over(self.matrix_excess(&index, matrix, point), vanishing(size as usize, point));
                times(quotient, over(u64::from(size), largest as u64))
            });
            assert_eq!(combination(self.case.delta, quotients), self.message(10, point));
        }
    }

    fn check_openings(&self) {
        let [alpha, beta, gamma] = [self.case.alpha, self.case.beta, self.case.gamma].map(u64::from);
        let mut expected: Vec<u64> = [0, 1, 4, 5].map(|section| self.message(section, beta)).to_vec();
        expected.push(self.message(2, alpha));
        expected.extend([10, 7, 8, 9].map(|section| self.message(section, gamma)));
        let index = self.case.index().unwrap();
        expected.extend(index.iter().map(|polynomial| value_at(polynomial, gamma)));
        assert_eq!(self.proof.openings.map(u64::from).to_vec(), expected);
    }
}
