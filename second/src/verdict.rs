//! The verdict: the three check equations over a session's words and the 21 openings.

use crate::domain::Sizes;
use crate::field::{combination, Element};
use crate::transcript::Transcript;

/// The checks, in their order.
#[derive(Clone, Copy, Debug, PartialEq, Eq)]
pub enum Check {
    Row,
    Line,
    Matrix,
}

/// Accept, or the check that failed first.
#[derive(Clone, Copy, Debug, PartialEq, Eq)]
pub enum Verdict {
    Accept,
    Fails(Check),
}

/// The 21 openings by name; each inner array of `index` is row, col, rowcol, rowcolval of a matrix.
pub(crate) struct Openings {
    witness: Element,
    mask: Element,
    line_remainder: Element,
    line_quotient: Element,
    row_quotient: Element,
    joined_quotient: Element,
    matrix_remainders: [Element; 3],
    index: [[Element; 4]; 3],
}

impl Openings {
    pub fn new(words: [u32; 21]) -> Openings {
        let opened = words.map(Element::new);
        let four = |from: usize| [0, 1, 2, 3].map(|place| opened[from + place]);
        Openings {
            witness: opened[0],
            mask: opened[1],
            line_remainder: opened[2],
            line_quotient: opened[3],
            row_quotient: opened[4],
            joined_quotient: opened[5],
            matrix_remainders: [opened[6], opened[7], opened[8]],
            index: [9, 13, 17].map(four),
        }
    }
}

/// What the check equations speak of.
pub(crate) struct Equations {
    pub sizes: Sizes,
    pub public_words: Vec<Element>,
    pub transcript: Transcript<Element>,
    pub openings: Openings,
}

impl Equations {
    pub fn verdict(&self) -> Verdict {
        if !self.row_holds() {
            Verdict::Fails(Check::Row)
        } else if !self.line_holds() {
            Verdict::Fails(Check::Line)
        } else if !self.matrix_holds() {
            Verdict::Fails(Check::Matrix)
        } else {
            Verdict::Accept
        }
    }

    /// σ_A σ_B - σ_C = h0(α) v_R(α).
    fn row_holds(&self) -> bool {
        let Transcript { alpha, sums: [a, b, c], .. } = self.transcript;
        a * b - c == self.openings.row_quotient * self.sizes.rows().vanishing_at(alpha)
    }

    /// m(β) + (Σ η_M ω_M) ẑ(β) = h1(β) v_C(β) + β g1(β) + σ/|C|, with ẑ(β) = ŵ(β) v_X(β) + x̂(β).
    fn line_holds(&self) -> bool {
        let Transcript { sums, eta, beta, values, .. } = self.transcript;
        let (public, columns, openings) = (self.sizes.public(), self.sizes.columns(), &self.openings);
        let public_value = public.interpolated_at(&self.public_words, beta);
        let assignment = openings.witness * public.vanishing_at(beta) + public_value;
        let left = openings.mask + combination(eta, values) * assignment;
        let sum = combination(eta, sums) / columns.count();
        let quotient_part = openings.line_quotient * columns.vanishing_at(beta);
        left == quotient_part + beta * openings.line_remainder + sum
    }

    /// Σ δ_M s_M (a_M - b_M (γ g_M + ω_M/|K_M|)) = h2(γ) v_K(γ).
    fn matrix_holds(&self) -> bool {
        let terms = [0, 1, 2].map(|matrix| self.matrix_term(matrix));
        let vanishing = self.sizes.largest_places().vanishing_at(self.transcript.gamma);
        combination(self.transcript.delta, terms) == self.openings.joined_quotient * vanishing
    }

    /// s_M (a_M - b_M (γ g_M + ω_M/|K_M|)), with s_M = |K_M| v_K(γ) / (|K| v_{K_M}(γ)).
    fn matrix_term(&self, matrix: usize) -> Element {
        let Transcript { alpha, beta, values, gamma, .. } = self.transcript;
        let (rows, columns) = (self.sizes.rows(), self.sizes.columns());
        let (places, largest) = (&self.sizes.places()[matrix], self.sizes.largest_places());
        let [row, column, product, weighted] = self.openings.index[matrix];
        let numerator = rows.vanishing_at(alpha) * columns.vanishing_at(beta) * weighted;
        let denominator = rows.count() * columns.count() * (alpha * beta - alpha * column - beta * row + product);
        let fraction = gamma * self.openings.matrix_remainders[matrix] + values[matrix] / places.count();
        let scale = places.count() * largest.vanishing_at(gamma) / (largest.count() * places.vanishing_at(gamma));
        scale * (numerator - denominator * fraction)
    }
}
