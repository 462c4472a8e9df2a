//! The prover: six public calls without state, each computing its messages by document 01's rules.

use crate::circuit::Matrix;
use crate::field::{self, Element};
use crate::index::MatrixIndex;
use crate::message;
use crate::polynomial::{self, Polynomial};
use crate::refusal::Refusal;
use crate::statement::{Given, Statement};

/// The messages g1 and h1.
struct Line {
    remainder: Polynomial,
    quotient: Polynomial,
}

/// One matrix's g_M and h_M.
struct MatrixDivision {
    remainder: Polynomial,
    quotient: Polynomial,
}

/// All challenges, as elements.
struct Challenges {
    alpha: Element,
    eta: [Element; 3],
    beta: Element,
    delta: [Element; 3],
    gamma: Element,
}

impl Statement {
    /// x̂: interpolates the assignment at the public columns on X.
    fn public_polynomial(&self) -> Polynomial {
        polynomial::interpolation(&self.circuit.public, &self.public_words)
    }

    /// ŵ = (z - x̂)/v_X + r × v_C/v_X.
    fn witness(&self) -> Polynomial {
        let circuit = &self.circuit;
        let assignment = polynomial::interpolation(&circuit.columns, &self.assignment);
        let private = polynomial::difference(&assignment, &self.public_polynomial());
        let (unmasked, _) = polynomial::divided_by_vanishing(&private, &circuit.public);
        let columns = polynomial::vanishing(&circuit.columns);
        let (masking, _) = polynomial::divided_by_vanishing(&columns, &circuit.public);
        polynomial::sum(&unmasked, &polynomial::scaled(&masking, self.mask_word))
    }

    /// ẑ = ŵ v_X + x̂.
    fn masked_assignment(&self) -> Polynomial {
        let vanishing = polynomial::vanishing(&self.circuit.public);
        let witness_part = polynomial::product(&self.witness(), &vanishing);
        polynomial::sum(&witness_part, &self.public_polynomial())
    }

    /// ẑ_A, ẑ_B, ẑ_C; ẑ has the assignment's values on C.
    fn row_polynomials(&self) -> [Polynomial; 3] {
        let circuit = &self.circuit;
        circuit.matrices.each_ref().map(|matrix| {
            let sums = circuit.row_sums(matrix, &self.assignment);
            polynomial::interpolation(&circuit.rows, &sums)
        })
    }

    /// h0 = (ẑ_A ẑ_B - ẑ_C)/v_R.
    fn row_quotient(&self) -> Polynomial {
        let [a, b, c] = self.row_polynomials();
        let excess = polynomial::difference(&polynomial::product(&a, &b), &c);
        polynomial::divided_by_vanishing(&excess, &self.circuit.rows).0
    }

    /// σ_M = ẑ_M(α).
    fn sums(&self, alpha: Element) -> [Element; 3] {
        self.row_polynomials().map(|row_polynomial| polynomial::value_at(&row_polynomial, alpha))
    }

    /// Divides m + Σ η_M M̂(α,Y) ẑ(Y) by v_C; the remainder past its constant is g1.
    fn line(&self, alpha: Element, eta: [Element; 3]) -> Line {
        let circuit = &self.circuit;
        let mut joined = vec![Element::ZERO; circuit.columns.size()];
        for (matrix, factor) in circuit.matrices.iter().zip(eta) {
            let column_sums = circuit.column_sums_at(matrix, alpha);
            let restricted = polynomial::interpolation(&circuit.columns, &column_sums);
            joined = polynomial::sum(&joined, &polynomial::scaled(&restricted, factor));
        }
        let weighted = polynomial::product(&joined, &self.masked_assignment());
        let total = polynomial::sum(&self.mask, &weighted);
        let (quotient, remainder) = polynomial::divided_by_vanishing(&total, &circuit.columns);
        Line { remainder: remainder[1..].to_vec(), quotient }
    }

    /// ω_M = M̂(α,β).
    fn values(&self, alpha: Element, beta: Element) -> [Element; 3] {
        let matrices = self.circuit.matrices.each_ref();
        matrices.map(|matrix| self.circuit.matrix_at(matrix, alpha, beta))
    }

    /// a_M = v_R(α) v_C(β) rowcolval_M.
    fn numerator(&self, index: &MatrixIndex, alpha: Element, beta: Element) -> Polynomial {
        let rows = self.circuit.rows.vanishing_at(alpha);
        let columns = self.circuit.columns.vanishing_at(beta);
        polynomial::scaled(&index.weighted, rows * columns)
    }

    /// b_M = |R||C|(αβ - α col_M - β row_M + rowcol_M).
    fn denominator(&self, index: &MatrixIndex, alpha: Element, beta: Element) -> Polynomial {
        let negative = |factor: Element| Element::ZERO - factor;
        let columns = polynomial::scaled(&index.column, negative(alpha));
        let rows = polynomial::scaled(&index.row, negative(beta));
        let linear = polynomial::sum(&columns, &rows);
        let sum = polynomial::sum(&polynomial::sum(&[alpha * beta], &linear), &index.product);
        let count = self.circuit.rows.count() * self.circuit.columns.count();
        polynomial::scaled(&sum, count)
    }

    /// Interpolates a_M/b_M on K_M as Y g_M + ω_M/|K_M|, and divides
    /// a_M - b_M (Y g_M + ω_M/|K_M|) by v_{K_M}.
    fn matrix_division(&self, matrix: &Matrix, alpha: Element, beta: Element) -> MatrixDivision {
        let index = MatrixIndex::new(&self.circuit, matrix);
        let numerator = self.numerator(&index, alpha, beta);
        let denominator = self.denominator(&index, alpha, beta);
        let points = matrix.places.elements().iter();
        let quotients =
            points.map(|&point| polynomial::value_at(&numerator, point) / polynomial::value_at(&denominator, point));
        let fraction = polynomial::interpolation(&matrix.places, &quotients.collect::<Vec<_>>());
        let approached = polynomial::product(&denominator, &fraction);
        let excess = polynomial::difference(&numerator, &approached);
        MatrixDivision {
            remainder: fraction[1..].to_vec(),
            quotient: polynomial::divided_by_vanishing(&excess, &matrix.places).0,
        }
    }

    /// g_A, g_B, g_C.
    fn matrix_remainders(&self, alpha: Element, beta: Element) -> [Polynomial; 3] {
        let matrices = self.circuit.matrices.each_ref();
        matrices.map(|matrix| self.matrix_division(matrix, alpha, beta).remainder)
    }

    /// h2 = Σ δ_M (|K_M|/|K|) h_M.
    fn joined_quotient(&self, alpha: Element, beta: Element, delta: [Element; 3]) -> Polynomial {
        let largest = self.circuit.largest_places();
        let mut joined = vec![Element::ZERO; largest.size() - 1];
        for (matrix, factor) in self.circuit.matrices.iter().zip(delta) {
            let quotient = self.matrix_division(matrix, alpha, beta).quotient;
            let weight = factor * matrix.places.count() / largest.count();
            joined = polynomial::sum(&joined, &polynomial::scaled(&quotient, weight));
        }
        joined
    }

    /// ŵ, m, g1, h1 at β; h0 at α; h2, g_A, g_B, g_C at γ.
    fn message_openings(&self, challenges: Challenges) -> Vec<Element> {
        let Challenges { alpha, eta, beta, delta, gamma } = challenges;
        let line = self.line(alpha, eta);
        let at_beta = [self.witness(), self.mask.clone(), line.remainder, line.quotient];
        let [a, b, c] = self.matrix_remainders(alpha, beta);
        let at_gamma = [self.joined_quotient(alpha, beta, delta), a, b, c];
        let mut opened = Vec::new();
        opened.extend(at_beta.map(|message| polynomial::value_at(&message, beta)));
        opened.push(polynomial::value_at(&self.row_quotient(), alpha));
        opened.extend(at_gamma.map(|message| polynomial::value_at(&message, gamma)));
        opened
    }

    /// row, col, rowcol, rowcolval at γ for A, B and C.
    fn index_openings(&self, gamma: Element) -> Vec<Element> {
        let mut opened = Vec::new();
        for matrix in &self.circuit.matrices {
            let index = MatrixIndex::new(&self.circuit, matrix);
            let polynomials = index.polynomials();
            opened.extend(polynomials.map(|polynomial| polynomial::value_at(polynomial, gamma)));
        }
        opened
    }
}

/// The messages ŵ and h0.
pub fn first_round(
    sizes: [u32; 3],
    entries: [&[u32]; 3],
    assignment: &[u32],
    mask_word: u32,
    mask: &[u32],
    lent_witness: &mut [u32],
    lent_row_quotient: &mut [u32],
) -> Result<(), Refusal> {
    let given = Given { sizes, entries, assignment, mask_word, mask };
    let lent = [(message::WITNESS, lent_witness.len()), (message::ROW_QUOTIENT, lent_row_quotient.len())];
    let statement = given.admit(&[], &lent)?;
    field::fill(lent_witness, &statement.witness());
    field::fill(lent_row_quotient, &statement.row_quotient());
    Ok(())
}

/// The three σ.
pub fn second_round(
    sizes: [u32; 3],
    entries: [&[u32]; 3],
    assignment: &[u32],
    mask_word: u32,
    mask: &[u32],
    alpha: u32,
) -> Result<[u32; 3], Refusal> {
    let given = Given { sizes, entries, assignment, mask_word, mask };
    let statement = given.admit(&[alpha], &[])?;
    Ok(statement.sums(Element::new(alpha)).map(Element::word))
}

/// The messages g1 and h1.
pub fn third_round(
    sizes: [u32; 3],
    entries: [&[u32]; 3],
    assignment: &[u32],
    mask_word: u32,
    mask: &[u32],
    alpha: u32,
    eta: [u32; 3],
    lent_line_remainder: &mut [u32],
    lent_line_quotient: &mut [u32],
) -> Result<(), Refusal> {
    let given = Given { sizes, entries, assignment, mask_word, mask };
    let challenges = [alpha, eta[0], eta[1], eta[2]];
    let lent =
        [(message::LINE_REMAINDER, lent_line_remainder.len()), (message::LINE_QUOTIENT, lent_line_quotient.len())];
    let statement = given.admit(&challenges, &lent)?;
    let line = statement.line(Element::new(alpha), eta.map(Element::new));
    field::fill(lent_line_remainder, &line.remainder);
    field::fill(lent_line_quotient, &line.quotient);
    Ok(())
}

/// The three ω, and the messages g_A, g_B and g_C.
pub fn fourth_round(
    sizes: [u32; 3],
    entries: [&[u32]; 3],
    assignment: &[u32],
    mask_word: u32,
    mask: &[u32],
    alpha: u32,
    eta: [u32; 3],
    beta: u32,
    lent_matrix_remainders: [&mut [u32]; 3],
) -> Result<[u32; 3], Refusal> {
    let given = Given { sizes, entries, assignment, mask_word, mask };
    let challenges = [alpha, eta[0], eta[1], eta[2], beta];
    let lengths = lent_matrix_remainders.each_ref().map(|slice| slice.len());
    let lent: Vec<_> = message::MATRIX_REMAINDERS.into_iter().zip(lengths).collect();
    let statement = given.admit(&challenges, &lent)?;
    let (alpha, beta) = (Element::new(alpha), Element::new(beta));
    let remainders = statement.matrix_remainders(alpha, beta);
    for (slice, remainder) in lent_matrix_remainders.into_iter().zip(&remainders) {
        field::fill(slice, remainder);
    }
    Ok(statement.values(alpha, beta).map(Element::word))
}

/// The message h2.
pub fn fifth_round(
    sizes: [u32; 3],
    entries: [&[u32]; 3],
    assignment: &[u32],
    mask_word: u32,
    mask: &[u32],
    alpha: u32,
    eta: [u32; 3],
    beta: u32,
    delta: [u32; 3],
    lent_joined_quotient: &mut [u32],
) -> Result<(), Refusal> {
    let given = Given { sizes, entries, assignment, mask_word, mask };
    let challenges = [&[alpha][..], &eta, &[beta], &delta].concat();
    let lent = [(message::JOINED_QUOTIENT, lent_joined_quotient.len())];
    let statement = given.admit(&challenges, &lent)?;
    let (alpha, beta) = (Element::new(alpha), Element::new(beta));
    let quotient = statement.joined_quotient(alpha, beta, delta.map(Element::new));
    field::fill(lent_joined_quotient, &quotient);
    Ok(())
}

/// The 21 openings: ŵ, m, g1, h1 at β; h0 at α; h2, g_A, g_B, g_C at γ; the index polynomials at γ.
pub fn openings(
    sizes: [u32; 3],
    entries: [&[u32]; 3],
    assignment: &[u32],
    mask_word: u32,
    mask: &[u32],
    alpha: u32,
    eta: [u32; 3],
    beta: u32,
    delta: [u32; 3],
    gamma: u32,
) -> Result<[u32; 21], Refusal> {
    let given = Given { sizes, entries, assignment, mask_word, mask };
    let words = [&[alpha][..], &eta, &[beta], &delta, &[gamma]].concat();
    let statement = given.admit(&words, &[])?;
    let challenges = Challenges {
        alpha: Element::new(alpha),
        eta: eta.map(Element::new),
        beta: Element::new(beta),
        delta: delta.map(Element::new),
        gamma: Element::new(gamma),
    };
    let mut opened = statement.message_openings(challenges);
    opened.extend(statement.index_openings(Element::new(gamma)));
    let mut result = [0; 21];
    field::fill(&mut result, &opened);
    Ok(result)
}
