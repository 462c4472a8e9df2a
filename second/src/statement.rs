//! What every prover call begins with: circuit, assignment, mask word and mask polynomial, with
//! the checks 4 to 8, 13, 9 and 10.

use crate::circuit::{self, Circuit};
use crate::domain::Domain;
use crate::field::{self, Element};
use crate::message;
use crate::refusal::{self, Refusal};

/// The places of α, β and γ among the challenges α, η, β, δ, γ.
const POINT_PLACES: [usize; 3] = [0, 4, 8];

/// A call's first inputs as given.
pub(crate) struct Given<'a> {
    pub sizes: [u32; 3],
    pub entries: [&'a [u32]; 3],
    pub assignment: &'a [u32],
    pub mask_word: u32,
    pub mask: &'a [u32],
}

/// The same inputs after the checks.
pub(crate) struct Statement {
    pub circuit: Circuit,
    pub assignment: Vec<Element>,
    pub public_words: Vec<Element>,
    pub mask_word: Element,
    pub mask: Vec<Element>,
}

impl Given<'_> {
    /// Makes the checks, with the challenges so far and each lent slice's section and length.
    pub fn admit(&self, challenges: &[u32], lent: &[(usize, usize)]) -> Result<Statement, Refusal> {
        refusal::sizes(&self.sizes)?;
        self.check_lists(lent)?;
        self.check_words(challenges)?;
        let statement = Statement {
            circuit: Circuit::admit(self.sizes, self.entries)?,
            assignment: field::elements(self.assignment),
            public_words: field::elements(&circuit::public_words(self.sizes, self.assignment)),
            mask_word: Element::new(self.mask_word),
            mask: field::elements(self.mask),
        };
        let circuit = &statement.circuit;
        refusal::mask(&statement.mask, &circuit.columns)?;
        refusal::constant(self.assignment)?;
        refusal::assignment(circuit, &statement.assignment)?;
        check_points(circuit, challenges)?;
        Ok(statement)
    }

    fn check_lists(&self, lent: &[(usize, usize)]) -> Result<(), Refusal> {
        let mut fits = self.entries.map(circuit::fits).to_vec();
        let columns = self.sizes[1] as usize;
        fits.push(self.assignment.len() == columns);
        fits.push(self.mask.len() == 2 * columns);
        let lengths = message::lengths(circuit::six_sizes(self.sizes, self.entries));
        fits.extend(lent.iter().map(|&(section, length)| length == lengths[section]));
        refusal::lists(&fits)
    }

    fn check_words(&self, challenges: &[u32]) -> Result<(), Refusal> {
        let words = circuit::value_words(&self.entries)
            .chain(self.assignment.iter().copied())
            .chain([self.mask_word])
            .chain(self.mask.iter().copied())
            .chain(challenges.iter().copied());
        refusal::words(words)
    }
}

/// Refuses α in R, β in C, γ in K, as far as the challenges go.
fn check_points(circuit: &Circuit, challenges: &[u32]) -> Result<(), Refusal> {
    let forbidden: [&Domain; 3] = [&circuit.rows, &circuit.columns, circuit.largest_places()];
    for (position, place) in POINT_PLACES.into_iter().enumerate() {
        if let Some(&word) = challenges.get(place) {
            refusal::challenge(position, Element::new(word), forbidden[position])?;
        }
    }
    Ok(())
}
