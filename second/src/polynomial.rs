//! Polynomials as coefficient lists, constant first: schoolbook product, Lagrange interpolation, evaluation
//! element by element, long division by v_D.

use crate::domain::Domain;
use crate::field::{self, Element};
use crate::refusal::{self, Refusal};

/// The most words that the call `evaluate` takes, and `evaluate_part` in one part.
const EVALUATE_LIMIT: usize = 2048;

pub(crate) type Polynomial = Vec<Element>;

/// The value at a point, by Horner's rule.
pub(crate) fn value_at(polynomial: &[Element], point: Element) -> Element {
    let coefficients = polynomial.iter().rev();
    coefficients.fold(Element::ZERO, |value, &coefficient| value * point + coefficient)
}

/// The coefficient at a place, 0 past the end.
fn coefficient(polynomial: &[Element], place: usize) -> Element {
    polynomial.get(place).copied().unwrap_or(Element::ZERO)
}

/// The sum, as long as the longer of the two.
pub(crate) fn sum(left: &[Element], right: &[Element]) -> Polynomial {
    let places = 0..left.len().max(right.len());
    places.map(|place| coefficient(left, place) + coefficient(right, place)).collect()
}

/// The difference, as long as the longer of the two.
pub(crate) fn difference(left: &[Element], right: &[Element]) -> Polynomial {
    let places = 0..left.len().max(right.len());
    places.map(|place| coefficient(left, place) - coefficient(right, place)).collect()
}

pub(crate) fn scaled(polynomial: &[Element], factor: Element) -> Polynomial {
    polynomial.iter().map(|&coefficient| coefficient * factor).collect()
}

/// The schoolbook product, of length left + right - 1 (0 where a factor has no words).
pub(crate) fn product(left: &[Element], right: &[Element]) -> Polynomial {
    if left.is_empty() || right.is_empty() {
        return Vec::new();
    }
    let mut result = vec![Element::ZERO; left.len() + right.len() - 1];
    for (left_place, &left_word) in left.iter().enumerate() {
        for (right_place, &right_word) in right.iter().enumerate() {
            let place = left_place + right_place;
            result[place] = result[place] + left_word * right_word;
        }
    }
    result
}

/// v_D = Y^|D| - 1, of length |D| + 1.
pub(crate) fn vanishing(domain: &Domain) -> Polynomial {
    let mut result = vec![Element::ZERO; domain.size() + 1];
    result[0] = Element::ZERO - Element::ONE;
    result[domain.size()] = Element::ONE;
    result
}

/// Long division by v_D: the quotient, |D| shorter than the polynomial, and the remainder of length |D|.
pub(crate) fn divided_by_vanishing(polynomial: &[Element], domain: &Domain) -> (Polynomial, Polynomial) {
    let size = domain.size();
    let mut remainder = polynomial.to_vec();
    let mut quotient = vec![Element::ZERO; polynomial.len().saturating_sub(size)];
    for place in (0..quotient.len()).rev() {
        let leading = remainder[place + size];
        quotient[place] = leading;
        remainder[place + size] = Element::ZERO;
        remainder[place] = remainder[place] + leading;
    }
    remainder.resize(size, Element::ZERO);
    (quotient, remainder)
}

/// The polynomial of length |D| with the given values on D, by Lagrange's formula: the sum over D's
/// elements a of value × a/|D| × v_D/(Y - a). Dividing v_D by Y - a gives the coefficient 1 at the top,
/// and each other one as a times the one above.
pub(crate) fn interpolation(domain: &Domain, values: &[Element]) -> Polynomial {
    let mut result = vec![Element::ZERO; domain.size()];
    let scale = Element::ONE / domain.count();
    for (&element, &value) in domain.elements().iter().zip(values) {
        let mut term = value * element * scale;
        for place in result.iter_mut().rev() {
            *place = *place + term;
            term = term * element;
        }
    }
    result
}

/// The values on D in the order of its elements, each by an evaluation of its own.
fn values_on(domain: &Domain, polynomial: &[Element]) -> Vec<Element> {
    domain.elements().iter().map(|&element| value_at(polynomial, element)).collect()
}

pub fn evaluate(coefficients: &[u32], point: u32) -> Result<u32, Refusal> {
    refusal::lists(&[coefficients.len() <= EVALUATE_LIMIT])?;
    refusal::words(coefficients.iter().copied().chain([point]))?;
    let polynomial = field::elements(coefficients);
    Ok(value_at(&polynomial, Element::new(point)).word())
}

/// Evaluation taken up midway (document 02, request 5): the next sum and the next power. No power is carried
/// along: each coefficient is multiplied by the power of the point that belongs to its place.
pub fn evaluate_part(sum: u32, power: u32, point: u32, part: &[u32]) -> Result<(u32, u32), Refusal> {
    refusal::lists(&[part.len() <= EVALUATE_LIMIT])?;
    refusal::words([sum, power, point].into_iter().chain(part.iter().copied()))?;
    let [sum, power, point] = [sum, power, point].map(Element::new);
    let terms = (0..).zip(part).map(|(place, &word)| Element::new(word) * point.power(place));
    let value: Element = terms.sum();
    let next_power = power * point.power(part.len() as u32);
    Ok(((sum + power * value).word(), next_power.word()))
}

pub fn interpolate(size: u32, values: &[u32], lent_coefficients: &mut [u32]) -> Result<(), Refusal> {
    refusal::sizes(&[size])?;
    let length = size as usize;
    refusal::lists(&[values.len() == length, lent_coefficients.len() == length])?;
    refusal::words(values.iter().copied())?;
    let polynomial = interpolation(&Domain::new(size), &field::elements(values));
    field::fill(lent_coefficients, &polynomial);
    Ok(())
}

pub fn evaluate_on_domain(size: u32, coefficients: &[u32], lent_values: &mut [u32]) -> Result<(), Refusal> {
    refusal::sizes(&[size])?;
    let length = size as usize;
    refusal::lists(&[coefficients.len() == length, lent_values.len() == length])?;
    refusal::words(coefficients.iter().copied())?;
    let values = values_on(&Domain::new(size), &field::elements(coefficients));
    field::fill(lent_values, &values);
    Ok(())
}
