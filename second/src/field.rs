//! The field of p = 2,013,265,921 elements: arithmetic, and the five public calls on words.

use crate::refusal::{self, Refusal};
use std::iter::Sum;
use std::ops::{Add, Div, Mul, Sub};

/// p = 15 × 2^27 + 1.
pub const MODULUS: u32 = 2_013_265_921;

/// A field element, kept as its word below p.
#[derive(Clone, Copy, Debug, PartialEq, Eq)]
pub(crate) struct Element(u32);

impl Element {
    pub const ZERO: Element = Element(0);
    pub const ONE: Element = Element(1);
    /// The number whose powers give the generators of all domains.
    pub const GENERATOR: Element = Element(31);

    /// The element of a word; a word of p or more is read modulo p.
    pub fn new(word: u32) -> Element {
        Element(word % MODULUS)
    }

    /// A domain's size as a field element.
    pub fn of_size(size: usize) -> Element {
        Element((size % MODULUS as usize) as u32)
    }

    pub fn word(self) -> u32 {
        self.0
    }

    /// Square and multiply; the power 0 of every element is 1.
    pub fn power(self, exponent: u32) -> Element {
        let mut result = Element::ONE;
        for bit in (0..u32::BITS).rev() {
            result = result * result;
            if exponent >> bit & 1 == 1 {
                result = result * self;
            }
        }
        result
    }

    /// By Fermat's little theorem; 0 has none.
    pub fn inverse(self) -> Option<Element> {
        (self != Element::ZERO).then(|| self.power(MODULUS - 2))
    }

    fn reduced(number: u64) -> Element {
        Element((number % u64::from(MODULUS)) as u32)
    }
}

impl Add for Element {
    type Output = Element;
    fn add(self, other: Element) -> Element {
        Element::reduced(u64::from(self.0) + u64::from(other.0))
    }
}

impl Sub for Element {
    type Output = Element;
    fn sub(self, other: Element) -> Element {
        Element::reduced(u64::from(self.0) + u64::from(MODULUS) - u64::from(other.0))
    }
}

impl Mul for Element {
    type Output = Element;
    fn mul(self, other: Element) -> Element {
        Element::reduced(u64::from(self.0) * u64::from(other.0))
    }
}

impl Div for Element {
    type Output = Element;
    #[allow(clippy::suspicious_arithmetic_impl)] // division is the product with the inverse
    fn div(self, other: Element) -> Element {
        self * other.inverse().expect("no divisor is 0")
    }
}

impl Sum for Element {
    fn sum<I: Iterator<Item = Element>>(elements: I) -> Element {
        elements.fold(Element::ZERO, |total, element| total + element)
    }
}

/// The elements of a list of words.
pub(crate) fn elements(words: &[u32]) -> Vec<Element> {
    words.iter().map(|&word| Element::new(word)).collect()
}

/// The sum of products of two triples, one place for each of A, B and C.
pub(crate) fn combination(left: [Element; 3], right: [Element; 3]) -> Element {
    left[0] * right[0] + left[1] * right[1] + left[2] * right[2]
}

/// Fills a lent slice with the words of elements.
pub(crate) fn fill(lent: &mut [u32], elements: &[Element]) {
    for (place, element) in lent.iter_mut().zip(elements) {
        *place = element.word();
    }
}

pub fn add(a: u32, b: u32) -> Result<u32, Refusal> {
    refusal::words([a, b])?;
    Ok((Element::new(a) + Element::new(b)).word())
}

pub fn subtract(a: u32, b: u32) -> Result<u32, Refusal> {
    refusal::words([a, b])?;
    Ok((Element::new(a) - Element::new(b)).word())
}

pub fn multiply(a: u32, b: u32) -> Result<u32, Refusal> {
    refusal::words([a, b])?;
    Ok((Element::new(a) * Element::new(b)).word())
}

pub fn power(a: u32, exponent: u32) -> Result<u32, Refusal> {
    refusal::words([a])?;
    Ok(Element::new(a).power(exponent).word())
}

pub fn inverse(a: u32) -> Result<u32, Refusal> {
    refusal::words([a])?;
    refusal::inverse(Element::new(a).inverse()).map(Element::word)
}
