//! The domains: subgroups of a size from 1 to 1,024, their vanishing polynomials and Lagrange functions.

use crate::field::{self, Element, MODULUS};
use crate::refusal::{self, Refusal};

/// The allowed sizes.
const SIZES: [u32; 11] = [1, 2, 4, 8, 16, 32, 64, 128, 256, 512, 1024];

pub(crate) fn is_size(size: u32) -> bool {
    SIZES.contains(&size)
}

/// A domain as the list of its elements in order.
pub(crate) struct Domain {
    elements: Vec<Element>,
}

impl Domain {
    /// The domain of an allowed size: the powers of 31^((p-1)/size).
    pub fn new(size: u32) -> Domain {
        let generator = Element::GENERATOR.power((MODULUS - 1) / size);
        let powers = std::iter::successors(Some(Element::ONE), |&element| Some(element * generator));
        Domain { elements: powers.take(size as usize).collect() }
    }

    pub fn size(&self) -> usize {
        self.elements.len()
    }

    /// The size as a field element.
    pub fn count(&self) -> Element {
        Element::of_size(self.size())
    }

    pub fn elements(&self) -> &[Element] {
        &self.elements
    }

    pub fn element(&self, place: usize) -> Element {
        self.elements[place]
    }

    pub fn contains(&self, point: Element) -> bool {
        self.elements.contains(&point)
    }

    /// v_D at a point.
    pub fn vanishing_at(&self, point: Element) -> Element {
        point.power(self.size() as u32) - Element::ONE
    }

    /// L_a at a point, a being the element at a place; v_D makes it 0 at the other elements.
    pub fn lagrange_at(&self, place: usize, point: Element) -> Element {
        let element = self.element(place);
        if point == element {
            return Element::ONE;
        }
        element * self.vanishing_at(point) / (self.count() * (point - element))
    }

    /// The value at a point of the polynomial that has the given values on the domain.
    pub fn interpolated_at(&self, values: &[Element], point: Element) -> Element {
        let terms = values.iter().enumerate();
        terms.map(|(place, &value)| value * self.lagrange_at(place, point)).sum()
    }
}

/// |R|, |C|, |X|, |K_A|, |K_B|, |K_C|; where they are allowed they give domains.
#[derive(Clone, Copy, Debug, PartialEq, Eq)]
pub(crate) struct Sizes(pub [u32; 6]);

impl Sizes {
    pub fn rows(self) -> Domain {
        Domain::new(self.0[0])
    }

    pub fn columns(self) -> Domain {
        Domain::new(self.0[1])
    }

    pub fn public(self) -> Domain {
        Domain::new(self.0[2])
    }

    pub fn places(self) -> [Domain; 3] {
        [3, 4, 5].map(|place| Domain::new(self.0[place]))
    }

    /// K, the largest K_M.
    pub fn largest_places(self) -> Domain {
        Domain::new(self.0[3].max(self.0[4]).max(self.0[5]))
    }
}

pub fn domain(size: u32, lent_elements: &mut [u32]) -> Result<(), Refusal> {
    refusal::sizes(&[size])?;
    refusal::lists(&[lent_elements.len() == size as usize])?;
    field::fill(lent_elements, Domain::new(size).elements());
    Ok(())
}
