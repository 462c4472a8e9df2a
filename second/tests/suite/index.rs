//! The indexer: its polynomials give back the entries, and the filling of unused places.

use crate::arithmetic::{elements, over, times, value_at};
use crate::case::{square, Case};
use crate::random::{count, Checked, Random};

/// Reads a matrix's entries back from its four polynomials: the places whose weighted value isn't 0.
fn decode(sizes: [u32; 3], places: usize, polynomials: &[Vec<u32>]) -> Vec<u32> {
    let (rows, columns) = (elements(sizes[0] as usize), elements(sizes[1] as usize));
    let mut list = Vec::new();
    for point in elements(places) {
        let [row, column, product, weighted] = [0, 1, 2, 3].map(|which| value_at(&polynomials[which], point));
        assert_eq!(product, times(row, column));
        if weighted == 0 {
            assert_eq!([row, column, product], [1; 3]);
            continue;
        }
        let place = |domain: &[u64], element| domain.iter().position(|&other| other == element).unwrap() as u32;
        list.extend([place(&rows, row), place(&columns, column), over(weighted, product) as u32]);
    }
    list
}

pub fn check(case: &Case) {
    let polynomials = case.index().unwrap();
    for (matrix, list) in case.entries.iter().enumerate() {
        let places = case.places()[matrix] as usize;
        assert_eq!(decode(case.sizes, places, &polynomials[4 * matrix..4 * matrix + 4]), *list);
    }
}

#[test]
fn square_case() {
    let last = second::MODULUS - 1;
    let expected = [1, last, last, last, 1, last, last, last, 1, 1, 1, 9].map(|word| vec![word]);
    assert_eq!(square().index().unwrap(), expected);
}

#[test]
fn random_circuits() {
    let mut random = Random::new(6);
    let mut checked = Checked::default();
    for _ in 0..count(200) {
        let sizes = random.sizes(4);
        check(&random.case(sizes, 20));
        checked.one();
    }
}

#[test]
fn largest_circuit() {
    check(&Random::new(7).largest_case());
}
