//! Arithmetic modulo p for the tests, apart from the library's.

pub const P: u64 = 2_013_265_921;

pub fn plus(a: u64, b: u64) -> u64 {
    (a + b) % P
}

pub fn minus(a: u64, b: u64) -> u64 {
    (a + P - b) % P
}

pub fn times(a: u64, b: u64) -> u64 {
    a * b % P
}

pub fn power(base: u64, exponent: u64) -> u64 {
    match exponent {
        0 => 1,
        _ if exponent.is_multiple_of(2) => power(times(base, base), exponent / 2),
        _ => times(base, power(base, exponent - 1)),
    }
}

pub fn over(a: u64, b: u64) -> u64 {
    times(a, power(b, P - 2))
}

pub fn total(words: impl IntoIterator<Item = u64>) -> u64 {
    words.into_iter().fold(0, plus)
}

/// The elements of the domain of a size.
pub fn elements(size: usize) -> Vec<u64> {
    let generator = power(31, (P - 1) / size as u64);
    (0..size as u64).map(|place| power(generator, place)).collect()
}

/// v_D at a point.
pub fn vanishing(size: usize, point: u64) -> u64 {
    minus(power(point, size as u64), 1)
}

/// All L_a of a domain at a point, by the two cases of document 01.
pub fn lagrange(size: usize, point: u64) -> Vec<u64> {
    let domain = elements(size);
    let inside = domain.contains(&point);
    let value = |&element: &u64| match inside {
        true => u64::from(point == element),
        false => over(times(element, vanishing(size, point)), times(size as u64, minus(point, element))),
    };
    domain.iter().map(value).collect()
}

/// The value at a point of the polynomial with given values on the domain of their number.
pub fn interpolated(values: &[u32], point: u64) -> u64 {
    let weights = lagrange(values.len(), point);
    total(values.iter().zip(weights).map(|(&value, weight)| times(u64::from(value), weight)))
}

/// A coefficient list's value at a point, as a sum of powers.
pub fn value_at(coefficients: &[u32], point: u64) -> u64 {
    let mut monomial = 1;
    let mut value = 0;
    for &coefficient in coefficients {
        value = plus(value, times(u64::from(coefficient), monomial));
        monomial = times(monomial, point);
    }
    value
}

/// The sum of products of two triples.
pub fn combination(left: [u32; 3], right: [u64; 3]) -> u64 {
    total([0, 1, 2].map(|place| times(u64::from(left[place]), right[place])))
}
